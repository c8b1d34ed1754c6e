//! A second solver for ordering constraints over feature trees.
//!
//! It reads a sheet, derives its facts under `<=` and `~`, tells a clash or answers the questions of the sheet, and
//! tells the labels that roots, and the nodes at paths, have under every assignment.
//! It keeps each relation as rows of bits and inserts whole rows of pairs at a time.

mod answers;
mod closure;
mod forbidden;
mod labels;
mod numbering;
mod paths;
mod rows;
mod selections;
mod sheet;
mod trials;

use std::fmt::Write;

use closure::Facts;
use rows::{Grid, Row};
use selections::Selections;
use sheet::{Question, Sheet};

// Outcome kinds.
const CONSISTENT: u64 = 0;
const CLASH: u64 = 1;
const REFUSED: u64 = 2;

// Table bytes: the value for a pair under <= and for a pair under ~.
const BELOW: u64 = 1;
const COMPATIBLE: u64 = 2;

// The lowest bit of a path's label above the outcome.
const PATH_LABEL: u32 = 40;

// A label plus 1, or 0 for none.
fn one_more(label: Option<u16>) -> u64 {
    label.map_or(0, |a| u64::from(a) + 1)
}

// The outcome as one number.
fn packed(kind: u64, first: u64, second: u64) -> u64 {
    kind + (first << 8) + (second << 24)
}

// The three parts of a packed outcome.
fn unpacked(outcome: u64) -> (u64, u64, u64) {
    (outcome & 0xff, (outcome >> 8) & 0xffff, outcome >> 24)
}

// Eight bytes, the first from the lowest bit, each 1 where its bit stands and 0 elsewhere.
fn spread(bits: u8) -> u64 {
    let parted = (u64::from(bits) * 0x0101_0101_0101_0101) & 0x8040_2010_0804_0201;
    ((parted + 0x7f7f_7f7f_7f7f_7f7f) >> 7) & 0x0101_0101_0101_0101
}

// The table bytes of one variable.
fn table_row(up: Row, mates: Row) -> [u8; 128] {
    let mut bytes = [0; 128];
    let (up, mates) = (up.to_le_bytes(), mates.to_le_bytes());
    for (at, eight) in bytes.chunks_exact_mut(8).enumerate() {
        let values = spread(up[at]) * BELOW + spread(mates[at]) * COMPATIBLE;
        eight.copy_from_slice(&values.to_le_bytes());
    }
    bytes
}

// Write the derived facts into the first table.
fn fill(facts: &Facts, n: usize, table: &mut [u8]) {
    for (i, line) in table.chunks_exact_mut(n).take(n).enumerate() {
        line.copy_from_slice(&table_row(facts.up[i], facts.mates[i])[..n]);
    }
}

// A sheet and what is derived from it: its facts, and the pairs that F5 forbids.
struct Derived {
    sheet: Sheet,
    selections: Selections,
    facts: Facts,
    rivals: Grid,
}

impl Derived {
    // Derive all that follows from a sheet.
    fn of(sheet: Sheet) -> Self {
        let selections = Selections::new(&sheet.selections);
        Derived {
            facts: Facts::derive(&sheet, &selections),
            rivals: sheet.labels.rivals(),
            sheet,
            selections,
        }
    }

    // The clash that is told, if there is one.
    fn clash(&self) -> Option<(usize, usize)> {
        answers::clash(&self.facts, &self.rivals)
    }

    // The label at the path of a question, where there is no clash.
    fn path_label(&self, question: &Question) -> Option<u16> {
        answers::path_label(question, &self.sheet, &self.facts, &self.selections)
    }
}

// Tell a clash or reply, for a sheet and buffers that are not refused.
fn judge(derived: &mut Derived, facts: &mut [u8], work: &mut [u8], replies: &mut [u8]) -> u64 {
    let sheet = &derived.sheet;
    fill(&derived.facts, sheet.count, facts);
    if let Some((i, j)) = derived.clash() {
        return packed(CLASH, i as u64, j as u64);
    }
    work[..sheet.count * sheet.count].fill(0);
    answers::reply(sheet, &derived.facts, &derived.rivals, &mut derived.selections, replies);
    let (order, mates) = derived.facts.counts();
    packed(CONSISTENT, order, mates)
}

// Derive what follows from a sheet, if neither it nor the lent buffers are refused; else gives the packed outcome.
fn admit(sheet: &[u8], facts: &[u8], work: &[u8], replies: &[u8]) -> Result<Derived, u64> {
    let sheet = match sheet::read(sheet) {
        Ok(sheet) => sheet,
        Err(refusal) => return Err(packed(REFUSED, refusal.number.into(), refusal.offset as u64)),
    };
    let size = sheet.count * sheet.count;
    if facts.len() < size || work.len() < size {
        return Err(packed(REFUSED, 8, 0));
    }
    if replies.len() < sheet.questions.len() {
        return Err(packed(REFUSED, 9, 0));
    }
    Ok(Derived::of(sheet))
}

// Check a sheet with lent tables and a lent reply buffer; gives the packed outcome.
pub fn check(sheet: &[u8], facts: &mut [u8], work: &mut [u8], replies: &mut [u8]) -> u64 {
    match admit(sheet, facts, work, replies) {
        Ok(mut derived) => judge(&mut derived, facts, work, replies),
        Err(refusal) => refusal,
    }
}

// Check a sheet likewise; above the outcome stands the label at the path of a question, plus 1, or 0 for none.
pub fn check_path(sheet: &[u8], facts: &mut [u8], work: &mut [u8], replies: &mut [u8], question: u32) -> u64 {
    match admit(sheet, facts, work, replies) {
        Ok(mut derived) => {
            let outcome = judge(&mut derived, facts, work, replies);
            outcome + (told_at(&derived, question as usize) << PATH_LABEL)
        }
        Err(refusal) => refusal,
    }
}

// The label at the path of a question, plus 1; 0 where there is none, for other questions, and on a clash.
fn told_at(derived: &Derived, question: usize) -> u64 {
    match (derived.clash(), derived.sheet.questions.get(question)) {
        (None, Some(question)) => one_more(derived.path_label(question)),
        _ => 0,
    }
}

// The label of a variable's root under every assignment meeting the sheet, plus 1; 0 where there is none.
pub fn root_label(sheet: &[u8], variable: u32) -> u64 {
    let i = variable as usize;
    match sheet::read(sheet) {
        Ok(sheet) if i < sheet.count => told(&Derived::of(sheet), i),
        _ => 0,
    }
}

// The label of a root, plus 1; 0 where there is none, and for a sheet that clashes.
fn told(derived: &Derived, i: usize) -> u64 {
    match derived.clash() {
        None => one_more(answers::label(i, &derived.sheet, &derived.facts)),
        Some(_) => 0,
    }
}

// What the checking program prints for its standard input.
pub fn printed(input: &[u8]) -> String {
    let bytes = &input[..input.len().min(sheet::LONGEST + 1)];
    match sheet::read(bytes) {
        Ok(sheet) => accepted(sheet),
        Err(refusal) => format!("refused {} {}\n", refusal.number, refusal.offset),
    }
}

// The lines printed for a sheet that is not refused.
fn accepted(sheet: Sheet) -> String {
    let (mut facts, mut work, mut replies) = (vec![0; 16_384], vec![0; 16_384], vec![0; 1_024]);
    let mut derived = Derived::of(sheet);
    match unpacked(judge(&mut derived, &mut facts, &mut work, &mut replies)) {
        (CLASH, i, j) => format!("clash {i} {j}\n"),
        (_, order, mates) => consistent(&derived, order, mates, &replies),
    }
}

// The lines printed for a consistent sheet.
fn consistent(derived: &Derived, order: u64, mates: u64, replies: &[u8]) -> String {
    let sheet = &derived.sheet;
    let mut text = format!("consistent {} {order} {mates}\n", sheet.count);
    for v in 0..sheet.count {
        let label = answers::label(v, sheet, &derived.facts).map_or("-".to_string(), |a| a.to_string());
        let _ = writeln!(text, "var {v} {label}");
    }
    for (q, &reply) in replies.iter().take(sheet.questions.len()).enumerate() {
        let _ = writeln!(text, "ask {q} {}", ["always", "never", "open"][usize::from(reply)]);
    }
    text
}
