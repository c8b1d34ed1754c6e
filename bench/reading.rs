//! Stored sheets, read again: with one label for all that have one, without questions, and as facts for the rivals.

use crate::sheets::{Item, Path, Sheet};
use std::fmt::Write;

/// The fields of an accepted sheet, one after another.
struct Fields<'a>(std::slice::Iter<'a, u8>);

impl Fields<'_> {
    fn byte(&mut self) -> usize {
        usize::from(*self.0.next().expect("a whole sheet"))
    }

    fn word(&mut self) -> usize {
        self.byte() * 256 + self.byte()
    }

    fn path(&mut self) -> Path {
        let features: Vec<u16> = (0..self.byte()).map(|_| self.word() as u16).collect();
        Path::of(&features)
    }

    fn item(&mut self) -> Item {
        let map = self.byte();
        let mut item = Item { subject: self.byte(), ..Item::default() };
        item.target = (map & 1 != 0).then(|| self.byte());
        item.partner = (map & 2 != 0).then(|| self.byte());
        item.selection = (map & 4 != 0).then(|| (self.word() as u16, self.byte()));
        item.label = (map & 8 != 0).then(|| self.word() as u16);
        item.path = (map & 16 != 0).then(|| self.path());
        item
    }
}

/// An accepted sheet whose header has both counts.
pub fn read(bytes: &[u8]) -> Sheet {
    let mut fields = Fields(bytes.iter());
    assert!(fields.byte() == 7, "a header with all counts");
    let mut sheet = Sheet::over(fields.byte());
    let (records, questions) = (fields.word(), fields.word());
    sheet.records = (0..records).map(|_| fields.item()).collect();
    sheet.questions = (0..questions).map(|_| fields.item()).collect();
    sheet
}

/// The same sheet with label 0 wherever a label is stated: no question is then tried by a derivation.
pub fn with_one_label(bytes: &[u8]) -> Vec<u8> {
    let mut sheet = read(bytes);
    for record in &mut sheet.records {
        record.label = record.label.map(|_| 0);
    }
    sheet.bytes()
}

/// The same sheet, asked nothing.
pub fn without_questions(bytes: &[u8]) -> Vec<u8> {
    let mut sheet = read(bytes);
    sheet.questions.clear();
    sheet.bytes()
}

/// The facts that an item brings: names of the four kinds, and what comes before the arguments.
fn write_item(text: &mut String, names: [&str; 4], number: &str, item: &Item) {
    let i = item.subject;
    if let Some(j) = item.target {
        let _ = writeln!(text, "{}({number}{i},{j}).", names[0]);
    }
    if let Some(j) = item.partner {
        let _ = writeln!(text, "{}({number}{i},{j}).", names[1]);
    }
    if let Some((f, j)) = item.selection {
        let _ = writeln!(text, "{}({number}{i},{f},{j}).", names[2]);
    }
    if let Some(a) = item.label {
        let _ = writeln!(text, "{}({number}{a},{i}).", names[3]);
    }
}

/// The sheet as the facts that closure.lp and closure.pl are given.
pub fn facts(bytes: &[u8]) -> String {
    let sheet = read(bytes);
    let mut text = String::new();
    for i in 0..sheet.n {
        let _ = writeln!(text, "var({i}).");
    }
    for record in &sheet.records {
        write_item(&mut text, ["le0", "ok0", "sel", "lab"], "", record);
    }
    for (q, question) in sheet.questions.iter().enumerate() {
        write_item(&mut text, ["ask_le", "ask_ok", "ask_sel", "ask_lab"], &format!("{q},"), question);
    }
    text
}
