// Comparing what a check leaves behind with what must be there, and counting what came up.

use std::collections::BTreeMap;

use crate::bytes::encode;
use crate::plain::Said::{self, Below, Labelled, Mates, Reaches, Selects};
use crate::plain::{self, Expected, Plain};

// The value of every lent byte before a check.
const MARK: u8 = 0xa5;

// The number of path questions of one sheet for which the label is asked.
const MOST_PATHS: usize = 12;

// The two tables and the replies, as they are lent to a check.
type Buffers<'a> = [&'a mut [u8]; 3];

// Compare all that a check of a sheet gives and leaves behind.
pub fn compare(sheet: &Plain, bytes: &[u8], expected: &Expected) {
    let outcome = expected.kind + 256 * expected.first + 16_777_216 * expected.second;
    compare_call(sheet, expected, outcome, |[facts, work, replies]| {
        second::check(bytes, facts, work, replies)
    });
    assert_eq!(second::printed(bytes), text(sheet, expected), "{sheet:?}");
    compare_labels(sheet, bytes, &expected.labels);
    for (question, label) in asked_for_paths(sheet, &expected.path_labels) {
        let told = label.map_or(0, |a| u64::from(a) + 1);
        compare_call(
            sheet,
            expected,
            outcome + 1_099_511_627_776 * told,
            |[facts, work, replies]| second::check_path(bytes, facts, work, replies, question),
        );
    }
}

// Question numbers to ask the label at a path for, and that label: paths, another question, numbers that are none.
fn asked_for_paths(sheet: &Plain, labels: &[Option<u16>]) -> Vec<(u32, Option<u16>)> {
    let is_path = |q: &usize| matches!(sheet.questions[*q], Reaches(..));
    let paths = (0..labels.len()).filter(is_path).take(MOST_PATHS);
    let other = (0..labels.len()).find(|q| !is_path(q));
    let mut all: Vec<(u32, Option<u16>)> = paths.chain(other).map(|q| (q as u32, labels[q])).collect();
    let (count, last) = (labels.len() as u32, all.last().map_or(0, |&(q, _)| q));
    let beyond = [count, 256 + count, 65_536 + last, u32::MAX];
    all.extend(beyond.map(|q| (q, None)));
    all
}

// Run a check on marked buffers, a little longer than needed, and compare the number and all that it leaves behind.
fn compare_call(sheet: &Plain, expected: &Expected, wanted: u64, check: impl Fn(Buffers) -> u64) {
    let (size, asked) = (sheet.n * sheet.n, sheet.questions.len());
    let (mut facts, mut work, mut replies) = (vec![MARK; size + 3], vec![MARK; size + 2], vec![MARK; asked + 1]);
    let outcome = check([&mut facts, &mut work, &mut replies]);
    let mut wanted_facts = expected.table.clone();
    wanted_facts.extend([MARK; 3]);
    let mut wanted_work = vec![if expected.kind == 0 { 0 } else { MARK }; size];
    wanted_work.extend([MARK; 2]);
    let mut wanted_replies = if expected.kind == 0 {
        expected.replies.clone()
    } else {
        vec![MARK; asked]
    };
    wanted_replies.push(MARK);
    let same = outcome == wanted && facts == wanted_facts && work == wanted_work && replies == wanted_replies;
    assert!(
        same,
        "outcome {outcome} wanted {wanted}\nreplies {replies:?}\nwanted {wanted_replies:?}\n{sheet:?}"
    );
}

// The label of each root must be told, and none for a number that is no variable.
fn compare_labels(sheet: &Plain, bytes: &[u8], labels: &[Option<u16>]) {
    for (i, label) in labels.iter().enumerate() {
        let wanted = label.map_or(0, |a| u64::from(a) + 1);
        assert_eq!(second::root_label(bytes, i as u32), wanted, "variable {i}: {sheet:?}");
    }
    no_labels(bytes, &beyond(sheet.n));
}

// Numbers that are no variable of a sheet with n variables.
pub fn beyond(n: usize) -> [u32; 7] {
    let n = n as u32;
    [n, 128, 255, 256, 256 + n, 65_536, u32::MAX]
}

// No label may be told for the numbers.
pub fn no_labels(bytes: &[u8], numbers: &[u32]) {
    for &number in numbers {
        assert_eq!(second::root_label(bytes, number), 0, "number {number}: {bytes:?}");
    }
}

// On a consistent sheet a label must be told at a root exactly where a question for it, asked last, is always.
pub fn compare_asked(sheet: &Plain, expected: &Expected) {
    if expected.kind != 0 {
        return;
    }
    let names = names(sheet);
    let asked: Vec<Said> = (0..sheet.n)
        .flat_map(|i| names.iter().map(move |&a| Labelled(i, a)))
        .collect();
    let mut longer = sheet.clone();
    longer.questions.extend(&asked);
    let (mut facts, mut work) = (vec![MARK; sheet.n * sheet.n], vec![MARK; sheet.n * sheet.n]);
    let mut replies = vec![MARK; longer.questions.len()];
    let outcome = second::check(&encode(&longer), &mut facts, &mut work, &mut replies);
    assert_eq!(outcome & 255, 0, "{longer:?}");
    for (one, reply) in asked.iter().zip(&replies[sheet.questions.len()..]) {
        let told = matches!(*one, Labelled(i, a) if expected.labels[i] == Some(a));
        assert_eq!(told, *reply == 0, "{one:?}: {sheet:?}");
    }
}

// The labels that a sheet names, and the least that it does not.
fn names(sheet: &Plain) -> Vec<u16> {
    let said = [sheet.records.concat(), sheet.questions.clone()].concat();
    let mut names: Vec<u16> = said.iter().filter_map(named).collect();
    names.sort();
    names.dedup();
    let other = (0..=u16::MAX).find(|a| !names.contains(a));
    names.extend(other);
    names
}

// The label that a statement or question names.
fn named(one: &Said) -> Option<u16> {
    match *one {
        Labelled(_, a) => Some(a),
        _ => None,
    }
}

// What the program must print for a lawful sheet.
fn text(sheet: &Plain, expected: &Expected) -> String {
    if expected.kind == 1 {
        return format!("clash {} {}\n", expected.first, expected.second);
    }
    let mut text = format!("consistent {} {} {}\n", sheet.n, expected.first, expected.second);
    for (v, label) in expected.labels.iter().enumerate() {
        text += &format!("var {v} {}\n", label.map_or("-".to_string(), |a| a.to_string()));
    }
    for (q, &reply) in expected.replies.iter().enumerate() {
        text += &format!("ask {q} {}\n", ["always", "never", "open"][reply as usize]);
    }
    text
}

// A refusal must be told and must leave every lent byte as it was.
pub fn compare_refusal(bytes: &[u8], lengths: [usize; 3], number: u64, offset: u64) {
    let [mut facts, mut work, mut replies] = lengths.map(|length| vec![MARK; length]);
    let wanted = 2 + 256 * number + 16_777_216 * offset;
    let outcome = second::check(bytes, &mut facts, &mut work, &mut replies);
    assert_eq!(outcome, wanted, "number {number} at {offset}: {bytes:?}");
    for question in [0, 1, 1_024, u32::MAX] {
        let outcome = second::check_path(bytes, &mut facts, &mut work, &mut replies, question);
        assert_eq!(
            outcome, wanted,
            "number {number} at {offset}, path {question}: {bytes:?}"
        );
    }
    assert!([facts, work, replies].concat().iter().all(|&byte| byte == MARK));
    if number != 8 && number != 9 {
        assert_eq!(second::printed(bytes), format!("refused {number} {offset}\n"));
        no_labels(bytes, &[0, 1, 2, 3, 127, 128, 255, 256, 65_536, u32::MAX]);
    }
}

// How often each thing came up.
#[derive(Default)]
pub struct Tally(BTreeMap<String, usize>);

impl Tally {
    // Count one more.
    pub fn add(&mut self, what: String) {
        *self.0.entry(what).or_default() += 1;
    }

    // Print the counts.
    pub fn print(&self, heading: &str) {
        println!("{heading}");
        for (what, count) in &self.0 {
            println!("  {what:<28} {count}");
        }
    }
}

// Note the outcome, the labels by where they are stated, and the replies by form of question.
pub fn note(tally: &mut Tally, sheet: &Plain, expected: &Expected) {
    tally.add(format!("sheets, {}", ["consistent", "clash"][expected.kind as usize]));
    note_labels(tally, sheet, expected);
    note_path_labels(tally, sheet, expected);
    for (question, &reply) in sheet.questions.iter().zip(&expected.replies) {
        let form = ["<=", "~", "[f]", "label", "path"][form(question)];
        tally.add(format!(
            "replies, {form} {}",
            ["always", "never", "open"][reply as usize]
        ));
    }
}

// Note for each root of a consistent sheet whether it has a label, and whether one is stated for it.
fn note_labels(tally: &mut Tally, sheet: &Plain, expected: &Expected) {
    let said = sheet.records.concat();
    for (v, label) in expected.labels.iter().enumerate().filter(|_| expected.kind == 0) {
        let stated = said.iter().any(|one| matches!(one, Labelled(i, _) if *i == v));
        let place = match label {
            None => "none",
            Some(_) if stated => "stated there",
            Some(_) => "stated below alone",
        };
        tally.add(format!("labels, {place}"));
    }
}

// Note for each path that is there on a consistent sheet whether it has a label.
fn note_path_labels(tally: &mut Tally, sheet: &Plain, expected: &Expected) {
    let asked = sheet.questions.iter().zip(&expected.replies).zip(&expected.path_labels);
    for ((_, _), label) in asked.filter(|((one, &reply), _)| matches!(one, Reaches(..)) && reply == 0) {
        tally.add(format!(
            "labels at paths, {}",
            if label.is_some() { "told" } else { "none" }
        ));
    }
}

// The number of a question's form.
fn form(question: &Said) -> usize {
    match question {
        Below(..) => 0,
        Mates(..) => 1,
        Selects(..) => 2,
        Labelled(..) => 3,
        Reaches(..) => 4,
    }
}

// Note for each rule whether the facts of the sheet need it.
pub fn note_rules(tally: &mut Tally, sheet: &Plain) {
    let said = sheet.records.concat();
    let whole = plain::derive(sheet.n, &said, "");
    for rule in ["F1.2", "F2", "F3.2", "F3.3", "F4"] {
        if plain::derive(sheet.n, &said, rule) != whole {
            tally.add(format!("sheets that need {rule}"));
        }
    }
    let bare: Vec<Said> = said.iter().filter(|one| form(one) != 1).copied().collect();
    let poorer = plain::derive(sheet.n, &bare, "");
    let no_descent = plain::derive(sheet.n, &said, "F4");
    if poorer != whole && no_descent != whole {
        tally.add("sheets with F4 and stated ~".to_string());
    }
}
