// The cases written by hand: those of the scope paper and some traps.

use crate::bytes::{decode, encode};
use crate::compare::{beyond, compare, compare_asked, compare_refusal, no_labels};
use crate::plain::Said::{self, Below, Labelled, Mates, Reaches, Selects};
use crate::plain::{self, Path, Plain};
use crate::trees;

// The statements written as 0<=1, 0~1, 0[7]1, 5(0) or, with a path, 0/7/1, with blanks between.
fn said(text: &str) -> Vec<Said> {
    text.split_whitespace().map(one_said).collect()
}

// One statement.
fn one_said(text: &str) -> Said {
    let numbers: Vec<usize> = text
        .split(|c: char| !c.is_ascii_digit())
        .filter_map(|part| part.parse().ok())
        .collect();
    match text.chars().find(|c| !c.is_ascii_digit()) {
        Some('<') => Below(numbers[0], numbers[1]),
        Some('~') => Mates(numbers[0], numbers[1]),
        Some('[') => Selects(numbers[0], numbers[1] as u16, numbers[2]),
        Some('/') => Reaches(
            numbers[0],
            Path::of(&numbers[1..].iter().map(|&f| f as u16).collect::<Vec<_>>()),
        ),
        _ => Labelled(numbers[1], numbers[0] as u16),
    }
}

// A sheet with one record for each statement.
pub fn sheet(n: usize, records: &str, questions: &str) -> Plain {
    Plain {
        n,
        records: said(records).into_iter().map(|one| vec![one]).collect(),
        questions: said(questions),
    }
}

// Cases C3 to C12: variables, statements, questions, and the lines printed in short.
const NUMBERED: [(usize, &str, &str, &str); 10] = [
    (1, "5(0) 6(0)", "", "clash 0 0"),
    (3, "5(0) 6(1) 0~2 2~1", "", "consistent 3 3 7;v 5;v 6;v -"),
    (3, "0<=2 1<=2 5(0) 6(1)", "", "clash 0 1"),
    (2, "0[1]0 0<=1 1[1]1", "", "consistent 2 3 4;v -;v -"),
    (3, "0[1]1 0[1]2 5(1) 6(2)", "", "clash 1 2"),
    (2, "5(0) 0<=1", "5(1) 6(1)", "consistent 2 3 4;v 5;v 5;a always;a never"),
    (3, "0[1]1 0<=2 2<=0", "2[1]1", "consistent 3 5 5;v -;v -;v -;a always"),
    (3, "0[1]1 0<=2", "2[1]1", "consistent 3 4 5;v -;v -;v -;a open"),
    (1, "", "0[9]0", "consistent 1 1 1;v -;a open"),
    (2, "0[1]0 1<=0", "0[1]1", "consistent 2 3 4;v -;v -;a open"),
];

// The twelve cases of the scope paper.
pub fn numbered_cases() {
    let c2 = [
        7, 4, 0, 3, 0, 3, 5, 2, 0, 0, 1, 3, 8, 0, 0, 5, 8, 1, 0, 6, 1, 2, 0, 1, 2, 1, 2, 0, 1,
    ];
    let c2_text = "consistent 4 5 6;v 5;v 6;v -;v -;a always;a open;a never";
    assert_eq!(second::printed(&[1, 1]), "consistent 1 1 1\nvar 0 -\n");
    assert_eq!(second::printed(&c2), long_text(c2_text));
    assert_eq!(c2.len(), 29);
    for (n, records, questions, short) in NUMBERED {
        let sheet = sheet(n, records, questions);
        assert_eq!(second::printed(&encode(&sheet)), long_text(short));
        compare(&sheet, &encode(&sheet), &plain::solve(&sheet));
    }
    println!("C1 to C12: right");
}

// The printed lines behind a short form.
fn long_text(short: &str) -> String {
    let (mut v, mut a, mut text) = (0, 0, String::new());
    for part in short.split(';') {
        if let Some(label) = part.strip_prefix("v ") {
            text += &format!("var {v} {label}\n");
            v += 1;
        } else if let Some(reply) = part.strip_prefix("a ") {
            text += &format!("ask {a} {reply}\n");
            a += 1;
        } else {
            text += &format!("{part}\n");
        }
    }
    text
}

// Sheets, and what is told of each root: one more than its label, or 0.
const ROOTS: [(usize, &str, &[u64]); 34] = [
    (2, "", &[0, 0]),
    (1, "5(0)", &[6]),
    (2, "5(0) 0<=1", &[6, 6]),
    (2, "5(0) 1<=0", &[6, 0]),
    (3, "5(1) 0<=1 1<=2", &[0, 6, 6]),
    (2, "5(0) 0~1", &[6, 0]),
    (2, "5(1) 0~1", &[0, 6]),
    (3, "5(0) 0<=1 1~2", &[6, 6, 0]),
    (3, "5(0) 0~1 1<=2", &[6, 0, 0]),
    (3, "5(0) 0<=2 1<=2", &[6, 0, 6]),
    (3, "5(0) 0<=1 0<=2", &[6, 6, 6]),
    (2, "5(1) 0[1]1", &[0, 6]),
    (2, "5(0) 0[1]1", &[6, 0]),
    (2, "0[5]1 0<=1", &[0, 0]),
    (4, "5(1) 0[1]1 2[1]3 0<=2", &[0, 6, 0, 6]),
    (4, "5(3) 0[1]1 2[1]3 0<=2", &[0, 0, 0, 6]),
    (4, "5(1) 0[1]1 2[2]3 0<=2", &[0, 6, 0, 0]),
    (4, "5(1) 0[1]1 2[1]3 0~2", &[0, 6, 0, 0]),
    (3, "5(1) 0[1]1 0[1]2", &[0, 6, 6]),
    (6, "5(2) 0[1]1 1[2]2 3[1]4 4[2]5 0<=3", &[0, 0, 6, 0, 0, 6]),
    (4, "7(0) 0<=1 1<=2 2<=3", &[8, 8, 8, 8]),
    (4, "7(2) 0<=1 1<=2 2<=3", &[0, 0, 8, 8]),
    (4, "7(3) 3<=2 2<=1 1<=0", &[8, 8, 8, 8]),
    (4, "7(1) 0<=1 1<=2 2<=0 2<=3", &[8, 8, 8, 8]),
    (4, "7(3) 0<=1 1<=2 2<=0 2<=3", &[0, 0, 0, 8]),
    (2, "5(0) 0[1]0 0<=1 1[1]1", &[6, 6]),
    (3, "5(1) 0[1]1 1[1]0 2[1]2 0<=2", &[0, 6, 6]),
    (3, "5(0) 5(1) 0<=2 1<=2", &[6, 6, 6]),
    (3, "5(0) 5(1) 5(2) 0<=1 1<=2", &[6, 6, 6]),
    (4, "5(0) 6(1) 0<=2 1<=3", &[6, 7, 6, 7]),
    (4, "6(1) 5(0) 1<=3 0<=2", &[6, 7, 6, 7]),
    (2, "0(0) 0<=1", &[1, 1]),
    (2, "65535(0) 0<=1", &[65_536, 65_536]),
    (3, "256(0) 1(1) 0<=2", &[257, 2, 257]),
];

// Sheets that clash, in which no label is told.
const CLASHING: [(usize, &str); 4] = [
    (1, "5(0) 6(0)"),
    (3, "0<=2 1<=2 5(0) 6(1)"),
    (4, "7(0) 0<=1 5(2) 6(3) 2~3"),
    (4, "7(3) 0[1]1 0[1]2 5(1) 6(2)"),
];

// Labels stated below, above, beside, under features, along chains and cycles.
pub fn root_labels() {
    for (n, records, wanted) in ROOTS {
        let sheet = sheet(n, records, "5(0) 9(0) 0<=0");
        let bytes = encode(&sheet);
        let told: Vec<u64> = (0..n as u32).map(|i| second::root_label(&bytes, i)).collect();
        assert_eq!(told, wanted, "{records}");
        let expected = plain::solve(&sheet);
        compare(&sheet, &bytes, &expected);
        compare_asked(&sheet, &expected);
        assert_eq!(trees::roots(&sheet), Some(expected.labels), "{records}");
    }
    for (n, records) in CLASHING {
        let sheet = sheet(n, records, "");
        assert_eq!(
            (plain::solve(&sheet).kind, trees::roots(&sheet)),
            (1, None),
            "{records}"
        );
        no_labels(&encode(&sheet), &[&[0, 1, 2, 3][..], &beyond(n)].concat());
    }
    println!("labels of roots: right");
}

// No label is told of what is refused, nor for a number that is no variable.
pub fn root_labels_of_no_sheet() {
    let whole = encode(&sheet(2, "5(0) 0<=1", "5(1) 6(1)"));
    assert_eq!([0, 1].map(|i| second::root_label(&whole, i)), [6, 6]);
    no_labels(
        &whole,
        &[2, 3, 127, 128, 129, 255, 256, 257, 65_536, 65_537, 1 << 31, u32::MAX],
    );
    for length in 0..whole.len() {
        no_labels(&whole[..length], &[0, 1, 2]);
    }
    for (at, value) in [
        (0, 15),
        (1, 0),
        (1, 129),
        (1, 1),
        (2, 5),
        (4, 5),
        (6, 16),
        (11, 2),
        (14, 9),
    ] {
        let mut bytes = whole.clone();
        bytes[at] = value;
        assert!(second::printed(&bytes).starts_with("refused"), "{at} {value}");
        no_labels(&bytes, &[0, 1, 2]);
    }
    no_labels(&[&whole[..], &[0]].concat(), &[0, 1, 2]);
    let last = encode(&sheet(128, "5(126) 126<=127", ""));
    assert_eq!([125, 126, 127].map(|i| second::root_label(&last, i)), [0, 6, 6]);
    println!("labels of no sheet and of no variable: right");
}

// The bare variables of a sheet without records: the trap of judging by smallest trees.
pub fn trap_of_smallest_trees() {
    let bytes = encode(&sheet(2, "", "0<=1"));
    assert_eq!(second::printed(&bytes), long_text("consistent 2 2 2;v -;v -;a open"));
}

// Questions on one sheet whose replies are known.
fn compare_replies(sheet: &Plain, replies: &[u8]) {
    let expected = plain::solve(sheet);
    assert_eq!(expected.replies, replies);
    compare(sheet, &encode(sheet), &expected);
}

// Pairs that clash only together with others: 0 <= 3 brings 1 and 2 below 4, 3 <= 0 brings nothing bad.
pub fn joint_reasons() {
    let records = "0[1]1 0[2]2 3[1]4 3[2]4 5[7]3 5(1) 6(2) 3<=6";
    compare_replies(&sheet(8, records, "3<=0 5[7]0 0<=3 3<=0 0<=6"), &[2, 1, 1, 2, 2]);
    compare_replies(&sheet(8, records, "5[7]0 3<=0 0<=3 1<=4"), &[1, 2, 1, 2]);
    compare_replies(&sheet(8, records, "1<=4 2<=4 0<=3 5[7]0"), &[2, 2, 1, 1]);
    compare_replies(&sheet(8, records, "7[7]0 0~3 5[7]7 3<=7"), &[2, 2, 2, 2]);
    println!("joint reasons: right");
}

// A long trial without clash does not speak for a later selection that clashes.
pub fn kept_facts() {
    let cycle = |start: usize, length: usize| (0..length).map(move |i| Selects(start + i, 1, start + (i + 1) % length));
    let questions = "0<=7 19[2]18 20[2]18 19[2]0 19[2]7 20[2]3 20[2]18 3[2]18";
    let mut sheet = sheet(21, "16[2]17 5(17) 6(18) 19<=16 16~20", questions);
    sheet
        .records
        .extend(cycle(0, 7).chain(cycle(7, 9)).map(|one| vec![one]));
    compare_replies(&sheet, &[2, 1, 1, 2, 2, 2, 1, 2]);
    println!("kept facts: right");
}

// The cases marked run only.
pub fn run_only_cases() {
    let accepted = |bytes: &[u8]| {
        let sheet = decode(bytes).expect("lawful");
        compare(&sheet, bytes, &plain::solve(&sheet));
    };
    accepted(&[1, 128]);
    compare_refusal(&[1, 0], [0, 0, 0], 3, 1);
    compare_refusal(&[1, 129], [99_999, 99_999, 9], 3, 1);
    let full = |map: u8, each: &[u8]| [&[map, 2, 4, 0][..], &each.repeat(1024)].concat();
    accepted(&full(3, &[1, 0, 1]));
    accepted(&full(5, &[1, 0, 1]));
    compare_refusal(&[3, 2, 4, 1], [4, 4, 0], 4, 2);
    compare_refusal(&[5, 2, 4, 1], [4, 4, 0], 4, 2);
    compare_refusal(&[7, 2, 0, 1, 4, 1], [4, 4, 0], 4, 4);
    compare_refusal(&[7, 2, 4, 1, 4, 1], [4, 4, 0], 4, 2);
    accepted(&[3, 2, 0, 1, 15, 0, 1, 1, 0, 9, 1, 0, 7]);
    compare_refusal(&[3, 2, 0, 1, 0], [4, 4, 0], 5, 4);
    compare_refusal(&[3, 2, 0, 1, 16], [4, 4, 0], 5, 4);
    accepted(&[3, 2, 0, 1, 1, 1, 1]);
    compare_refusal(&[3, 2, 0, 1, 1, 2], [4, 4, 0], 6, 5);
    compare_refusal(&[3, 2, 0, 1, 1, 1, 2], [4, 4, 0], 6, 6);
    compare_refusal(&[], [0, 0, 0], 1, 0);
    compare_refusal(&[0], [0, 0, 0], 2, 0);
    compare_refusal(&[1, 2], [3, 4, 0], 8, 0);
    compare_refusal(&[1, 2], [4, 3, 0], 8, 0);
    println!("run only cases: right");
}

// Refusals at each other place, and their order.
pub fn refusals_by_place() {
    for map in (0..=255).filter(|map| ![1, 3, 5, 7].contains(map)) {
        compare_refusal(&[map, 0], [0, 0, 0], 2, 0);
    }
    for map in (0..=255u8).filter(|map| ![1, 2, 4, 8, 16].contains(map)) {
        compare_refusal(&[5, 1, 0, 1, map, 9], [1, 1, 1], 5, 4);
    }
    let whole = [
        7, 3, 0, 1, 0, 4, 15, 0, 1, 2, 3, 4, 2, 5, 6, 1, 0, 1, 2, 1, 2, 4, 2, 0, 0, 1, 8, 1, 0, 0,
    ];
    for length in 0..whole.len() {
        compare_refusal(&whole[..length], [9, 9, 4], 1, length as u64);
    }
    for at in [7, 8, 9, 12, 16, 17, 19, 20, 22, 25, 27] {
        let mut bytes = whole.to_vec();
        bytes[at] = 3;
        compare_refusal(&bytes, [9, 9, 4], 6, at as u64);
    }
    compare_refusal(&[&whole[..], &[1]].concat(), [0, 0, 0], 7, whole.len() as u64);
    compare_refusal(&whole, [8, 9, 0], 8, 0);
    compare_refusal(&whole, [9, 8, 4], 8, 0);
    compare_refusal(&whole, [9, 9, 3], 9, 0);
    let clashing = [7, 1, 0, 2, 0, 1, 8, 0, 0, 5, 8, 0, 0, 6, 1, 0, 0];
    compare_refusal(&clashing, [1, 0, 1], 8, 0);
    compare_refusal(&clashing, [1, 1, 0], 9, 0);
    println!("refusals by place: right");
}

// The longest sheet passes, and the longest without paths; longer input is refused behind it.
pub fn longest_sheet() {
    let record = [15, 127, 127, 127, 255, 255, 127, 1, 2];
    let path = [&[16, 127, 8][..], &[255, 255].repeat(8)].concat();
    for (question, length) in [(&[4, 0, 255, 255, 1][..], 14_342), (&path, 28_678)] {
        let bytes = [&[7, 128, 4, 0, 4, 0][..], &record.repeat(1024), &question.repeat(1024)].concat();
        assert_eq!(bytes.len(), length);
        assert!(second::printed(&bytes).starts_with("consistent 128 128 128\n"));
        assert_eq!([0, 126, 127].map(|i| second::root_label(&bytes, i)), [0, 0, 259]);
        for more in [1, 2, 5_000, 20_000] {
            let longer = [&bytes[..], &vec![0; more]].concat();
            assert_eq!(second::printed(&longer), format!("refused 7 {length}\n"));
            no_labels(&longer, &[0, 127, 128]);
        }
    }
    println!("longest sheet: right");
}
