// Questions for paths, by hand: what is told at each path, and how the bytes are read.

use crate::bytes::{decode, encode};
use crate::compare::{compare, compare_refusal};
use crate::hand::sheet;
use crate::plain::Said::Reaches;
use crate::plain::{self, Expected, Plain};
use crate::trees;

// Steps that a variable states itself, and those of children that are shared.
const OWN: [(usize, &str, &str, &str); 8] = [
    (
        4,
        "0[1]1 1[2]2 5(2)",
        "0/1 0/1/2 0/2 1/2 0/1/2/1 2/1 3/1 0/1/1 0/2/1",
        "- 5 ? 5 ? ? ? ? ?",
    ),
    (
        4,
        "0[1]2 1[1]2 0[2]2 2[3]3 7(3)",
        "0/1/3 1/1/3 0/2/3 1/2 2/3 1/1 3/3",
        "7 7 7 ? 7 - ?",
    ),
    (4, "0[1]1 0[1]2 1[2]3 5(3)", "0/1/2 2/2 1/2 0/2", "5 5 5 ?"),
    (3, "5(0) 6(1) 0[1]1 1[1]2", "0/1/1 0/1", "- 6"),
    (1, "", "0/0 0/65535 0/0/0/0/0/0/0/0/0", "? ? ?"),
    (2, "0[0]0 0[1]1", "0/1 0/1/0 0/0/1 1/0 0/0/0/0/0/0/0/0/0", "- ? - ? -"),
    (2, "0[0]1", "0/0 0/0/0 1/0", "- ? ?"),
    (2, "0[1]1 5(1)", "0/9 0/1/9 0/9/1 0/1", "? ? ? 5"),
];

// Features and labels at the ends of their ranges, and those that share a byte.
const NUMBERS: [(usize, &str, &str, &str); 5] = [
    (
        3,
        "0[0]1 0[65535]2 5(1) 6(2)",
        "0/0 0/65535 0/255 0/65280 0/1",
        "5 6 ? ? ?",
    ),
    (
        3,
        "0[256]1 1[511]2",
        "0/256 0/0 0/1 0/256/511 0/256/255 0/256/1 0/1/511",
        "- ? ? - ? ? ?",
    ),
    (3, "0[1]1 0[2]2 0(1) 65535(2)", "0/1 0/2", "0 65535"),
    (2, "5(0) 0[5]1", "0/5 1/5", "- ?"),
    (3, "0[5]1 1[6]2 6(1) 5(2)", "0/5 0/5/6 0/6", "6 5 ?"),
];

// Steps and labels that come from below, and none that come from above or beside.
const BELOW: [(usize, &str, &str, &str); 11] = [
    (4, "0[1]1 0<=3", "3/1 0/1 2/1", "- - ?"),
    (
        8,
        "0<=1 1<=2 2<=3 0[1]4 6<=4 6[2]7 4<=5",
        "3/1/2 3/1 2/1/2 0/1/2 5/2 4/2 6/2 5/1",
        "- - - - - - - ?",
    ),
    (4, "1[1]2 0<=1 0~3 3[1]2", "0/1 1/1 3/1", "? - -"),
    (4, "0[1]1 2<=1 3<=2 5(3)", "0/1", "5"),
    (3, "0[1]1 1<=2 5(2)", "0/1", "-"),
    (3, "0[1]1 1~2 5(2)", "0/1", "-"),
    (2, "0[1]1 0<=1", "0/1 1/1 1/0 1/1/1/1/1/1/1/1/1", "- - ? -"),
    (5, "0[1]1 2[1]3 0<=4 2<=4 5(3)", "4/1 0/1 2/1", "5 - 5"),
    (5, "0[1]1 2[1]3 0<=4 2<=4 5(1)", "4/1 0/1 2/1", "5 5 -"),
    (5, "0[1]1 2[1]3 0<=4 2<=4 5(1) 5(3)", "4/1", "5"),
    (
        7,
        "0[1]1 2[1]3 0<=4 2<=4 1[2]5 3[3]6 6(6)",
        "4/1/2 4/1/3 0/1/3 2/1/2",
        "- 6 ? ?",
    ),
];

// Children that are below others by F2 alone.
const DERIVED: [(usize, &str, &str, &str); 7] = [
    (5, "0[1]1 2[1]3 0<=2 1[2]4 5(4)", "2/1/2 3/2 0/1/2 4/2", "5 5 5 ?"),
    (
        7,
        "0[1]1 1[1]2 3[1]4 4[1]5 0<=3 2[2]6 8(6)",
        "5/2 3/1/1/2 4/1/2 6/2",
        "8 8 8 ?",
    ),
    (2, "0[1]0 0<=1 1[1]1", "1/1/1 0/1", "- -"),
    (3, "0[1]0 0<=1 1[1]2 5(0)", "1/1 2/1 2/1/1/1/1/1/1/1/1 0/1", "5 5 5 5"),
    (2, "0[1]0 1<=0", "0/1 1/1", "- ?"),
    (5, "0[1]1 2[1]3 0<=2 2<=0 1[2]4", "3/2 2/1/2 0/1/2", "- - -"),
    (5, "0[1]1 2[1]3 2<=0 1[2]4", "3/2 2/1/2 0/1/2", "? ? -"),
];

// Eleven variables in a cycle, the labels of the ninth and the first.
const ELEVEN: &str = "0[1]1 1[1]2 2[1]3 3[1]4 4[1]5 5[1]6 6[1]7 7[1]8 8[1]9 9[1]10 10[1]0 5(8) 6(0)";

// The same with a way out at the fifth and back to the third, and a variable above the fourth.
const ELEVEN_LEFT: &str =
    "0[1]1 1[1]2 2[1]3 3[1]4 4[1]5 5[1]6 6[1]7 7[1]8 8[1]9 9[1]10 10[1]0 4[2]11 11[2]2 7(11) 3<=12";

// Cycles, those longer than any path, ways out of them and back.
const CYCLES: [(usize, &str, &str, &str); 5] = [
    (
        2,
        "0[1]1 1[1]0 5(1)",
        "0/1 0/1/1 0/1/1/1/1/1/1/1 0/1/1/1/1/1/1/1/1 1/1",
        "5 - 5 - -",
    ),
    (
        11,
        ELEVEN,
        "0/1/1/1/1/1/1/1/1 3/1/1/1/1/1/1/1/1 0/1/1/1/1/1/1/1 1/1/1/1/1/1/1/1/1 7/1 0/1/1/1/1/2",
        "5 6 - - 5 ?",
    ),
    (
        13,
        ELEVEN_LEFT,
        "3/1/2/2/1/1/2/2/1 3/1/2 3/1/2/2/1/1/2 3/1/2/2/2 12/1/2 12/1/2/2/1/1/2 12/2",
        "- 7 7 ? 7 7 ?",
    ),
    (
        4,
        "0[1]1 1[1]2 2[1]0 1[2]3 3[2]0 5(3) 6(0)",
        "0/1/2 0/1/2/2 0/1/2/2/1/2/2/1 0/2 1/1/1/1/2 0/1/1/1/1/2/2/1/2",
        "5 6 - ? 5 5",
    ),
    (
        4,
        "0[1]1 1[1]0 0<=2 2[1]3 5(1)",
        "2/1 3/1 3/1/1 2/1/1/1/1/1/1/1",
        "5 - 5 5",
    ),
];

// Paths among questions that are tried as statements.
const AMONG: [(usize, &str, &str, &str); 2] = [
    (
        4,
        "0[1]1 5(1)",
        "2[1]1 2/1 2[1]0 0/1 2<=0 0<=2 2/1 6(1) 0/1 3~0",
        "? 5 ? 5",
    ),
    (
        5,
        "0[1]1 2[1]3 5(1) 6(3)",
        "0<=2 0/1 4[1]1 4/1 2[1]1 2/1/1 0~2 2/1",
        "5 ? ? 6",
    ),
];

// The depth at which the trees of these cases are cut.
const DEPTH: usize = 14;

// Reply and label for each sign: a label, or - for none, or ? where the path is not there.
fn told(signs: &str) -> Vec<(u8, Option<u16>)> {
    let one = |sign: &str| match sign {
        "?" => (2, None),
        _ => (0, sign.parse().ok()),
    };
    signs.split_whitespace().map(one).collect()
}

// Reply and label of each question for a path.
fn of_paths(sheet: &Plain, expected: &Expected) -> Vec<(u8, Option<u16>)> {
    let answers = expected
        .replies
        .iter()
        .copied()
        .zip(expected.path_labels.iter().copied());
    let asked = sheet.questions.iter().zip(answers);
    asked
        .filter(|(one, _)| matches!(one, Reaches(..)))
        .map(|(_, answer)| answer)
        .collect()
}

// What is told at each path is what was found by hand, by the rules, and in the least trees.
pub fn paths_by_hand() {
    let cases = [&OWN[..], &NUMBERS, &BELOW, &DERIVED, &CYCLES, &AMONG].concat();
    for (n, records, questions, signs) in cases {
        let sheet = sheet(n, records, questions);
        let expected = plain::solve(&sheet);
        assert_eq!(of_paths(&sheet, &expected), told(signs), "{records}: {questions}");
        assert_eq!(trees::paths(&sheet, DEPTH), Some(told(signs)), "{records}: {questions}");
        compare(&sheet, &encode(&sheet), &expected);
    }
    println!("paths: right");
}

// The number that is given, digit by digit: the outcome, and one more than the label above it.
pub fn numbers_by_hand() {
    let bytes = [
        7, 2, 0, 2, 0, 3, 4, 0, 0, 1, 1, 8, 1, 0, 5, 16, 0, 1, 0, 1, 16, 0, 1, 0, 2, 8, 1, 0, 5,
    ];
    let text = "consistent 2 2 2\nvar 0 -\nvar 1 5\nask 0 always\nask 1 open\nask 2 always\n";
    assert_eq!(second::printed(&bytes), text);
    let (mut facts, mut work, mut replies) = ([9; 4], [9; 4], [9; 3]);
    let mut call = |question| second::check_path(&bytes, &mut facts, &mut work, &mut replies, question);
    assert_eq!(call(0), 6_597_103_321_600);
    for question in [1, 2, 3, 256, 1_023, 1_024, 65_536, 1 << 31, u32::MAX] {
        assert_eq!(call(question), 33_554_944, "{question}");
    }
    assert_eq!((facts, work, replies), ([3, 0, 0, 3], [0; 4], [0, 2, 0]));
    println!("numbers of labels at paths: right");
}

// No label is told and nothing replied on a clash, even if it is no clash at the path, nor where buffers are short.
pub fn paths_on_clashes() {
    for (n, records) in [
        (1, "5(0) 6(0) 0[1]0"),
        (3, "0[1]1 5(1) 7(2) 8(2)"),
        (3, "0[1]1 0[1]2 5(1) 6(2)"),
        (4, "0[1]1 5(1) 5(2) 6(3) 2~3"),
    ] {
        let sheet = sheet(n, records, "0/1 0<=0 0/1/1");
        let expected = plain::solve(&sheet);
        assert_eq!((expected.kind, trees::paths(&sheet, DEPTH)), (1, None), "{records}");
        let bytes = encode(&sheet);
        compare(&sheet, &bytes, &expected);
        compare_refusal(&bytes, [n * n - 1, n * n, 3], 8, 0);
        compare_refusal(&bytes, [n * n, n * n, 2], 9, 0);
    }
    let bytes = encode(&sheet(2, "0[1]1 5(1)", "0/1 0/1"));
    compare_refusal(&bytes, [3, 4, 1], 8, 0);
    compare_refusal(&bytes, [4, 3, 2], 8, 0);
    compare_refusal(&bytes, [4, 4, 1], 9, 0);
    println!("paths on clashes and short buffers: right");
}

// Each count, with fewer features behind it than it says, with as many, and with more.
pub fn counts_and_places() {
    for count in 0..=255u8 {
        for more in 0..=2 * usize::from(count) + 1 {
            let bytes = [&[5, 2, 0, 2, 8, 0, 1, 2, 16, 1, count][..], &vec![1; more]].concat();
            let whole = 2 * usize::from(count);
            if !(1..=8).contains(&count) {
                compare_refusal(&[&bytes[..3], &[1], &bytes[8..]].concat(), [4, 4, 2], 10, 6);
                compare_refusal(&bytes, [0, 0, 0], 10, 10);
            } else if more < whole {
                compare_refusal(&bytes, [4, 4, 2], 1, bytes.len() as u64);
            } else if more > whole {
                compare_refusal(&bytes, [4, 4, 2], 7, 11 + whole as u64);
            } else {
                let sheet = decode(&bytes).expect("lawful");
                compare(&sheet, &bytes, &plain::solve(&sheet));
            }
        }
    }
    compare_refusal(&[5, 2, 0, 1, 16], [4, 4, 1], 1, 5);
    compare_refusal(&[5, 2, 0, 1, 16, 1], [4, 4, 1], 1, 6);
    compare_refusal(&[5, 2, 0, 1, 16, 2], [4, 4, 1], 6, 5);
    compare_refusal(&[5, 2, 0, 1, 16, 2, 0], [4, 4, 1], 6, 5);
    println!("counts of paths: right");
}

// Bit 4 stands alone, and in a question; anywhere else it is refused at the map, whatever comes behind.
pub fn maps() {
    let behind = [0, 1, 0, 1, 0, 1, 0, 1, 0, 1];
    for map in (17..=255u8).filter(|map| map & 16 != 0) {
        for more in 0..behind.len() {
            compare_refusal(&[&[5, 2, 0, 1, map], &behind[..more]].concat(), [4, 4, 1], 5, 4);
        }
    }
    for map in 16..=255 {
        for more in 0..behind.len() {
            compare_refusal(&[&[3, 2, 0, 1, map], &behind[..more]].concat(), [4, 4, 0], 5, 4);
            let asked = [&[7, 2, 0, 1, 0, 1, map, 0, 1, 0, 1, 16, 0, 1, 0][..], &behind[..more]].concat();
            compare_refusal(&asked, [4, 4, 1], 5, 6);
        }
    }
    println!("maps of paths: right");
}

// Every beginning of a sheet with paths, and each wrong subject.
pub fn cut_sheets() {
    let asked = "0/1 0<=2 1/1/2/258 2/1/2/3/4/5/6/7/8 0~1 0/65535";
    let whole = encode(&sheet(3, "0<=1 0[1]2 5(2)", asked));
    for length in 0..whole.len() {
        compare_refusal(&whole[..length], [9, 9, 6], 1, length as u64);
    }
    for at in [18, 26, 35, 57] {
        assert_eq!(whole[at], 16);
        for subject in [3, 4, 127, 128, 255] {
            let mut bytes = whole.clone();
            bytes[at + 1] = subject;
            compare_refusal(&bytes, [9, 9, 6], 6, at as u64 + 1);
        }
    }
    println!("cut sheets with paths: right");
}
