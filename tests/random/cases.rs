//! The sheets of a draw, what is known of each, and which lengths of buffers are lent with it.

use crate::damage::{self, Damage};
use crate::families;
use crate::lent::Lengths;
use crate::numbers::Numbers;
use crate::path_families;
use crate::sheets::Sheet;

/// What is known of a sheet: it is whole, damaged at a place, or nothing.
pub enum Known {
    Whole(Whole),
    Damaged(Damage),
    Nothing,
}

/// The maps of a sheet's questions, and the variables for which a label is stated.
pub struct Whole {
    pub questions: Vec<u8>,
    pub labelled: Vec<usize>,
}

/// Which lengths of buffers to lend: somewhat more than a sheet needs, every length around the limits, or the most.
#[derive(Clone, Copy)]
pub enum Lending {
    Enough(usize),
    Around(usize),
    Most,
}

/// A sheet to compare.
pub struct Case {
    pub bytes: Vec<u8>,
    pub known: Known,
    lending: Lending,
}

impl Case {
    fn whole(sheet: &Sheet, lending: Lending) -> Case {
        let questions = sheet.questions.iter().map(|item| item.map()).collect();
        let labelled = sheet.records.iter().filter(|item| item.label.is_some()).map(|item| item.subject).collect();
        Case { bytes: sheet.bytes(), known: Known::Whole(Whole { questions, labelled }), lending }
    }

    fn damaged(damaged: damage::Damaged) -> Case {
        Case { bytes: damaged.bytes, known: Known::Damaged(damaged.damage), lending: Lending::Most }
    }
}

/// The cases of one draw from a family.
pub fn cases(family: &str, numbers: &mut Numbers) -> Vec<Case> {
    let valid: fn(&mut Numbers) -> Sheet = match family {
        "small" => families::small,
        "crowded" => families::crowded,
        "edges" => families::edges,
        "clash-by-f2" => families::clash_by_f2,
        "clash-by-order" => families::clash_by_order,
        "clash-by-f3" => families::clash_by_f3,
        "clash-by-f4" => families::clash_by_f4,
        "clash-on-trial" => families::clash_on_trial,
        "clash-through-trial" => families::clash_through_trial,
        "label-below" => families::label_below,
        "cyclic" => families::cyclic,
        "deep" => families::deep,
        "dense" => families::dense,
        "ordinary" => families::ordinary,
        "large" => families::large,
        "selections-asked" => families::selections_asked,
        "longest" => families::longest,
        "path-shared" => path_families::shared,
        "path-cycle" => path_families::cycle,
        "path-below" => path_families::below,
        "path-absent" => path_families::absent,
        "path-label" => path_families::label,
        "path-ordinary" => path_families::ordinary,
        _ => return damaged_cases(family, numbers),
    };
    let sheet = valid(numbers);
    vec![Case::whole(&sheet, Lending::Enough(sheet.n * sheet.n))]
}

/// A sheet with every length of buffers around what it needs.
fn around(sheet: &Sheet) -> Vec<Case> {
    vec![Case::whole(sheet, Lending::Around(sheet.n * sheet.n))]
}

fn damaged_cases(family: &str, numbers: &mut Numbers) -> Vec<Case> {
    let sheet = if family == "trailing-longest" { families::longest(numbers) } else { damage::base(numbers) };
    let all = match family {
        "cut" => damage::cuts(&sheet),
        "wrong-field" => damage::wrong_fields(&sheet),
        "changed-byte" => damage::changed_bytes(numbers, &sheet),
        "trailing" | "trailing-longest" => damage::trailing(numbers, &sheet),
        "noise" => return vec![Case { bytes: damage::noise(numbers), known: Known::Nothing, lending: Lending::Most }],
        "lengths" => return around(&families::small(numbers)),
        "lengths-of-longest" => return around(&families::longest(numbers)),
        _ => panic!("no family {family}"),
    };
    all.into_iter().map(Case::damaged).collect()
}

/// The lengths to lend for a case.
pub fn lengths(case: &Case, numbers: &mut Numbers) -> Vec<Lengths> {
    let questions = if let Known::Whole(whole) = &case.known { whole.questions.len() } else { 0 };
    match case.lending {
        Lending::Most => vec![Lengths { facts: 16_384, work: 16_384, replies: 1_024 }],
        Lending::Enough(table) => {
            let more = numbers.pick(&[0, 0, 1, 7, 300]);
            vec![Lengths { facts: table + more, work: table + more / 2, replies: questions + more }]
        }
        Lending::Around(table) => lengths_around(table, questions),
    }
}

/// Every length around the limits, and none at all, for each of the three buffers.
fn lengths_around(table: usize, questions: usize) -> Vec<Lengths> {
    let around = |limit: usize| (limit.saturating_sub(2)..=limit + 2).chain([0]);
    let mut all = Vec::new();
    for facts in around(table) {
        for work in around(table) {
            all.extend(around(questions).map(|replies| Lengths { facts, work, replies }));
        }
    }
    all
}
