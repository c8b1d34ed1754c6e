// The cases written by hand, and random sheets held against the plain solver.
// Built and run by `run` beside this file.

mod bytes;
mod compare;
mod hand;
mod path_sheets;
mod paths;
mod plain;
mod sheets;
mod steps;
mod trees;

use bytes::{decode, encode};
use compare::{compare, compare_asked, compare_refusal, note, note_rules, Tally};
use path_sheets::{ask_paths, long_cycle_sheet};
use plain::Said::{self, Below, Labelled, Mates, Reaches, Selects};
use plain::{Expected, Plain};
use sheets::{block_sheet, cycle_sheet, grown_sheet, joint_sheet, random_sheet, Dice, Shape};

// The common part of the shapes of small sheets.
const SMALL: Shape = Shape {
    variables: 6,
    features: 2,
    labels: 3,
    records: 10,
    questions: 10,
    percents: [30, 20, 45, 12],
};

// The shapes of small sheets.
const SHAPES: [Shape; 7] = [
    SMALL,
    Shape {
        percents: [45, 5, 45, 15],
        ..SMALL
    },
    Shape {
        percents: [8, 45, 60, 15],
        features: 1,
        ..SMALL
    },
    Shape {
        percents: [25, 15, 70, 8],
        records: 14,
        labels: 2,
        ..SMALL
    },
    Shape {
        percents: [15, 15, 15, 40],
        labels: 2,
        ..SMALL
    },
    Shape {
        percents: [20, 5, 80, 20],
        records: 9,
        features: 3,
        labels: 2,
        ..SMALL
    },
    Shape {
        percents: [18, 8, 55, 15],
        records: 18,
        variables: 12,
        labels: 2,
        ..SMALL
    },
];

// Hold the check against the plain solver on one sheet.
fn hold(sheet: &Plain, tally: &mut Tally) {
    let expected = plain::solve(sheet);
    compare(sheet, &encode(sheet), &expected);
    compare_asked(sheet, &expected);
    note(tally, sheet, &expected);
}

// Small random sheets of several shapes.
fn small_sheets(dice: &mut Dice, rounds: usize) {
    let mut tally = Tally::default();
    for round in 0..rounds {
        let sheet = random_sheet(dice, &SHAPES[round % SHAPES.len()]);
        hold(&sheet, &mut tally);
        note_rules(&mut tally, &sheet);
    }
    tally.print("small random sheets");
}

// Consistent sheets with many statements, where many questions are replied to with never.
fn grown_sheets(dice: &mut Dice, rounds: usize) {
    let mut tally = Tally::default();
    for round in 0..rounds {
        let n = 2 + dice.roll([5, 8, 14, 24][round % 4]);
        let tries = n + dice.roll(2 * n);
        let features = 1 + dice.roll(3);
        let sheet = grown_sheet(dice, n, features, tries, 16);
        hold(&sheet, &mut tally);
        if n < 9 {
            note_rules(&mut tally, &sheet);
        }
    }
    tally.print("grown consistent sheets");
}

// Small sheets whose least trees are there exactly where there is no clash, and have the labels told at their roots.
fn tree_sheets(dice: &mut Dice, rounds: usize) {
    let mut tally = Tally::default();
    for round in 0..rounds {
        let percents = SHAPES[round % SHAPES.len()].percents;
        let sheet = random_sheet(
            dice,
            &Shape {
                variables: 5,
                percents,
                ..SMALL
            },
        );
        let expected = plain::solve(&sheet);
        let labels = (expected.kind == 0).then(|| expected.labels.clone());
        assert_eq!(trees::roots(&sheet), labels, "{sheet:?}");
        hold(&sheet, &mut tally);
    }
    tally.print("small sheets and their least trees");
}

// Small sheets whose least trees have the paths that are replied to with always, and the labels told there.
fn path_trees(dice: &mut Dice, rounds: usize) {
    let mut tally = Tally::default();
    for round in 0..rounds {
        let (features, longest, depth) = [(1, 8, 16), (2, 4, 10)][round % 2];
        let shape = Shape {
            variables: 5,
            features,
            questions: 0,
            percents: [30, 5, 50, 12],
            ..SMALL
        };
        let mut sheet = random_sheet(dice, &shape);
        ask_paths(dice, &mut sheet, features + 1, 10);
        sheet
            .questions
            .retain(|one| matches!(one, Reaches(_, path) if path.features().len() <= longest));
        let expected = plain::solve(&sheet);
        let wanted: Vec<_> = expected
            .replies
            .iter()
            .copied()
            .zip(expected.path_labels.clone())
            .collect();
        let wanted = (expected.kind == 0).then_some(wanted);
        assert_eq!(trees::paths(&sheet, depth), wanted, "{sheet:?}");
        hold(&sheet, &mut tally);
    }
    tally.print("paths in small sheets and their least trees");
}

// Sheets around a cycle that no path goes round, with ways out of it and back.
fn long_cycle_sheets(dice: &mut Dice, rounds: usize) {
    let mut tally = Tally::default();
    for _ in 0..rounds {
        hold(&long_cycle_sheet(dice), &mut tally);
    }
    tally.print("paths around long cycles");
}

// Sheets around two cycles of selections, whose trials reach far.
fn cycle_sheets(dice: &mut Dice, rounds: usize) {
    let mut tally = Tally::default();
    for round in 0..rounds {
        let sheet = cycle_sheet(dice, 4 + round % 8, 6);
        hold(&sheet, &mut tally);
    }
    tally.print("sheets around cycles");
}

// Sheets of cycles with many questions, where one trial can spare another.
fn block_sheets(dice: &mut Dice, rounds: usize) {
    let mut tally = Tally::default();
    for _ in 0..rounds {
        let n = 6 + dice.roll(13);
        let sheet = block_sheet(dice, n, 90);
        hold(&sheet, &mut tally);
    }
    tally.print("sheets of cycles with many questions");
}

// Sheets in which many pairs clash only together with others.
fn joint_sheets(dice: &mut Dice, rounds: usize) {
    let mut tally = Tally::default();
    for _ in 0..rounds {
        let n = 5 + dice.roll(8);
        let sheet = joint_sheet(dice, n, 40);
        hold(&sheet, &mut tally);
    }
    tally.print("sheets with joint reasons");
}

// Small sheets whose variables are spread, in the same order, over many.
fn spread_sheets(dice: &mut Dice, rounds: usize) {
    let shape = Shape {
        variables: 9,
        features: 2,
        labels: 2,
        records: 12,
        questions: 10,
        percents: [20, 10, 55, 15],
    };
    let mut tally = Tally::default();
    for round in 0..rounds {
        let small = if round % 2 == 0 {
            random_sheet(dice, &shape)
        } else {
            grown_sheet(dice, 8, 2, 20, 12)
        };
        let n = 60 + dice.roll(69);
        let mut places: Vec<usize> = Vec::new();
        while places.len() < small.n {
            let place = dice.roll(n);
            if !places.contains(&place) {
                places.push(place);
            }
        }
        places.sort();
        let expected = spread_expected(&small, &plain::solve(&small), &places, n);
        let sheet = spread_sheet(&small, &places, n);
        compare(&sheet, &encode(&sheet), &expected);
        compare_asked(&sheet, &expected);
        note(&mut tally, &sheet, &expected);
    }
    tally.print("small sheets spread over 60 to 128 variables");
}

// The sheet with its variables moved to the given places.
fn spread_sheet(small: &Plain, places: &[usize], n: usize) -> Plain {
    let moved = |one: &Said| match *one {
        Below(i, j) => Below(places[i], places[j]),
        Mates(i, j) => Mates(places[i], places[j]),
        Selects(i, f, j) => Selects(places[i], f, places[j]),
        Labelled(i, a) => Labelled(places[i], a),
        Reaches(i, path) => Reaches(places[i], path),
    };
    let records = small
        .records
        .iter()
        .map(|said| said.iter().map(moved).collect())
        .collect();
    Plain {
        n,
        records,
        questions: small.questions.iter().map(moved).collect(),
    }
}

// What is expected when the variables are moved to the given places.
fn spread_expected(small: &Plain, expected: &Expected, places: &[usize], n: usize) -> Expected {
    let mut table = vec![0; n * n];
    (0..n).for_each(|v| table[v * n + v] = 3);
    for i in 0..small.n {
        for j in 0..small.n {
            table[places[i] * n + places[j]] = expected.table[i * small.n + j];
        }
    }
    let mut labels = vec![None; n];
    (0..small.n).for_each(|i| labels[places[i]] = expected.labels[i]);
    let more = (n - small.n) as u64;
    let (first, second) = match expected.kind {
        0 => (expected.first + more, expected.second + more),
        _ => (
            places[expected.first as usize] as u64,
            places[expected.second as usize] as u64,
        ),
    };
    Expected {
        kind: expected.kind,
        first,
        second,
        table,
        labels,
        replies: expected.replies.clone(),
        path_labels: expected.path_labels.clone(),
    }
}

// Grown sheets of full size, with few questions.
fn large_sheets(dice: &mut Dice, rounds: usize) {
    let mut tally = Tally::default();
    for round in 0..rounds {
        let n = 100 + dice.roll(29);
        let sheet = grown_sheet(dice, n, [40, 6, 200, 2][round % 4], [150, 250, 400][round % 3], 8);
        hold(&sheet, &mut tally);
    }
    tally.print("large grown sheets");
}

// Sheets of full size with many questions: each question alone gets the reply it gets among all.
fn full_sheets(dice: &mut Dice, rounds: usize) {
    let mut tally = Tally::default();
    for round in 0..rounds {
        let sheet = match round % 3 {
            0 => block_sheet(dice, 128, 800),
            1 => joint_sheet(dice, 128, 1_000),
            _ => grown_sheet(dice, 128, 9, 400, 800),
        };
        let mut tables = [0; 2].map(|_| vec![0; 128 * 128]);
        let [facts, work] = &mut tables;
        let mut replies = vec![9; sheet.questions.len()];
        second::check(&encode(&sheet), facts, work, &mut replies);
        for (&question, &reply) in sheet.questions.iter().zip(&replies) {
            let alone = Plain {
                questions: vec![question],
                ..sheet.clone()
            };
            let mut single = [9];
            second::check(&encode(&alone), facts, work, &mut single);
            assert_eq!(single[0], reply, "{question:?} {sheet:?}");
            tally.add(format!("replies {reply}"));
        }
    }
    tally.print("full sheets, each question alone and among all");
}

// Middle-sized sheets of cycles, with few questions.
fn middle_sheets(dice: &mut Dice, rounds: usize) {
    let mut tally = Tally::default();
    for _ in 0..rounds {
        let n = 30 + dice.roll(50);
        let mut sheet = block_sheet(dice, n, 200);
        let start = dice.roll(sheet.questions.len() - 12);
        sheet.questions = sheet.questions[start..start + 12].to_vec();
        hold(&sheet, &mut tally);
    }
    tally.print("middle-sized sheets of cycles");
}

// Damaged sheets, held against the plain reader.
fn damaged_sheets(dice: &mut Dice, rounds: usize) {
    let shape = Shape {
        variables: 5,
        features: 2,
        labels: 2,
        records: 4,
        questions: 4,
        percents: [40, 30, 40, 20],
    };
    let mut tally = Tally::default();
    for _ in 0..rounds {
        let mut bytes = encode(&random_sheet(dice, &shape));
        for _ in 0..1 + dice.roll(2) {
            let at = dice.roll(bytes.len());
            bytes[at] = [0, 1, 2, 4, 5, 7, 8, 9, 15, 16, 16, 17, 48, 128, 129, 255][dice.roll(16)];
        }
        if dice.chance(20) {
            bytes.truncate(dice.roll(bytes.len() + 1));
        }
        if dice.chance(10) {
            bytes.push(dice.roll(256) as u8);
        }
        match decode(&bytes) {
            Ok(sheet) => compare(&sheet, &bytes, &plain::solve(&sheet)),
            Err((number, offset)) => compare_refusal(&bytes, [30, 30, 4], number, offset),
        }
        tally.add(
            decode(&bytes)
                .err()
                .map_or("accepted".to_string(), |(number, _)| format!("refused {number}")),
        );
    }
    tally.print("damaged sheets");
}

// All cases; the first argument scales the random part.
fn main() {
    let scale: usize = std::env::args().nth(1).and_then(|text| text.parse().ok()).unwrap_or(1);
    let seed: u64 = std::env::args().nth(2).and_then(|text| text.parse().ok()).unwrap_or(1);
    let mut dice = Dice(0x9e37_79b9_7f4a_7c15_u64.wrapping_mul(2 * seed + 1));
    hand::numbered_cases();
    hand::root_labels();
    hand::root_labels_of_no_sheet();
    hand::trap_of_smallest_trees();
    hand::joint_reasons();
    hand::kept_facts();
    hand::run_only_cases();
    hand::refusals_by_place();
    hand::longest_sheet();
    paths::paths_by_hand();
    paths::numbers_by_hand();
    paths::paths_on_clashes();
    paths::counts_and_places();
    paths::maps();
    paths::cut_sheets();
    small_sheets(&mut dice, 7_000 * scale);
    tree_sheets(&mut dice, 1_000 * scale);
    path_trees(&mut dice, 600 * scale);
    long_cycle_sheets(&mut dice, 400 * scale);
    grown_sheets(&mut dice, 2_000 * scale);
    cycle_sheets(&mut dice, 400 * scale);
    block_sheets(&mut dice, 150 * scale);
    joint_sheets(&mut dice, 500 * scale);
    spread_sheets(&mut dice, 1_500 * scale);
    damaged_sheets(&mut dice, 10_000 * scale);
    middle_sheets(&mut dice, 8 * scale);
    large_sheets(&mut dice, 4 * scale);
    full_sheets(&mut dice, 6 * scale);
    println!("all right");
}
