// Random questions for paths, and sheets around what paths go through.

use crate::plain::Said::{self, Below, Labelled, Reaches, Selects};
use crate::plain::{Path, Plain};
use crate::sheets::{name, Dice};

// The features and children that are stated for a variable or for one stated to be below it.
fn stated_steps(said: &[Said], v: usize) -> Vec<(u16, usize)> {
    let step = |one: &Said| match *one {
        Selects(k, f, j) if k == v || said.contains(&Below(k, v)) => Some((f, j)),
        _ => None,
    };
    said.iter().filter_map(step).collect()
}

// A question for a path that mostly follows what is stated, and else any of so many features.
pub fn path_question(dice: &mut Dice, sheet: &Plain, features: usize) -> Said {
    let said = sheet.records.concat();
    let start = dice.roll(sheet.n);
    let (mut v, mut path) = (start, Vec::new());
    for _ in 0..1 + dice.roll(8) {
        let steps = stated_steps(&said, v);
        let (f, next) = if steps.is_empty() || dice.chance(8) {
            (name(dice.roll(features)), dice.roll(sheet.n))
        } else {
            steps[dice.roll(steps.len())]
        };
        path.push(f);
        v = next;
    }
    Reaches(start, Path::of(&path))
}

// Ask for paths besides what is asked, at any places among the questions.
pub fn ask_paths(dice: &mut Dice, sheet: &mut Plain, features: usize, count: usize) {
    for _ in 0..count {
        let question = path_question(dice, sheet, features);
        let at = dice.roll(sheet.questions.len() + 1);
        sheet.questions.insert(at, question);
    }
}

// A sheet around a cycle of selections longer than a path, with ways out of it and back, and orders between the parts.
pub fn long_cycle_sheet(dice: &mut Dice) -> Plain {
    let (length, out) = (9 + dice.roll(6), 1 + dice.roll(4));
    let n = length + out + 2;
    let mut said: Vec<Said> = (0..length).map(|i| Selects(i, name(0), (i + 1) % length)).collect();
    said.push(Selects(dice.roll(length), name(1), length));
    said.extend((1..out).map(|k| Selects(length + k - 1, name(dice.roll(2)), length + k)));
    said.push(Selects(length + out - 1, name(1), dice.roll(length)));
    for _ in 0..dice.roll(4) {
        said.push(Below(dice.roll(n), dice.roll(n)));
    }
    for _ in 0..1 + dice.roll(2) {
        said.push(Labelled(dice.roll(n), 5));
    }
    let mut sheet = Plain {
        n,
        records: said.into_iter().map(|one| vec![one]).collect(),
        ..Plain::default()
    };
    ask_paths(dice, &mut sheet, 3, 12);
    sheet
}
