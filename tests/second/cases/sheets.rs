// Random sheets of several kinds for the plain solver.

use crate::bytes::encode;
use crate::path_sheets::ask_paths;
use crate::plain::Plain;
use crate::plain::Said::{self, Below, Labelled, Mates, Selects};

// A small generator of pseudo-random numbers.
pub struct Dice(pub u64);

impl Dice {
    // A number below the bound.
    pub fn roll(&mut self, bound: usize) -> usize {
        self.0 ^= self.0 << 13;
        self.0 ^= self.0 >> 7;
        self.0 ^= self.0 << 17;
        ((self.0 >> 33) as usize) % bound
    }

    // Whether an event of the given percentage happens.
    pub fn chance(&mut self, percent: usize) -> bool {
        self.roll(100) < percent
    }
}

// What kind of random sheet to make.
#[derive(Clone, Copy)]
pub struct Shape {
    pub variables: usize,
    pub features: usize,
    pub labels: usize,
    pub records: usize,
    pub questions: usize,
    pub percents: [usize; 4],
}

// A random statement of the given form about variable i.
fn statement(dice: &mut Dice, shape: &Shape, n: usize, i: usize, form: usize) -> Said {
    match form {
        0 => Below(i, dice.roll(n)),
        1 => Mates(i, dice.roll(n)),
        2 => Selects(i, name(dice.roll(shape.features)), dice.roll(n)),
        _ => Labelled(i, name(dice.roll(shape.labels))),
    }
}

// A feature or label number that spans both bytes for some.
pub fn name(small: usize) -> u16 {
    [0u16, 1, 256, 65_535, 257, 511, 7, 40_000][small % 8].wrapping_add((small / 8) as u16 * 3)
}

// A random sheet of the given shape.
pub fn random_sheet(dice: &mut Dice, shape: &Shape) -> Plain {
    let n = 1 + dice.roll(shape.variables);
    let mut sheet = Plain { n, ..Plain::default() };
    for _ in 0..dice.roll(shape.records + 1) {
        let i = dice.roll(n);
        let forms: Vec<usize> = (0..4).filter(|&form| dice.chance(shape.percents[form])).collect();
        if !forms.is_empty() {
            sheet
                .records
                .push(forms.iter().map(|&form| statement(dice, shape, n, i, form)).collect());
        }
    }
    for _ in 0..dice.roll(shape.questions + 1) {
        let (i, form) = (dice.roll(n), dice.roll(4));
        sheet.questions.push(statement(dice, shape, n, i, form));
    }
    let paths = dice.roll(shape.questions / 2 + 1);
    ask_paths(dice, &mut sheet, shape.features + 1, paths);
    sheet
}

// A random sheet around two cycles of selections.
pub fn cycle_sheet(dice: &mut Dice, size: usize, extra: usize) -> Plain {
    let (p, q) = (2 + dice.roll(size), 2 + dice.roll(size));
    let n = p + q + dice.roll(3);
    let mut sheet = Plain { n, ..Plain::default() };
    for i in 0..p + q {
        let next = if i < p { (i + 1) % p } else { p + (i - p + 1) % q };
        sheet.records.push(vec![Selects(i, 1, next)]);
    }
    let shape = Shape {
        variables: n,
        features: 3,
        labels: 2,
        records: 0,
        questions: 0,
        percents: [0; 4],
    };
    for _ in 0..dice.roll(extra + 1) {
        let (i, form) = (dice.roll(n), [0, 1, 2, 3, 3, 3][dice.roll(6)]);
        sheet.records.push(vec![statement(dice, &shape, n, i, form)]);
    }
    for _ in 0..12 {
        let (i, form) = (dice.roll(n), [0, 1, 2, 2][dice.roll(4)]);
        sheet.questions.push(statement(dice, &shape, n, i, form));
    }
    ask_paths(dice, &mut sheet, 3, 3);
    sheet
}

// Whether a sheet without questions clashes, by the check itself.
fn clashes(sheet: &Plain) -> bool {
    let mut tables = [0; 2].map(|_| vec![0; sheet.n * sheet.n]);
    let [facts, work] = &mut tables;
    second::check(&encode(sheet), facts, work, &mut []) & 255 == 1
}

// A sheet grown statement by statement, in which every statement that would clash is left out.
pub fn grown_sheet(dice: &mut Dice, n: usize, features: usize, tries: usize, asked: usize) -> Plain {
    let shape = Shape {
        variables: n,
        features,
        labels: 2,
        records: 0,
        questions: 0,
        percents: [0; 4],
    };
    let mut sheet = Plain { n, ..Plain::default() };
    let weights = [
        [0, 1, 2, 3, 2, 3],
        [0, 2, 2, 2, 3, 3],
        [1, 1, 2, 2, 2, 3],
        [0, 0, 1, 2, 3, 3],
    ][dice.roll(4)];
    for _ in 0..tries {
        let (i, form) = (dice.roll(n), weights[dice.roll(6)]);
        sheet.records.push(vec![statement(dice, &shape, n, i, form)]);
        if clashes(&sheet) {
            sheet.records.pop();
        }
    }
    while sheet.questions.len() < asked {
        let (i, form) = (dice.roll(n), [0, 0, 1, 2, 2, 2, 3][dice.roll(7)]);
        sheet.questions.push(statement(dice, &shape, n, i, form));
        related_questions(dice, &mut sheet);
    }
    ask_paths(dice, &mut sheet, features, asked / 8);
    sheet
}

// Ask now and then for one order between a stated child and some variable, then for the same selection with that.
fn related_questions(dice: &mut Dice, sheet: &mut Plain) {
    let at = dice.roll(sheet.records.len() + 1);
    if let Some(&[Selects(i, f, c)]) = sheet.records.get(at).map(|said| &said[..]) {
        let j = dice.roll(sheet.n);
        let order = if dice.chance(50) { Below(c, j) } else { Below(j, c) };
        sheet.questions.extend([order, Selects(i, f, j)]);
    }
}

// A consistent sheet of cycles of selections over several features, with gaps, and many questions.
pub fn block_sheet(dice: &mut Dice, n: usize, asked: usize) -> Plain {
    let mut sheet = Plain { n, ..Plain::default() };
    let features = 1 + dice.roll(3);
    for f in 0..features {
        let (mut start, gaps, longest) = (0, [0, 20, 60][dice.roll(3)], 1 + dice.roll(n));
        while start < n {
            let length = (1 + dice.roll(longest)).min(n - start);
            for i in (0..length).filter(|_| !dice.chance(gaps)).collect::<Vec<_>>() {
                sheet
                    .records
                    .push(vec![Selects(start + i, name(f), start + (i + 1) % length)]);
            }
            start += length;
        }
    }
    let more = grown_sheet(dice, n, features, 4 + n / 3, asked);
    for record in more.records {
        sheet.records.push(record);
        if clashes(&sheet) {
            sheet.records.pop();
        }
    }
    sheet.questions = more.questions;
    ask_paths(dice, &mut sheet, features, asked / 10);
    sheet
}

// A consistent sheet in which many pairs clash only together with others, and many questions.
pub fn joint_sheet(dice: &mut Dice, n: usize, asked: usize) -> Plain {
    let mut said = vec![Labelled(dice.roll(n), 5), Labelled(dice.roll(n), 6)];
    for _ in 0..1 + dice.roll(3) {
        let [x, a, b, y, c] = [0; 5].map(|_| dice.roll(n));
        said.extend([Selects(x, 1, a), Selects(x, 2, b), Selects(y, 1, c), Selects(y, 2, c)]);
        said.extend([Labelled(a, 5), Labelled(b, 6)]);
    }
    for _ in 0..dice.roll(6) {
        said.extend([
            Below(dice.roll(n), dice.roll(n)),
            Selects(dice.roll(n), 3, dice.roll(n)),
        ]);
    }
    let mut sheet = Plain { n, ..Plain::default() };
    for one in said {
        sheet.records.push(vec![one]);
        if clashes(&sheet) {
            sheet.records.pop();
        }
    }
    let shape = Shape {
        variables: n,
        features: 4,
        labels: 2,
        records: 0,
        questions: 0,
        percents: [0; 4],
    };
    while sheet.questions.len() < asked {
        let (i, form) = (dice.roll(n), [0, 0, 0, 2][dice.roll(4)]);
        let question = match statement(dice, &shape, n, i, form) {
            Selects(i, _, j) => Selects(i, 1 + dice.roll(3) as u16, j),
            other => other,
        };
        sheet.questions.push(question);
        related_questions(dice, &mut sheet);
    }
    sheet
}
