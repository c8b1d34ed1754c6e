//! Paths that follow what a sheet states, to be asked for.

use crate::numbers::Numbers;
use crate::sheets::{Path, Said, Sheet, LONGEST_PATH};

/// For each variable, the features and children stated for it, and the variables stated to be below it.
pub struct Ways {
    steps: Vec<Vec<(u16, usize)>>,
    lower: Vec<Vec<usize>>,
}

impl Ways {
    pub fn of(sheet: &Sheet) -> Ways {
        let mut ways = Ways { steps: vec![Vec::new(); sheet.n], lower: vec![Vec::new(); sheet.n] };
        for item in &sheet.records {
            ways.steps[item.subject].extend(item.selection);
            if let Some(target) = item.target {
                ways.lower[target].push(item.subject);
            }
        }
        ways
    }

    /// A variable with a step at or below v, or v where chance leads to none.
    fn below(&self, numbers: &mut Numbers, v: usize) -> usize {
        let mut lower = v;
        while !self.lower[lower].is_empty() && (self.steps[lower].is_empty() || numbers.once_in(2)) {
            lower = numbers.pick(&self.lower[lower]);
            if numbers.once_in(20) {
                break;
            }
        }
        if self.steps[lower].is_empty() {
            v
        } else {
            lower
        }
    }

    /// A path of so many features from a variable: each by a step that is stated, or once in a while any of the others.
    pub fn path(&self, numbers: &mut Numbers, start: usize, length: usize, others: &[u16]) -> Path {
        let (mut v, mut features) = (start, Vec::new());
        for _ in 0..length {
            let steps = &self.steps[self.below(numbers, v)];
            let step = if steps.is_empty() || numbers.once_in(12) {
                (numbers.pick(others), numbers.below(self.steps.len()))
            } else {
                numbers.pick(steps)
            };
            features.push(step.0);
            v = step.1;
        }
        Path::of(&features)
    }

    /// A question for a path of any length from any variable.
    pub fn any(&self, numbers: &mut Numbers, others: &[u16]) -> Said {
        let (start, length) = (numbers.below(self.steps.len()), numbers.between(1, LONGEST_PATH));
        Said::Reached(start, self.path(numbers, start, length, others))
    }
}

/// Asks for so many paths, at any places among the questions.
pub fn ask(numbers: &mut Numbers, sheet: &mut Sheet, others: &[u16], count: usize) {
    let ways = Ways::of(sheet);
    for _ in 0..count {
        sheet.ask(ways.any(numbers, others));
        let (last, at) = (sheet.questions.len() - 1, numbers.below(sheet.questions.len()));
        sheet.questions.swap(at, last);
    }
}
