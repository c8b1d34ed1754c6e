//! The labels of roots: the engine's call from C beside the second solver's, for one sheet.

use crate::cases::{Case, Known};
use crate::lent::{Lengths, Lent};
use crate::numbers::Numbers;
use crate::tally::Tally;

extern "C" {
    fn root_label(sheet: *const u8, sheet_length: usize, variable: u32) -> u64;
}

/// A sheet of so many variables or fewer has each of them asked for, a larger one some by chance.
const EACH: u32 = 16;
const SOME: usize = 4;

/// A sheet is lent alone.
const ALONE: Lengths = Lengths { facts: 0, work: 0, replies: 0 };

/// The engine's label of a root.
fn engine(sheet: &[u8], variable: u32) -> u64 {
    unsafe { root_label(sheet.as_ptr(), sheet.len(), variable) }
}

/// Variables of a sheet, the number behind them, and numbers at the ends of what a variable, a byte and two bytes can
/// hold: one of these where each call may derive the sheet, all where most sheets are refused.
fn asked(case: &Case, numbers: &mut Numbers) -> Vec<u32> {
    let n = case.bytes.get(1).map_or(0, |&count| u32::from(count));
    let mut all: Vec<u32> = (0..n).collect();
    if n > EACH {
        all = (0..SOME).map(|_| numbers.pick(&all)).collect();
    }
    let ends = [n + 1, 127, 128, 255, 256, 65_535, 65_536, u32::MAX];
    all.push(n);
    match case.known {
        Known::Whole(_) => all.push(numbers.pick(&ends)),
        _ => all.extend(ends),
    }
    all
}

/// Whether the sheet is known to state no label for the variable.
fn unstated(case: &Case, variable: u32) -> bool {
    matches!(&case.known, Known::Whole(whole) if !whole.labelled.contains(&(variable as usize)))
}

/// Compares what both tell of each, and counts it; the memory in which the sheet is lent has to stay as it was.
pub fn compare(case: &Case, numbers: &mut Numbers, tally: &mut Tally) -> Result<(), String> {
    let mut lent = Lent::new(numbers, &case.bytes, ALONE);
    let before = lent.clone();
    for variable in asked(case, numbers) {
        let label = lent.lend_sheet(|sheet| engine(sheet, variable));
        let expected = second::root_label(&case.bytes, variable);
        if label != expected {
            return Err(format!("root label of {variable}: the engine returns {label}, the second solver {expected}"));
        }
        tally.label(label != 0, unstated(case, variable));
    }
    let changed = lent.differs_from(&before);
    changed.map_or(Ok(()), |what| Err(format!("root labels: {what}, after the calls and before")))
}
