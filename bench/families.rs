//! What the sheets of each family state, and what is asked of them.

use crate::numbers::Numbers;
use crate::sheets::{Item, Path, Said, Sheet, LONGEST_PATH};
use crate::stored::QUESTIONS;

const SELECTIONS: usize = 1_024;

/// States it in the first record that can take it, else in a new one.
pub fn pack(sheet: &mut Sheet, said: Said) {
    match sheet.records.iter_mut().find(|record| record.can_add(said)) {
        Some(record) => record.add(said),
        None => sheet.records.push(Item::of(said)),
    }
}

fn pair(numbers: &mut Numbers, i: usize, j: usize) -> Said {
    if numbers.once_in(2) {
        Said::Ordered(i, j)
    } else {
        Said::Compatible(i, j)
    }
}

/// Pairs of either kind and selections by chance among all variables but the last two.
fn state_random(numbers: &mut Numbers, sheet: &mut Sheet, pairs: usize, selections: usize, features: usize) {
    let m = sheet.n - 2;
    for _ in 0..pairs {
        let (i, j) = (numbers.below(m), numbers.below(m));
        sheet.state(pair(numbers, i, j));
    }
    for _ in 0..selections {
        sheet.state(Said::Selected(numbers.below(m), numbers.below(features) as u16, numbers.below(m)));
    }
}

pub fn sparse_few(numbers: &mut Numbers, sheet: &mut Sheet) {
    state_random(numbers, sheet, sheet.n / 2, sheet.n / 2, 3);
}

pub fn sparse_many(numbers: &mut Numbers, sheet: &mut Sheet) {
    state_random(numbers, sheet, sheet.n / 2, 2 * sheet.n, 200);
}

/// Seven records a variable, each with a pair and a selection.
pub fn dense(numbers: &mut Numbers, sheet: &mut Sheet) {
    let m = sheet.n - 2;
    for _ in 0..7 * sheet.n {
        let (i, j) = (numbers.below(m), numbers.below(m));
        sheet.state(pair(numbers, i, j));
        sheet.state_together(Said::Selected(i, numbers.below(4) as u16, numbers.below(m)));
    }
}

/// The numbers below a bound in an order by chance.
fn shuffled(numbers: &mut Numbers, bound: usize) -> Vec<usize> {
    let mut list: Vec<usize> = (0..bound).collect();
    for k in (1..bound).rev() {
        list.swap(k, numbers.below(k + 1));
    }
    list
}

/// Each variable but the last two is below the next, stated in an order by chance.
pub fn total_order(numbers: &mut Numbers, sheet: &mut Sheet) {
    for i in shuffled(numbers, sheet.n - 3) {
        sheet.state(Said::Ordered(i, i + 1));
    }
}

/// Two chains of children, stated from their ends, and the heads ordered.
pub fn reversed_chain(_: &mut Numbers, sheet: &mut Sheet) {
    let half = sheet.n / 2;
    for k in (1..half).rev() {
        sheet.state(Said::Selected(k - 1, 0, k));
        sheet.state(Said::Selected(half + k - 1, 0, half + k));
    }
    sheet.state(Said::Ordered(0, half));
}

/// A cycle of variables, each with its next as child at all of the features.
fn state_cycle(sheet: &mut Sheet, first: usize, length: usize, features: u16) {
    for k in 0..length {
        for f in 0..features {
            sheet.state(Said::Selected(first + k, f, first + (k + 1) % length));
        }
    }
}

pub fn one_cycle(_: &mut Numbers, sheet: &mut Sheet) {
    state_cycle(sheet, 0, sheet.n, 8);
    pack(sheet, Said::Ordered(0, sheet.n / 4));
}

pub fn two_cycles(_: &mut Numbers, sheet: &mut Sheet) {
    let half = sheet.n / 2;
    state_cycle(sheet, 0, half - 1, 1);
    state_cycle(sheet, half - 1, half + 1, 1);
}

/// An order, and as many selections as there may be, whose children rise with their subjects.
pub fn order_selections(numbers: &mut Numbers, sheet: &mut Sheet) {
    let m = sheet.n - 2;
    let subjects = shuffled(numbers, m);
    for k in 0..SELECTIONS - 2 {
        let (i, f) = (subjects[k % m], k / m);
        sheet.state(Said::Selected(i, f as u16, (i + f).min(m - 1)));
    }
    // the last two, which are in no order, have themselves
    sheet.state(Said::Selected(m, 0, m));
    sheet.state(Said::Selected(m + 1, 0, m + 1));
    for &i in subjects.iter().filter(|&&i| i + 1 < m) {
        pack(sheet, Said::Ordered(i, i + 1));
    }
}

/// Whether the label a of i clashes with one that is there; the table is that of the sheet without labels.
fn clashes(table: &[u8], labels: &[Option<u16>], i: usize, a: u16) -> bool {
    let n = labels.len();
    (0..n).any(|j| table[i * n + j] > 1 && labels[j].is_some_and(|b| b != a))
}

/// Labels about a quarter of the variables, the last one first, where that does not clash.
pub fn state_labels(numbers: &mut Numbers, sheet: &mut Sheet, table: &[u8]) {
    let n = sheet.n;
    let mut labels = vec![None; n];
    for k in 0..n / 4 {
        let i = if k == 0 { n - 1 } else { numbers.below(n) };
        let a = if k < 3 { k } else { numbers.below(3) } as u16;
        if labels[i].is_none() && !clashes(table, &labels, i, a) {
            labels[i] = Some(a);
            pack(sheet, Said::Labelled(a, i));
        }
    }
}

/// Questions of all kinds about any variables, now and then with a feature or label that is not stated.
pub fn ask(numbers: &mut Numbers, sheet: &mut Sheet, features: usize) {
    for _ in 0..QUESTIONS {
        let (kind, i, j) = (numbers.below(4), numbers.below(sheet.n), numbers.below(sheet.n));
        sheet.ask(match kind {
            0 => Said::Ordered(i, j),
            1 => Said::Compatible(i, j),
            2 => Said::Selected(i, numbers.below(features + 1) as u16, j),
            _ => Said::Labelled(numbers.below(4) as u16, i),
        });
    }
}

/// So many features that lead from i to some variable, each by a selection of one that is below the last.
fn way(numbers: &mut Numbers, sheet: &Sheet, table: &[u8], i: usize, length: usize) -> Vec<u16> {
    let mut at = i;
    let step = |_| {
        let lower = sheet.records.iter().filter(|record| table[record.subject * sheet.n + at] & 1 == 1);
        let (feature, child) = numbers.pick(&lower.filter_map(|record| record.selection).collect::<Vec<_>>());
        at = child;
        feature
    };
    (0..length).map(step).collect()
}

/// A feature that no sheet here states.
const UNSTATED: u16 = u16::MAX;

/// Questions for paths from any variables, half of them ways that are there, half such ways with an unstated feature.
pub fn ask_paths(numbers: &mut Numbers, sheet: &mut Sheet, table: &[u8], shortest: usize) {
    for _ in 0..QUESTIONS {
        let (i, length) = (numbers.below(sheet.n), numbers.between(shortest, LONGEST_PATH));
        let mut features = way(numbers, sheet, table, i, length);
        if numbers.once_in(2) {
            features[numbers.below(length)] = UNSTATED;
        }
        sheet.ask(Said::Reached(i, Path::of(&features)));
    }
}
