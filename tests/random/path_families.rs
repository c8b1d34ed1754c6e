//! Families of accepted sheets that ask for paths.

use crate::families;
use crate::numbers::Numbers;
use crate::sheets::{Path, Said, Sheet, LONGEST_PATH};
use crate::ways::{self, Ways};

/// States labels of any variables, mostly the same one, so that many sheets are consistent.
fn state_labels(numbers: &mut Numbers, sheet: &mut Sheet, count: usize) {
    let usual = numbers.pick(&[0, 5, 65_535]);
    for _ in 0..count {
        let label = if numbers.once_in(8) { 6 } else { usual };
        let i = numbers.below(sheet.n);
        sheet.state_together(Said::Labelled(label, i));
    }
}

/// Asks for paths, and for anything else besides.
fn ask(numbers: &mut Numbers, sheet: &mut Sheet, features: &[u16], paths: usize) {
    if numbers.once_in(2) {
        let count = numbers.between(1, 4);
        families::ask_of_features(numbers, sheet, features, count);
    }
    ways::ask(numbers, sheet, &[features, &[777]].concat(), paths);
}

/// Few children under several features of many subjects, and some subjects below others.
pub fn shared(numbers: &mut Numbers) -> Sheet {
    let mut sheet = Sheet::over(numbers.between(4, 12));
    let children: Vec<usize> = (0..numbers.between(1, 3)).map(|_| numbers.below(sheet.n)).collect();
    let features = [1, 2, 3];
    for _ in 0..numbers.between(sheet.n / 2, 2 * sheet.n) {
        let (i, far) = (numbers.below(sheet.n), numbers.once_in(5));
        let child = if far { numbers.below(sheet.n) } else { numbers.pick(&children) };
        sheet.state(Said::Selected(i, numbers.pick(&features), child));
    }
    for _ in 0..numbers.between(0, 3) {
        let (i, j) = (numbers.below(sheet.n), numbers.below(sheet.n));
        sheet.state_together(Said::Ordered(i, j));
    }
    let labels = numbers.between(0, 3);
    state_labels(numbers, &mut sheet, labels);
    let paths = numbers.between(3, 12);
    ask(numbers, &mut sheet, &features, paths);
    sheet
}

/// A cycle that may be longer than any path, ways out of it that come back, and variables above some of it.
pub fn cycle(numbers: &mut Numbers) -> Sheet {
    let length = numbers.pick(&[1, 2, 3, 7, 8, 9, 10, 17]);
    let mut sheet = Sheet::over(length);
    for k in 0..length {
        sheet.state(Said::Selected(k, 1, (k + 1) % length));
    }
    for _ in 0..numbers.between(0, 3) {
        state_detour(numbers, &mut sheet, length);
    }
    for _ in 0..numbers.between(0, 3) {
        let (lower, new) = (numbers.below(sheet.n), sheet.n);
        sheet.n += 1;
        sheet.state(Said::Ordered(lower, new));
        if numbers.once_in(2) {
            sheet.state(Said::Selected(new, 2, numbers.below(sheet.n)));
        }
    }
    let labels = numbers.between(1, 4);
    state_labels(numbers, &mut sheet, labels);
    let (ways, paths) = (Ways::of(&sheet), numbers.between(2, 8));
    for _ in 0..paths {
        let start = numbers.below(sheet.n);
        sheet.ask(Said::Reached(start, ways.path(numbers, start, LONGEST_PATH, &[1, 2])));
    }
    ask(numbers, &mut sheet, &[1, 2], 4);
    sheet
}

/// Some steps out of the cycle of the first variables, the last of them back into it.
fn state_detour(numbers: &mut Numbers, sheet: &mut Sheet, cycle: usize) {
    let mut at = numbers.below(cycle);
    for _ in 0..numbers.between(1, 3) {
        sheet.state(Said::Selected(at, 2, sheet.n));
        at = sheet.n;
        sheet.n += 1;
    }
    let back = numbers.pick(&[1, 2]);
    sheet.state(Said::Selected(at, back, numbers.below(cycle)));
}

/// Steps stated at the lower ends of chains by ≤ alone, and children below others by F2 alone.
pub fn below(numbers: &mut Numbers) -> Sheet {
    let levels = numbers.between(1, 5);
    let mut sheet = Sheet::over(1);
    let (mut lower, mut heads) = (0, vec![0]);
    for level in 0..levels {
        let f = numbers.between(1, 3) as u16;
        for _ in 0..numbers.between(0, 3) {
            heads.push(sheet.n);
            state_above(numbers, &mut sheet, lower);
        }
        if numbers.once_in(2) {
            let (head, child) = (numbers.pick(&heads), sheet.n);
            sheet.n += 1;
            sheet.state(Said::Selected(head, f, child));
            heads.push(child);
        }
        let child = sheet.n;
        sheet.n += 1;
        sheet.state(Said::Selected(lower, f, child));
        if level + 1 == levels || numbers.once_in(3) {
            sheet.state(Said::Labelled(5 + level as u16, child));
        }
        lower = child;
    }
    families::shuffle_records(numbers, &mut sheet);
    let (ways, features) = (Ways::of(&sheet), [1, 2, 3]);
    for &head in &heads {
        let length = numbers.between(1, levels);
        sheet.ask(Said::Reached(head, ways.path(numbers, head, length, &features)));
    }
    ask(numbers, &mut sheet, &features, 4);
    sheet
}

/// One more variable above another: at once, by one between them, or beside it.
fn state_above(numbers: &mut Numbers, sheet: &mut Sheet, lower: usize) {
    let new = sheet.n;
    match numbers.below(4) {
        0 => {
            sheet.state(Said::Ordered(lower, new + 1));
            sheet.state(Said::Ordered(new + 1, new));
            sheet.n += 1;
        }
        1 => sheet.state(Said::Compatible(lower, new)),
        _ => sheet.state(Said::Ordered(lower, new)),
    }
    sheet.n += 1;
}

/// Features that are near to others, by number or by one of their bytes: most paths are not there.
pub fn absent(numbers: &mut Numbers) -> Sheet {
    let near: [u16; 10] = [0, 1, 255, 256, 257, 511, 512, 65_280, 65_534, 65_535];
    let mut sheet = Sheet::over(numbers.between(1, 5));
    let stated: Vec<u16> = (0..3).map(|_| numbers.pick(&near)).collect();
    for _ in 0..numbers.between(0, 8) {
        let (i, j) = (numbers.below(sheet.n), numbers.below(sheet.n));
        sheet.state(Said::Selected(i, numbers.pick(&stated), j));
    }
    let labels = numbers.between(0, 2);
    state_labels(numbers, &mut sheet, labels);
    ways::ask(numbers, &mut sheet, &near, 6);
    for _ in 0..4 {
        let features: Vec<u16> = (0..numbers.between(1, LONGEST_PATH)).map(|_| numbers.pick(&near)).collect();
        sheet.ask(Said::Reached(numbers.below(sheet.n), Path::of(&features)));
    }
    sheet
}

/// Several lines of children with the same features below one variable: of what is reached at a path, some has a label.
pub fn label(numbers: &mut Numbers) -> Sheet {
    let (lines, depth) = (numbers.between(2, 4), numbers.between(1, 4));
    let mut sheet = Sheet::over(1 + lines * (depth + 1));
    let features: Vec<u16> = (0..depth).map(|_| numbers.between(1, 2) as u16).collect();
    let node = |line: usize, level: usize| 1 + line * (depth + 1) + level;
    for line in 0..lines {
        for (level, &f) in features.iter().enumerate() {
            sheet.state(Said::Selected(node(line, level), f, node(line, level + 1)));
        }
        sheet.state(Said::Ordered(node(line, 0), 0));
    }
    let labels: Vec<u16> = (0..=depth).map(|_| numbers.pick(&[0, 5, 6, 65_535])).collect();
    for _ in 0..numbers.between(1, lines * depth) {
        let (line, level) = (numbers.below(lines), numbers.between(0, depth));
        let label = if numbers.once_in(40) { 7 } else { labels[level] };
        sheet.state(Said::Labelled(label, node(line, level)));
    }
    for _ in 0..numbers.between(0, 2) {
        let (i, j) = (numbers.below(sheet.n), numbers.below(sheet.n));
        sheet.state(Said::Ordered(i, j));
    }
    families::shuffle_records(numbers, &mut sheet);
    (1..=depth).for_each(|length| sheet.ask(Said::Reached(0, Path::of(&features[..length]))));
    ask(numbers, &mut sheet, &[1, 2], 5);
    sheet
}

/// What a programme compiler writes, with as many paths asked for as other questions.
pub fn ordinary(numbers: &mut Numbers) -> Sheet {
    let mut sheet = families::ordinary(numbers);
    let paths = sheet.questions.len();
    ways::ask(numbers, &mut sheet, &[1, 2, 3, 4, 5, 6, 7, 8], paths);
    sheet
}
