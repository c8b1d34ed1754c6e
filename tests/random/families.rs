//! Families of accepted sheets.

use crate::numbers::Numbers;
use crate::sheets::{Path, Said, Sheet, LONGEST_PATH};
use crate::ways::{self, Ways};

/// The features and labels that a sheet uses, and one of each that it does not.
struct Palette {
    features: Vec<u16>,
    labels: Vec<u16>,
}

impl Palette {
    fn few(numbers: &mut Numbers, features: usize, labels: usize) -> Palette {
        let features = (0..numbers.between(1, features) as u16).collect();
        let labels = (0..numbers.between(1, labels) as u16).map(|a| 5 + a).collect();
        Palette { features, labels }
    }

    fn feature(&self, numbers: &mut Numbers) -> u16 {
        numbers.pick(&self.features)
    }

    fn label(&self, numbers: &mut Numbers) -> u16 {
        numbers.pick(&self.labels)
    }
}

/// Something about any variables, each of the four kinds as often as its weight says.
fn anything(numbers: &mut Numbers, n: usize, palette: &Palette, weights: [usize; 4]) -> Said {
    let mut k = numbers.below(weights.iter().sum());
    let (i, j) = (numbers.below(n), numbers.below(n));
    for (kind, weight) in weights.into_iter().enumerate() {
        if k < weight {
            return match kind {
                0 => Said::Ordered(i, j),
                1 => Said::Compatible(i, j),
                2 => Said::Selected(i, palette.feature(numbers), j),
                _ => Said::Labelled(palette.label(numbers), i),
            };
        }
        k -= weight;
    }
    unreachable!()
}

fn state_anything(numbers: &mut Numbers, sheet: &mut Sheet, palette: &Palette, count: usize, weights: [usize; 4]) {
    for _ in 0..count {
        let said = anything(numbers, sheet.n, palette, weights);
        if sheet.records.len() < 1024 && numbers.once_in(2) {
            sheet.state(said);
        } else if sheet.records.len() < 1024 {
            sheet.state_together(said);
        }
    }
}

/// Questions of every kind, now and then with a feature or a label that the sheet does not name.
fn ask_anything(numbers: &mut Numbers, sheet: &mut Sheet, palette: &Palette, count: usize) {
    let known = Palette { features: palette.features.clone(), labels: palette.labels.clone() };
    let wider =
        Palette { features: [&palette.features[..], &[777]].concat(), labels: [&palette.labels[..], &[778]].concat() };
    let ways = Ways::of(sheet);
    for _ in 0..count {
        let palette = if numbers.once_in(3) { &wider } else { &known };
        let said = if numbers.once_in(5) {
            ways.any(numbers, &palette.features)
        } else {
            anything(numbers, sheet.n, palette, [1, 1, 1, 1])
        };
        sheet.ask(said);
    }
}

/// Questions of every kind about these features.
pub fn ask_of_features(numbers: &mut Numbers, sheet: &mut Sheet, features: &[u16], count: usize) {
    let palette = Palette { features: features.to_vec(), labels: vec![5, 6] };
    ask_anything(numbers, sheet, &palette, count);
}

/// Few variables, few of everything, so that every rule meets every other.
pub fn small(numbers: &mut Numbers) -> Sheet {
    let mut sheet = Sheet::over(numbers.between(1, 6));
    let palette = Palette::few(numbers, 3, 3);
    let records = numbers.between(0, 12);
    state_anything(numbers, &mut sheet, &palette, records, [3, 2, 4, 1]);
    let questions = numbers.between(0, 10);
    ask_anything(numbers, &mut sheet, &palette, questions);
    sheet.leave_out_zeros = numbers.once_in(2);
    sheet
}

/// Few variables and many statements, hardly a label.
pub fn crowded(numbers: &mut Numbers) -> Sheet {
    let mut sheet = Sheet::over(numbers.between(2, 8));
    let palette = Palette::few(numbers, 2, 2);
    let records = numbers.between(10, 40);
    state_anything(numbers, &mut sheet, &palette, records, [4, 4, 12, 1]);
    let questions = numbers.between(4, 30);
    ask_anything(numbers, &mut sheet, &palette, questions);
    sheet
}

/// The same numbers as features, labels and variables, at the ends of their ranges.
pub fn edges(numbers: &mut Numbers) -> Sheet {
    let ends: [u16; 11] = [0, 1, 2, 127, 128, 255, 256, 257, 65_279, 65_534, 65_535];
    let mut sheet = Sheet::over(numbers.pick(&[1, 2, 3, 4, 127, 128]));
    let chosen: Vec<u16> = (0..3).map(|_| numbers.pick(&ends)).collect();
    let palette = Palette { features: chosen.clone(), labels: chosen };
    for _ in 0..numbers.between(1, 14) {
        let near = Said::Ordered(0, sheet.n - 1);
        let said = if numbers.once_in(6) { near } else { anything(numbers, sheet.n.min(4), &palette, [2, 2, 4, 2]) };
        sheet.state_together(said);
    }
    let questions = numbers.between(1, 12);
    ask_anything(numbers, &mut sheet, &palette, questions);
    sheet
}

/// How the heads of two paths are linked.
#[derive(Clone, Copy)]
enum Link {
    Ordered,
    Turned,
    Compatible,
    SharedBound,
}

/// Two paths of the same features with labels at their ends alone: a clash has to come down both.
struct Paths {
    sheet: Sheet,
    heads: (usize, usize),
    ends: (usize, usize),
}

fn two_paths(numbers: &mut Numbers, depth: usize, palette: &Palette) -> Paths {
    let spare = numbers.between(1, 4);
    let mut sheet = Sheet::over(2 * (depth + 1) + spare);
    let features: Vec<u16> = (0..depth).map(|_| palette.feature(numbers)).collect();
    for (k, &f) in features.iter().enumerate() {
        sheet.state(Said::Selected(2 * k, f, 2 * k + 2));
        sheet.state(Said::Selected(2 * k + 1, f, 2 * k + 3));
    }
    let ends = (2 * depth, 2 * depth + 1);
    let label = palette.label(numbers);
    sheet.state(Said::Labelled(label, ends.0));
    sheet.state(Said::Labelled(palette.label(numbers), ends.1));
    Paths { sheet, heads: (0, 1), ends }
}

/// The statements that link two variables, through spare ones where the link goes through others.
fn link(numbers: &mut Numbers, link: Link, (x, y): (usize, usize), n: usize) -> Vec<Said> {
    let spare = n - 1;
    match link {
        Link::Ordered if numbers.once_in(2) => vec![Said::Ordered(x, spare), Said::Ordered(spare, y)],
        Link::Ordered => vec![Said::Ordered(x, y)],
        Link::Turned => vec![Said::Ordered(y, x)],
        Link::Compatible if numbers.once_in(2) => vec![Said::Compatible(y, x)],
        Link::Compatible => vec![Said::Compatible(x, y)],
        Link::SharedBound if numbers.once_in(2) => {
            vec![Said::Ordered(x, spare), Said::Compatible(spare, n - 2), Said::Ordered(y, n - 2)]
        }
        Link::SharedBound => vec![Said::Ordered(x, spare), Said::Ordered(y, spare)],
    }
}

/// Questions about the ends and heads of two paths, and the statement that would link them.
fn ask_of_paths(numbers: &mut Numbers, paths: &mut Paths, palette: &Palette) {
    let ((x, y), (u, v)) = (paths.heads, paths.ends);
    let f = palette.feature(numbers);
    let label = palette.label(numbers);
    for said in [
        Said::Ordered(x, y),
        Said::Compatible(x, y),
        Said::Ordered(y, x),
        Said::Ordered(u, v),
        Said::Compatible(v, u),
        Said::Selected(x, f, v),
        Said::Selected(y, f, u),
        Said::Selected(x, f, u),
        Said::Labelled(label, u),
        Said::Labelled(label, v),
    ] {
        if !numbers.once_in(3) {
            paths.sheet.ask(said);
        }
    }
    ways::ask(numbers, &mut paths.sheet, &palette.features, 2);
}

/// Two paths, linked or not, with what else comes to stand beside them.
fn linked(numbers: &mut Numbers, links: &[Link], depth: usize, stated: bool) -> Sheet {
    let palette = Palette { features: vec![0, 1, 2], labels: vec![5, 6] };
    let mut paths = two_paths(numbers, depth, &palette);
    let chosen = numbers.pick(links);
    if stated {
        for said in link(numbers, chosen, paths.heads, paths.sheet.n) {
            let at = numbers.below(paths.sheet.records.len() + 1);
            paths.sheet.records.insert(at, crate::sheets::Item::of(said));
        }
    }
    if numbers.once_in(3) {
        let more = numbers.between(1, 3);
        state_anything(numbers, &mut paths.sheet, &palette, more, [1, 1, 2, 0]);
    }
    ask_of_paths(numbers, &mut paths, &palette);
    paths.sheet
}

/// Clashes that need F2: the end of the lower path is labelled, and the end of the upper one is stated to be compatible
/// with a variable of another label. That the two ends are compatible, which F4 gives, is not enough.
pub fn clash_by_f2(numbers: &mut Numbers) -> Sheet {
    let palette = Palette { features: vec![0, 1, 2], labels: vec![5, 6] };
    let depth = numbers.between(1, 6);
    let mut paths = two_paths(numbers, depth, &palette);
    let ((x, y), (u, v)) = (paths.heads, paths.ends);
    let turned = numbers.once_in(2);
    let (lower, upper) = if turned { (v, u) } else { (u, v) };
    let beside = paths.sheet.n;
    let sheet = &mut paths.sheet;
    sheet.n += 1;
    sheet.records.truncate(2 * depth);
    let across = [Said::Compatible(upper, beside), Said::Compatible(beside, upper)];
    sheet.state(numbers.pick(&across));
    sheet.state(Said::Labelled(5, lower));
    sheet.state(Said::Labelled(numbers.pick(&[5, 6, 6]), beside));
    sheet.state(if turned { Said::Ordered(y, x) } else { Said::Ordered(x, y) });
    ask_of_paths(numbers, &mut paths, &palette);
    paths.sheet
}

/// Clashes below an ordering, of labels at both ends: F2 gives them, and so does F4.
pub fn clash_by_order(numbers: &mut Numbers) -> Sheet {
    let depth = numbers.between(1, 6);
    linked(numbers, &[Link::Ordered, Link::Turned], depth, true)
}

/// Clashes by F3 alone: bounds in common, and ~ passed down along ≤.
pub fn clash_by_f3(numbers: &mut Numbers) -> Sheet {
    linked(numbers, &[Link::SharedBound, Link::SharedBound, Link::Ordered], 0, true)
}

/// Clashes that come down by F4 from a stated ~, or from one that F3 derives.
pub fn clash_by_f4(numbers: &mut Numbers) -> Sheet {
    let depth = numbers.between(1, 6);
    linked(numbers, &[Link::Compatible, Link::Compatible, Link::SharedBound], depth, true)
}

/// Two paths with nothing between them: what would link them is asked, and clashes on trial.
pub fn clash_on_trial(numbers: &mut Numbers) -> Sheet {
    let depth = numbers.between(0, 6);
    linked(numbers, &[Link::Ordered], depth, false)
}

/// A selection on trial whose consequences come back to its subject, so that it has to be handed down itself.
///
/// It makes two children comparable, and the paths below them lead to its subject and to another that has the feature.
pub fn clash_through_trial(numbers: &mut Numbers) -> Sheet {
    let depth = numbers.between(1, 4);
    let (subject, beside, child, other) = (0, 1, 2, 3);
    let (node, beyond) = (|k: usize| 4 + k, 4 + 2 * depth);
    let mut sheet = Sheet::over(beyond + 2);
    let relation = [Said::Ordered(beside, subject), Said::Ordered(subject, beside), Said::Compatible(subject, beside)];
    sheet.state(numbers.pick(&relation));
    sheet.state(Said::Selected(beside, 1, other));
    let (mut left, mut right) = (other, child);
    for k in 0..depth {
        let feature = numbers.between(2, 4) as u16;
        let next = if k + 1 == depth { (subject, beyond) } else { (node(2 * k), node(2 * k + 1)) };
        sheet.state(Said::Selected(left, feature, next.0));
        sheet.state(Said::Selected(right, feature, next.1));
        (left, right) = next;
    }
    sheet.state(Said::Selected(beyond, 1, beyond + 1));
    sheet.state(Said::Labelled(5, child));
    sheet.state(Said::Labelled(numbers.pick(&[5, 6, 6]), beyond + 1));
    sheet.ask(Said::Selected(subject, 1, child));
    let palette = Palette { features: vec![1, 2, 3, 4], labels: vec![5, 6] };
    ask_anything(numbers, &mut sheet, &palette, 8);
    sheet
}

/// Labels on the lower of two paths, which the upper one has to have too, and variables above, below and beside both.
pub fn label_below(numbers: &mut Numbers) -> Sheet {
    let palette = Palette { features: vec![0, 1, 2], labels: vec![0, 5, 6, 65_535] };
    let depth = numbers.between(0, 5);
    let mut sheet = two_paths(numbers, depth, &palette).sheet;
    sheet.records.truncate(2 * depth);
    let chosen = numbers.pick(&[Link::Ordered, Link::Ordered, Link::Turned, Link::Compatible]);
    link(numbers, chosen, (0, 1), sheet.n).into_iter().for_each(|said| sheet.state(said));
    for k in 0..=depth {
        if !numbers.once_in(3) {
            sheet.state(Said::Labelled(palette.label(numbers), 2 * k));
        }
    }
    for _ in 0..numbers.between(0, 6) {
        state_neighbour(numbers, &mut sheet, &palette);
    }
    if numbers.once_in(3) {
        let f = palette.feature(numbers);
        let back = [Said::Selected(2 * depth, f, 0), Said::Selected(2 * depth + 1, f, 1)];
        back.into_iter().for_each(|said| sheet.state(said));
    }
    shuffle_records(numbers, &mut sheet);
    let questions = numbers.between(0, 8);
    ask_anything(numbers, &mut sheet, &palette, questions);
    sheet
}

/// One more variable: above or below some other, as much as it, beside it, or above it with a label.
fn state_neighbour(numbers: &mut Numbers, sheet: &mut Sheet, palette: &Palette) {
    let (other, new) = (numbers.below(sheet.n), sheet.n);
    sheet.n += 1;
    match numbers.below(6) {
        0 => sheet.state(Said::Compatible(other, new)),
        1 => sheet.state(Said::Ordered(new, other)),
        2 => [Said::Ordered(new, other), Said::Ordered(other, new)].into_iter().for_each(|said| sheet.state(said)),
        3 => {
            sheet.state(Said::Ordered(other, new));
            sheet.state_together(Said::Labelled(palette.label(numbers), new));
        }
        _ => sheet.state(Said::Ordered(other, new)),
    }
}

/// Selections that come back to where they started, cycles of any two lengths.
pub fn cyclic(numbers: &mut Numbers) -> Sheet {
    let (p, q) = (numbers.between(1, 9), numbers.between(1, 9));
    let mut sheet = Sheet::over(p + q);
    for k in 0..p {
        sheet.state(Said::Selected(k, 1, (k + 1) % p));
    }
    for k in 0..q {
        sheet.state(Said::Selected(p + k, 1, p + (k + 1) % q));
    }
    let palette = Palette { features: vec![1, 2], labels: vec![5, 6] };
    let (x, y) = (numbers.below(p), p + numbers.below(q));
    if !numbers.once_in(4) {
        sheet.state(numbers.pick(&[Said::Ordered(x, y), Said::Compatible(x, y), Said::Ordered(y, x)]));
    }
    let more = numbers.between(0, 3);
    state_anything(numbers, &mut sheet, &palette, more, [2, 1, 1, 2]);
    let questions = numbers.between(2, 12);
    ask_anything(numbers, &mut sheet, &palette, questions);
    sheet
}

/// The numbers below a bound in an order by chance.
fn shuffled(numbers: &mut Numbers, bound: usize) -> Vec<usize> {
    let mut list: Vec<usize> = (0..bound).collect();
    for k in (1..bound).rev() {
        list.swap(k, numbers.below(k + 1));
    }
    list
}

/// Brings the records in an order by chance.
pub fn shuffle_records(numbers: &mut Numbers, sheet: &mut Sheet) {
    sheet.records = shuffled(numbers, sheet.records.len()).into_iter().map(|k| sheet.records[k].clone()).collect();
}

/// Chains of n variables by ≤ or by selection, labels near their ends.
pub fn deep(numbers: &mut Numbers) -> Sheet {
    let n = numbers.between(20, 128);
    let mut sheet = Sheet::over(n);
    let names = shuffled(numbers, n);
    let by_selection = numbers.once_in(2);
    for k in shuffled(numbers, n - 1) {
        let (i, j) = (names[k], names[k + 1]);
        sheet.state(if by_selection { Said::Selected(i, 3, j) } else { Said::Ordered(i, j) });
    }
    let palette = Palette { features: vec![3, 4], labels: vec![5, 6] };
    let far = names[n - 1 - numbers.below(3)];
    sheet.state(Said::Labelled(5, far));
    sheet.state(Said::Labelled(palette.label(numbers), names[numbers.below(3)]));
    if numbers.once_in(2) {
        sheet.state(Said::Compatible(names[0], names[1]));
    }
    if numbers.once_in(2) {
        sheet.state(Said::Ordered(names[1], names[numbers.below(n)]));
    }
    let questions = numbers.between(1, 40);
    ask_anything(numbers, &mut sheet, &palette, questions);
    sheet
}

/// Orders of which most pairs hold, with children that follow them.
pub fn dense(numbers: &mut Numbers) -> Sheet {
    let n = numbers.between(8, 40);
    let mut sheet = Sheet::over(n);
    let palette = Palette { features: vec![0, 1], labels: vec![5, 6] };
    let names = shuffled(numbers, n);
    for k in 1..n {
        let below = names[k - 1 - numbers.below(k.min(3))];
        sheet.state_together(Said::Ordered(below, names[k]));
    }
    let selections = numbers.between(0, n);
    state_anything(numbers, &mut sheet, &palette, selections, [0, 1, 6, 0]);
    let labels = numbers.between(0, 2);
    state_anything(numbers, &mut sheet, &palette, labels, [0, 0, 0, 1]);
    let questions = numbers.between(5, 60);
    ask_anything(numbers, &mut sheet, &palette, questions);
    sheet
}

/// What a programme compiler writes: 40 variables, 150 records, 60 questions; most are consistent.
pub fn ordinary(numbers: &mut Numbers) -> Sheet {
    let any = numbers.once_in(10);
    crate::ordinary::sheet(numbers, |sheet| any || is_consistent(sheet))
}

fn is_consistent(sheet: &Sheet) -> bool {
    let (mut facts, mut work, mut replies) = (vec![0; 16_384], vec![0; 16_384], vec![0; 1_024]);
    second::check(&sheet.bytes(), &mut facts, &mut work, &mut replies) & 255 == 0
}

/// Many variables and up to 1,024 records and questions.
pub fn large(numbers: &mut Numbers) -> Sheet {
    let mut sheet = Sheet::over(numbers.between(64, 128));
    let features = numbers.pick(&[3, 40, 2_000]);
    let labels = numbers.pick(&[1, 1, 2, 40]);
    let palette = Palette { features: (0..features).collect(), labels: (0..labels).collect() };
    let records = numbers.between(20, 1_024);
    let weights = numbers.pick(&[[1, 1, 6, 0], [2, 1, 4, 1], [1, 0, 10, 1], [0, 1, 20, 1]]);
    state_anything(numbers, &mut sheet, &palette, records, weights);
    let questions = numbers.pick(&[0, 1, 100, 1_024]);
    ask_anything(numbers, &mut sheet, &palette, questions);
    sheet
}

/// As many records as there may be, of four statements each.
fn full_records(numbers: &mut Numbers) -> Sheet {
    let mut sheet = Sheet::over(128);
    for k in 0..1_024 {
        let i = k % 128;
        for said in [
            Said::Ordered(i, i.max(numbers.below(128))),
            Said::Compatible(i, i),
            Said::Selected(i, (k / 2) as u16, numbers.below(128)),
            Said::Labelled(9, i),
        ] {
            sheet.state_together(said);
        }
    }
    sheet
}

/// As many records and selections asked as there may be.
pub fn selections_asked(numbers: &mut Numbers) -> Sheet {
    let mut sheet = full_records(numbers);
    for k in 0..1_024 {
        sheet.ask(Said::Selected(numbers.below(128), (k / 2) as u16, numbers.below(128)));
    }
    sheet
}

/// The longest sheet there is: as many records as there may be, and as many of the longest paths.
pub fn longest(numbers: &mut Numbers) -> Sheet {
    let mut sheet = full_records(numbers);
    let ways = Ways::of(&sheet);
    for k in 0..1_024 {
        let start = numbers.below(128);
        let path = if k % 8 == 0 {
            Path::of(&[k as u16; LONGEST_PATH])
        } else {
            ways.path(numbers, start, LONGEST_PATH, &[1])
        };
        sheet.ask(Said::Reached(start, path));
    }
    sheet
}
