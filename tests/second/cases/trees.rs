// The least trees that meet a sheet, from the meaning of its statements alone, cut at a depth: longer than the paths of
// interest by what has to come up from below for them.

use std::collections::BTreeMap;

use crate::plain::Plain;
use crate::plain::Said::{self, Below, Labelled, Mates, Reaches, Selects};

// The depth at which trees are cut where only their roots count.
const DEPTH: usize = 8;

// A tree: the paths that are present, each bare or with a label.
pub type Tree = BTreeMap<Vec<u16>, Option<u16>>;

// The subtree at a feature.
fn child(tree: &Tree, f: u16) -> Tree {
    tree.iter()
        .filter(|(path, _)| path.first() == Some(&f))
        .map(|(path, &label)| (path[1..].to_vec(), label))
        .collect()
}

// The tree with a feature above its root.
fn raised(tree: &Tree, f: u16, depth: usize) -> Tree {
    tree.iter()
        .filter(|(path, _)| path.len() < depth)
        .map(|(path, &label)| ([&[f], &path[..]].concat(), label))
        .collect()
}

// Put the paths and labels of another into a tree, where a label that stands stays; tells whether that changes it.
fn join(tree: &mut Tree, other: &Tree) -> bool {
    let before = tree.clone();
    for (path, &label) in other {
        let there = tree.entry(path.clone()).or_default();
        *there = there.or(label);
    }
    *tree != before
}

// Put into the trees what a statement forces there; tells whether that changes one.
fn force(one: &Said, trees: &mut [Tree], depth: usize) -> bool {
    match *one {
        Below(i, j) => {
            let lower = trees[i].clone();
            join(&mut trees[j], &lower)
        }
        Selects(i, f, j) => {
            let (upper, lower) = (raised(&trees[j], f, depth), child(&trees[i], f));
            join(&mut trees[i], &upper) | join(&mut trees[j], &lower)
        }
        Labelled(i, a) => join(&mut trees[i], &Tree::from([(Vec::new(), Some(a))])),
        Mates(..) | Reaches(..) => false,
    }
}

// Whether each path of a tree is present in another, and each label stands at the same path there.
fn below(tree: &Tree, other: &Tree) -> bool {
    tree.iter().all(|(path, label)| {
        let there = other.get(path);
        there.is_some_and(|there| label.is_none() || there == label)
    })
}

// Whether no path has two different labels in two trees.
fn mates(tree: &Tree, other: &Tree) -> bool {
    tree.iter().all(|(path, label)| {
        let there = other.get(path).copied().flatten();
        label.is_none() || there.is_none() || there == *label
    })
}

// Whether a statement holds for the trees.
fn holds(one: &Said, trees: &[Tree], depth: usize) -> bool {
    match *one {
        Below(i, j) => below(&trees[i], &trees[j]),
        Mates(i, j) => mates(&trees[i], &trees[j]),
        Selects(i, f, j) => raised(&child(&trees[i], f), f, depth) == raised(&trees[j], f, depth),
        Labelled(i, a) => trees[i][&Vec::new()] == Some(a),
        Reaches(i, path) => trees[i].contains_key(path.features()),
    }
}

// The least trees that meet a sheet, or none where two labels meet.
fn least(sheet: &Plain, depth: usize) -> Option<Vec<Tree>> {
    let said = sheet.records.concat();
    let mut trees = vec![Tree::from([(Vec::new(), None)]); sheet.n];
    while said
        .iter()
        .fold(false, |more, one| more | force(one, &mut trees, depth))
    {}
    let met = said.iter().all(|one| holds(one, &trees, depth));
    met.then_some(trees)
}

// The labels of the roots of the least trees that meet a sheet, or none where two labels meet.
pub fn roots(sheet: &Plain) -> Option<Vec<Option<u16>>> {
    let trees = least(sheet, DEPTH)?;
    Some(trees.iter().map(|tree| tree[&Vec::new()]).collect())
}

// The replies to the path questions of a sheet, and the labels at their paths, in its least trees.
pub fn paths(sheet: &Plain, depth: usize) -> Option<Vec<(u8, Option<u16>)>> {
    let trees = least(sheet, depth)?;
    let asked = sheet.questions.iter().filter_map(|question| match *question {
        Reaches(i, path) => Some(trees[i].get(path.features())),
        _ => None,
    });
    Some(
        asked
            .map(|node| (if node.is_some() { 0 } else { 2 }, node.copied().flatten()))
            .collect(),
    )
}
