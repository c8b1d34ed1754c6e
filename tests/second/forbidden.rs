// Pairs that would clash, one by one, if they were added to the closed facts; found backwards from the labels.

use crate::closure::Facts;
use crate::rows::{bit, holds, least, members, Grid, Row, EMPTY, MOST};
use crate::selections::{Branch, Selections};

// Pairs that clash when added: under ~ all of them; under <= and as equals those known so far.
pub struct Forbidden {
    pub mates: Grid,
    pub order: Grid,
    equal: Grid,
    ascent: Ascent,
}

// The subjects that share one child under one feature, and the next such entry of the same child.
struct Parents {
    feature: usize,
    subjects: Row,
    next: Option<u16>,
}

// The selections seen from the children.
struct Ascent {
    heads: [Option<u16>; MOST],
    entries: Vec<Parents>,
    children: Vec<Row>,
    places: Vec<[u16; MOST]>,
}

impl Ascent {
    // No selections.
    const NONE: Ascent = Ascent {
        heads: [None; MOST],
        entries: Vec::new(),
        children: Vec::new(),
        places: Vec::new(),
    };

    // Arrange the selections of all features with two subjects or more.
    fn new(selections: &Selections) -> Self {
        let mut ascent = Ascent::NONE;
        for branch in selections.branches() {
            if branch.subjects & branch.subjects.wrapping_sub(1) != 0 {
                ascent.add(branch);
            }
        }
        ascent
    }

    // Arrange the selections of one feature.
    fn add(&mut self, branch: &Branch) {
        let feature = self.children.len();
        let (mut children, mut places) = (0, [0; MOST]);
        for subject in members(branch.subjects) {
            let child = branch.child(subject);
            if !holds(children, child) {
                children |= bit(child);
                places[child] = self.entries.len() as u16;
                self.entries.push(Parents {
                    feature,
                    subjects: 0,
                    next: self.heads[child],
                });
                self.heads[child] = Some(places[child]);
            }
            self.entries[usize::from(places[child])].subjects |= bit(subject);
        }
        self.children.push(children);
        self.places.push(places);
    }

    // The subjects that have one of the given children under the feature.
    fn subjects(&self, feature: usize, children: Row) -> Row {
        let places = &self.places[feature];
        members(children & self.children[feature])
            .fold(0, |all, child| all | self.entries[usize::from(places[child])].subjects)
    }
}

// Add the seeds to a grid and close it to the left and right by the given rows, and upward over selections.
fn lift(grid: &mut Grid, mut due: Grid, left: &Grid, right: &Grid, ascent: &Ascent) {
    let mut rows = (0..MOST).filter(|&i| due[i] != 0).fold(0, |all, i| all | bit(i));
    while rows != 0 {
        let i = least(rows);
        rows &= rows - 1;
        let (mut reach, mut rest) = (0, std::mem::take(&mut due[i]) & !grid[i]);
        while rest != 0 {
            reach |= right[least(rest)];
            rest &= !reach;
        }
        reach &= !grid[i];
        if reach == 0 {
            continue;
        }
        for x in members(left[i]) {
            let fresh = reach & !grid[x];
            grid[x] |= fresh;
            if fresh != 0 {
                rows |= lift_row(x, fresh, grid, &mut due, ascent);
            }
        }
    }
}

// Let wait the pairs of parents of x and of the fresh ones; tells in which rows.
fn lift_row(x: usize, fresh: Row, grid: &Grid, due: &mut Grid, ascent: &Ascent) -> Row {
    let mut rows = 0;
    let mut next = ascent.heads[x];
    while let Some(at) = next {
        let parents = &ascent.entries[usize::from(at)];
        let aims = ascent.subjects(parents.feature, fresh);
        if aims != 0 {
            for subject in members(parents.subjects) {
                due[subject] |= aims & !grid[subject];
                rows |= bit(subject);
            }
        }
        next = parents.next;
    }
    rows
}

// The pairs under <= that would at once bring a forbidden pair under ~.
fn direct(facts: &Facts, mates: &Grid) -> Grid {
    let mut order = EMPTY;
    for i in 0..MOST {
        let mut rest = mates[i];
        while rest != 0 {
            let k = least(rest);
            order[i] |= facts.mates[k];
            rest &= !facts.up[k];
        }
    }
    order
}

// The grid of the given pairs.
fn seeds(pairs: &[(usize, usize)]) -> Grid {
    let mut grid = EMPTY;
    pairs.iter().for_each(|&(i, j)| grid[i] |= bit(j));
    grid
}

impl Forbidden {
    // No pair is forbidden.
    pub const NONE: Forbidden = Forbidden {
        mates: EMPTY,
        order: EMPTY,
        equal: EMPTY,
        ascent: Ascent::NONE,
    };

    // The forbidden pairs of closed facts, from the pairs that F5 forbids.
    pub fn new(facts: &Facts, rivals: &Grid, selections: &Selections) -> Self {
        let mut new = Forbidden {
            ascent: Ascent::new(selections),
            ..Forbidden::NONE
        };
        lift(&mut new.mates, *rivals, &facts.up, &facts.up, &new.ascent);
        lift(
            &mut new.order,
            direct(facts, &new.mates),
            &facts.up,
            &facts.down,
            &new.ascent,
        );
        new
    }

    // Take in that i <= j clashes with the closed facts.
    pub fn forbid_order(&mut self, i: usize, j: usize, facts: &Facts) {
        lift(&mut self.order, seeds(&[(i, j)]), &facts.up, &facts.down, &self.ascent);
    }

    // Take in that i <= j and j <= i together clash with the closed facts.
    pub fn forbid_equal(&mut self, i: usize, j: usize, facts: &Facts) {
        let same = facts.same();
        lift(&mut self.equal, seeds(&[(i, j), (j, i)]), &same, &same, &self.ascent);
    }

    // Whether i <= j and j <= i together are known to clash.
    pub fn forbids_equal(&self, i: usize, j: usize) -> bool {
        holds(self.order[i] | self.equal[i], j) || holds(self.order[j], i)
    }
}
