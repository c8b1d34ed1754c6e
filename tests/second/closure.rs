// The derived facts: both relations as grids of bits, closed by inserting whole rows of pairs at a time.

use crate::forbidden::Forbidden;
use crate::rows::{bit, diagonal, holds, least, members, pairs, Grid, Row, EMPTY};
use crate::selections::{Branch, Selections};
use crate::sheet::{Question, Selection, Sheet};

// Pairs that wait to be inserted, and the rows in which some wait.
#[derive(Clone)]
struct Due {
    grid: Grid,
    rows: Row,
}

// The rows changed since the facts were last reset.
#[derive(Clone, Default)]
struct Touched {
    up: Row,
    down: Row,
    mates: Row,
}

// What an insertion of i <= p brings to i: all above some p, all mates of some p, all already below every p.
struct Gain {
    above: Row,
    mates: Row,
    settled: Row,
}

// Facts closed under F1 and F3 at any time, and under F2 and F4 too when nothing is due.
#[derive(Clone)]
pub struct Facts {
    pub up: Grid,
    pub down: Grid,
    pub mates: Grid,
    due_up: Due,
    due_mates: Due,
    touched: Touched,
    work: usize,
}

impl Due {
    // Nothing waits.
    fn new() -> Self {
        Due { grid: EMPTY, rows: 0 }
    }

    // Let the pairs of i with each of the aims wait.
    #[inline(always)]
    fn add(&mut self, i: usize, aims: Row) {
        if aims != 0 {
            self.grid[i] |= aims;
            self.rows |= bit(i);
        }
    }

    // Take out the pairs of one row.
    #[inline(always)]
    fn take(&mut self) -> Option<(usize, Row)> {
        if self.rows == 0 {
            return None;
        }
        let i = least(self.rows);
        self.rows &= self.rows - 1;
        Some((i, std::mem::take(&mut self.grid[i])))
    }

    // Forget all that waits.
    fn clear(&mut self) {
        while self.take().is_some() {}
    }
}

impl Facts {
    // The facts of F1.1 and F3.1 alone.
    pub fn bare(n: usize) -> Self {
        let own = diagonal(n);
        Facts {
            up: own,
            down: own,
            mates: own,
            due_up: Due::new(),
            due_mates: Due::new(),
            touched: Touched::default(),
            work: 0,
        }
    }

    // Everything derived from a sheet.
    pub fn derive(sheet: &Sheet, selections: &Selections) -> Self {
        let mut facts = Facts::bare(sheet.count);
        for i in 0..sheet.count {
            facts.due_up.add(i, sheet.order[i] & !bit(i));
            facts.due_mates.add(i, sheet.mates[i] & !bit(i));
        }
        for &(c, d) in selections.twins() {
            facts.due_up.add(c, bit(d));
            facts.due_up.add(d, bit(c));
        }
        facts.settle(selections, &Forbidden::NONE);
        facts
    }

    // The numbers of pairs under <= and under ~.
    pub fn counts(&self) -> (u64, u64) {
        (pairs(&self.up), pairs(&self.mates))
    }

    // For each variable, those above and below it at once.
    pub fn same(&self) -> Grid {
        std::array::from_fn(|v| self.up[v] & self.down[v])
    }

    // Add to the grids the changed rows under <=, and of them the pairs both ways.
    pub fn report(&self, order: &mut Grid, equal: &mut Grid) {
        for v in members(self.touched.up | self.touched.down) {
            order[v] |= self.up[v];
            equal[v] |= self.up[v] & self.down[v];
        }
    }

    // Whether nothing waits to be inserted.
    pub fn idle(&self) -> bool {
        self.due_up.rows == 0 && self.due_mates.rows == 0
    }

    // Forget what waits to be inserted.
    fn drop_due(&mut self) {
        self.due_up.clear();
        self.due_mates.clear();
    }

    // The number of insertions since the facts were last reset.
    pub fn work(&self) -> usize {
        self.work
    }

    // Go back to the facts from which this copy was made.
    pub fn reset(&mut self, origin: &Facts) {
        let touched = std::mem::take(&mut self.touched);
        members(touched.up).for_each(|v| self.up[v] = origin.up[v]);
        members(touched.down).for_each(|v| self.down[v] = origin.down[v]);
        members(touched.mates).for_each(|v| self.mates[v] = origin.mates[v]);
        self.drop_due();
        self.work = 0;
    }

    // Insert all that waits and all that follows; false as soon as a forbidden pair comes up.
    pub fn settle(&mut self, selections: &Selections, forbidden: &Forbidden) -> bool {
        loop {
            if let Some((i, aims)) = self.due_up.take() {
                if !self.insert_order(i, aims & !self.up[i], selections, forbidden) {
                    return false;
                }
            } else if let Some((i, aims)) = self.due_mates.take() {
                if !self.insert_mates(i, aims & !self.mates[i], selections, forbidden) {
                    return false;
                }
            } else {
                return true;
            }
        }
    }

    // What i gains by being below all the aims.
    fn gain(&self, aims: Row) -> Gain {
        let mut gain = Gain {
            above: 0,
            mates: 0,
            settled: !0,
        };
        let mut rest = aims;
        while rest != 0 {
            let p = least(rest);
            gain.above |= self.up[p];
            gain.mates |= self.mates[p];
            gain.settled &= self.down[p];
            rest &= !self.up[p];
        }
        gain
    }

    // Insert i <= p for every aim p, with what F1.2, F3.2 and F3.3 give at once; false on a forbidden pair.
    fn insert_order(&mut self, i: usize, aims: Row, selections: &Selections, forbidden: &Forbidden) -> bool {
        if aims == 0 {
            return true;
        }
        self.work += 1;
        let gain = self.gain(aims);
        if gain.above & forbidden.order[i] != 0 {
            return false;
        }
        let below = self.down[i];
        let (over, beside) = (gain.above & !self.up[i], gain.mates & !self.mates[i]);
        members(over).for_each(|y| self.down[y] |= below);
        members(beside).for_each(|y| self.mates[y] |= below);
        let risen = below & !gain.settled;
        self.touched.up |= risen;
        self.touched.down |= over;
        self.touched.mates |= risen | beside;
        for x in members(risen) {
            let (up, mates) = (gain.above & !self.up[x], gain.mates & !self.mates[x]);
            if mates & forbidden.mates[x] != 0 {
                return false;
            }
            self.up[x] |= up;
            self.mates[x] |= mates;
            self.descend_order(x, up, selections);
            self.descend_mates(x, mates, selections);
        }
        true
    }

    // Insert i ~ p for every aim p, with what F3.2 and F3.3 give at once; false on a forbidden pair.
    fn insert_mates(&mut self, i: usize, aims: Row, selections: &Selections, forbidden: &Forbidden) -> bool {
        if aims == 0 {
            return true;
        }
        self.work += 1;
        let (mut reach, mut settled, mut rest) = (0, !0, aims);
        while rest != 0 {
            let p = least(rest);
            reach |= self.down[p];
            settled &= self.mates[p];
            rest &= !self.down[p];
        }
        reach &= !self.mates[i];
        let below = self.down[i];
        members(reach).for_each(|y| self.mates[y] |= below);
        let paired = below & !settled;
        self.touched.mates |= paired | reach;
        for x in members(paired) {
            let mates = reach & !self.mates[x];
            if mates & forbidden.mates[x] != 0 {
                return false;
            }
            self.mates[x] |= mates;
            self.descend_mates(x, mates, selections);
        }
        true
    }

    // Let wait what F2 gives for x <= y with each y of the row.
    #[inline(always)]
    fn descend_order(&mut self, x: usize, above: Row, selections: &Selections) {
        if above & selections.peers(x) == 0 {
            return;
        }
        for &step in selections.steps(x) {
            let branch = selections.branch(step);
            let aims = self.lowest_children(branch, above & branch.subjects);
            let child = usize::from(step.child);
            self.due_up.add(child, aims & !self.up[child]);
        }
    }

    // Let wait what F4 gives for x ~ y with each y of the row.
    #[inline(always)]
    fn descend_mates(&mut self, x: usize, mates: Row, selections: &Selections) {
        if mates & selections.peers(x) == 0 {
            return;
        }
        for &step in selections.steps(x) {
            let branch = selections.branch(step);
            let aims = self.highest_children(branch, mates & branch.subjects);
            let child = usize::from(step.child);
            self.due_mates.add(child, aims & !self.mates[child]);
        }
    }

    // Children of the subjects such that F2 puts the child of each other subject above one of them.
    #[inline(always)]
    fn lowest_children(&self, branch: &Branch, subjects: Row) -> Row {
        let (mut children, mut rest) = (0, subjects);
        while rest != 0 {
            let y = least(rest);
            children |= bit(branch.child(y));
            rest &= !self.up[y];
        }
        children
    }

    // Children of the subjects such that F2 puts the child of each other subject below one of them.
    #[inline(always)]
    fn highest_children(&self, branch: &Branch, subjects: Row) -> Row {
        let (mut children, mut rest) = (0, subjects);
        while rest != 0 {
            let y = least(rest);
            children |= bit(branch.child(y));
            rest &= !self.down[y];
        }
        children
    }

    // Let the direct consequences of a question, taken as a statement, wait; the facts must be closed.
    pub fn pose(&mut self, question: &Question, selections: &Selections) {
        match *question {
            Question::Order(i, j) => self.due_up.add(i, bit(j) & !self.up[i]),
            Question::Mates(i, j) => self.due_mates.add(i, bit(j) & !self.mates[i]),
            Question::Selects(selection) => self.pose_selection(selection, selections),
            Question::Labelled(..) | Question::Reaches(..) => {}
        }
    }

    // Whether the closed facts already hold every direct consequence of a question taken as a statement.
    pub fn allows(&mut self, question: &Question, selections: &Selections) -> bool {
        self.pose(question, selections);
        let idle = self.idle();
        self.drop_due();
        idle
    }

    // Let the direct consequences of one more selection wait.
    fn pose_selection(&mut self, selection: Selection, selections: &Selections) {
        let Some(branch) = selections.find(selection.feature) else {
            return;
        };
        let (i, j) = (selection.subject, selection.child);
        if holds(branch.subjects, i) {
            let c = branch.child(i);
            self.due_up.add(c, bit(j) & !self.up[c]);
            self.due_up.add(j, bit(c) & !self.up[j]);
            return;
        }
        for c in members(self.highest_children(branch, branch.subjects & self.down[i]) & !self.down[j]) {
            self.due_up.add(c, bit(j));
        }
        let above = self.lowest_children(branch, branch.subjects & self.up[i]);
        self.due_up.add(j, above & !self.up[j]);
        let mates = self.highest_children(branch, branch.subjects & self.mates[i]);
        self.due_mates.add(j, mates & !self.mates[j]);
    }

    // Whether the closed facts support a selection.
    pub fn supports(&self, selection: Selection, selections: &Selections) -> bool {
        let Some(branch) = selections.find(selection.feature) else {
            return false;
        };
        let (i, j) = (selection.subject, selection.child);
        let lower = self.highest_children(branch, branch.subjects & self.down[i]);
        lower & self.up[j] != 0 && {
            let upper = self.lowest_children(branch, branch.subjects & self.up[i]);
            upper & self.down[j] != 0
        }
    }
}
