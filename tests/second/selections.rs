// The stated selections, by feature and by subject, with one child for each subject and feature.

use crate::numbering::Numbering;
use crate::rows::{bit, holds, members, Grid, Row, EMPTY, MOST};
use crate::sheet::Selection;

// One feature of a subject and its child there.
#[derive(Clone, Copy, Default)]
pub struct Step {
    pub feature: u16,
    pub child: u8,
}

// The variables that have one feature, and the child of each of them.
pub struct Branch {
    pub subjects: Row,
    children: [u8; MOST],
}

// All selections of a sheet.
pub struct Selections {
    names: Numbering,
    branches: Vec<Branch>,
    steps: Vec<Step>,
    starts: [u16; MOST],
    lengths: [u16; MOST],
    peers: Grid,
    twins: Vec<(usize, usize)>,
}

// A selection lent for a trial, with what is needed to take it back.
pub struct Loan {
    subject: usize,
    feature: usize,
    peers: Row,
}

impl Branch {
    // The child of one of the subjects.
    #[inline(always)]
    pub fn child(&self, subject: usize) -> usize {
        usize::from(self.children[subject]) & (MOST - 1)
    }
}

impl Selections {
    // Arrange the stated selections.
    pub fn new(stated: &[Selection]) -> Self {
        let mut all = Selections {
            names: Numbering::new(),
            branches: Vec::new(),
            steps: Vec::new(),
            starts: [0; MOST],
            lengths: [0; MOST],
            peers: EMPTY,
            twins: Vec::new(),
        };
        stated.iter().for_each(|&selection| all.state(selection));
        all.arrange_steps();
        all.arrange_peers();
        all
    }

    // Take in one stated selection.
    fn state(&mut self, selection: Selection) {
        let feature = self.names.number(selection.feature);
        if feature == self.branches.len() {
            self.branches.push(Branch {
                subjects: 0,
                children: [0; MOST],
            });
        }
        let branch = &mut self.branches[feature];
        if holds(branch.subjects, selection.subject) {
            self.twins.push((branch.child(selection.subject), selection.child));
            return;
        }
        branch.subjects |= bit(selection.subject);
        branch.children[selection.subject] = selection.child as u8;
        self.lengths[selection.subject] += 1;
    }

    // List the steps of each subject, with room for one more behind each list.
    fn arrange_steps(&mut self) {
        let mut next = 0;
        for v in 0..MOST {
            self.starts[v] = next;
            next += self.lengths[v] + 1;
            self.lengths[v] = 0;
        }
        self.steps = vec![Step::default(); usize::from(next)];
        for feature in 0..self.branches.len() {
            for v in members(self.branches[feature].subjects) {
                self.add_step(v, feature);
            }
        }
    }

    // Put a feature of the subject behind its steps.
    fn add_step(&mut self, subject: usize, feature: usize) {
        let at = usize::from(self.starts[subject] + self.lengths[subject]);
        let child = self.branches[feature].child(subject) as u8;
        self.steps[at] = Step {
            feature: feature as u16,
            child,
        };
        self.lengths[subject] += 1;
    }

    // Note for each subject the others that share a feature with it.
    fn arrange_peers(&mut self) {
        for branch in &self.branches {
            for v in members(branch.subjects) {
                self.peers[v] |= branch.subjects & !bit(v);
            }
        }
    }

    // The children that one subject has under one and the same feature, by pairs.
    pub fn twins(&self) -> &[(usize, usize)] {
        &self.twins
    }

    // The features stated, each with its subjects.
    pub fn branches(&self) -> &[Branch] {
        &self.branches
    }

    // The subjects and children of a step's feature.
    #[inline(always)]
    pub fn branch(&self, step: Step) -> &Branch {
        &self.branches[usize::from(step.feature)]
    }

    // The subjects and children of a feature, if it is stated at all.
    pub fn find(&self, feature: u16) -> Option<&Branch> {
        self.names.find(feature).map(|number| &self.branches[number])
    }

    // The child that the subject of a selection already has under its feature.
    pub fn child(&self, selection: Selection) -> Option<usize> {
        let branch = self.find(selection.feature)?;
        holds(branch.subjects, selection.subject).then(|| branch.child(selection.subject))
    }

    // The features and children of a subject.
    #[inline(always)]
    pub fn steps(&self, subject: usize) -> &[Step] {
        let start = usize::from(self.starts[subject]);
        &self.steps[start..start + usize::from(self.lengths[subject])]
    }

    // The others that share a feature with the subject.
    #[inline(always)]
    pub fn peers(&self, subject: usize) -> Row {
        self.peers[subject]
    }

    // Add one selection for a while, if its feature is stated elsewhere but not at its subject.
    pub fn lend(&mut self, selection: Selection) -> Option<Loan> {
        let feature = self.names.find(selection.feature)?;
        let subject = selection.subject;
        let branch = &mut self.branches[feature];
        let others = branch.subjects;
        if holds(others, subject) {
            return None;
        }
        branch.subjects |= bit(subject);
        branch.children[subject] = selection.child as u8;
        self.add_step(subject, feature);
        let loan = Loan {
            subject,
            feature,
            peers: self.peers[subject],
        };
        self.peers[subject] |= others;
        for v in members(others) {
            self.peers[v] |= bit(subject);
        }
        Some(loan)
    }

    // Remove the selection lent last.
    pub fn take_back(&mut self, loan: Loan) {
        let subject = loan.subject;
        for v in members(self.peers[subject] & !loan.peers) {
            self.peers[v] &= !bit(subject);
        }
        self.peers[subject] = loan.peers;
        self.lengths[subject] -= 1;
        self.branches[loan.feature].subjects &= !bit(subject);
    }
}
