// The labels stated for the variables, and which pairs of variables may not be compatible for them.

use crate::numbering::Numbering;
use crate::rows::{bit, holds, least, members, Grid, Row, EMPTY, MOST};

// Every label statement of a sheet.
pub struct Labels {
    first: [u16; MOST],
    names: Numbering,
    bearers: Vec<Row>,
    labelled: Row,
    mixed: Row,
}

impl Labels {
    // No statements.
    pub fn new() -> Self {
        Labels {
            first: [0; MOST],
            names: Numbering::new(),
            bearers: Vec::new(),
            labelled: 0,
            mixed: 0,
        }
    }

    // Take in the statement that variable i has label a.
    pub fn state(&mut self, i: usize, a: u16) {
        if holds(self.labelled, i) && self.first[i] != a {
            self.mixed |= bit(i);
            return;
        }
        let number = self.names.number(a);
        if number == self.bearers.len() {
            self.bearers.push(0);
        }
        self.bearers[number] |= bit(i);
        self.labelled |= bit(i);
        self.first[i] = a;
    }

    // The label stated first for the least labelled variable of a set.
    pub fn among(&self, row: Row) -> Option<u16> {
        let labelled = row & self.labelled;
        (labelled != 0).then(|| self.first[least(labelled)])
    }

    // The variables whose first stated label is a.
    pub fn bearers(&self, a: u16) -> Row {
        self.names.find(a).map_or(0, |number| self.bearers[number])
    }

    // Each label that is stated first for some variable, and the variables for which it is.
    pub fn each(&self) -> impl Iterator<Item = (u16, Row)> + '_ {
        self.names.names().iter().copied().zip(self.bearers.iter().copied())
    }

    // The variables with a stated label other than a.
    pub fn against(&self, a: u16) -> Row {
        (self.labelled & !self.bearers(a)) | self.mixed
    }

    // For each variable, the variables with which it may not be compatible because of F5.
    pub fn rivals(&self) -> Grid {
        let mut rivals = EMPTY;
        for i in members(self.labelled) {
            rivals[i] = if holds(self.mixed, i) {
                self.labelled
            } else {
                self.against(self.first[i])
            };
        }
        rivals
    }
}
