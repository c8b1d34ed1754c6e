// Trials of questions as further statements of one consistent sheet, each from the closed facts.

use crate::closure::Facts;
use crate::forbidden::Forbidden;
use crate::rows::{holds, Grid, EMPTY};
use crate::selections::Selections;
use crate::sheet::{Question, Selection};

// The facts of a trial with more insertions than this are kept for later trials.
const LONG_TRIAL: usize = 32;

// The most sets of facts kept.
const MOST_KEPT: usize = 8;

// The closed facts of a consistent sheet, and what the trials made so far have shown.
pub struct Trials<'a> {
    facts: &'a Facts,
    scratch: Facts,
    forbidden: Forbidden,
    allowed_order: Grid,
    allowed_equal: Grid,
    kept: Vec<Facts>,
}

// Whether the facts stay without clash when the question becomes one more statement.
fn extends(facts: &mut Facts, question: &Question, selections: &mut Selections, forbidden: &Forbidden) -> bool {
    facts.pose(question, selections);
    if facts.idle() {
        return true;
    }
    let loan = match *question {
        Question::Selects(selection) => selections.lend(selection),
        _ => None,
    };
    let without_clash = facts.settle(selections, forbidden);
    if let Some(loan) = loan {
        selections.take_back(loan);
    }
    without_clash
}

impl<'a> Trials<'a> {
    // Make ready for trials.
    pub fn new(facts: &'a Facts, rivals: &Grid, selections: &Selections) -> Self {
        Trials {
            facts,
            scratch: facts.clone(),
            forbidden: Forbidden::new(facts, rivals, selections),
            allowed_order: EMPTY,
            allowed_equal: EMPTY,
            kept: Vec::new(),
        }
    }

    // Whether the sheet clashes with one more pair or selection.
    pub fn clashes(&mut self, question: &Question, selections: &mut Selections) -> bool {
        match *question {
            Question::Mates(i, j) => holds(self.forbidden.mates[i], j),
            Question::Order(i, j) => self.order_clashes(i, j, selections),
            Question::Selects(selection) => match selections.child(selection) {
                Some(child) => self.equal_clashes(child, selection, selections),
                None => self.selection_clashes(selection, selections),
            },
            Question::Labelled(..) | Question::Reaches(..) => false,
        }
    }

    // Whether the sheet clashes with i <= j.
    fn order_clashes(&mut self, i: usize, j: usize, selections: &mut Selections) -> bool {
        if holds(self.forbidden.order[i], j) {
            return true;
        }
        if holds(self.allowed_order[i], j) {
            return false;
        }
        let clashes = self.run(&Question::Order(i, j), selections);
        if clashes {
            self.forbidden.forbid_order(i, j, self.facts);
        }
        clashes
    }

    // Whether the sheet clashes with a selection whose subject already has this child under the feature.
    fn equal_clashes(&mut self, child: usize, selection: Selection, selections: &mut Selections) -> bool {
        if self.forbidden.forbids_equal(child, selection.child) {
            return true;
        }
        if holds(self.allowed_equal[child], selection.child) {
            return false;
        }
        let clashes = self.run(&Question::Selects(selection), selections);
        if clashes {
            self.forbidden.forbid_equal(child, selection.child, self.facts);
        }
        clashes
    }

    // Whether the sheet clashes with a selection that gives its subject a further feature.
    fn selection_clashes(&mut self, selection: Selection, selections: &mut Selections) -> bool {
        let question = Question::Selects(selection);
        if self.kept.iter_mut().any(|facts| facts.allows(&question, selections)) {
            return false;
        }
        self.run(&question, selections)
    }

    // Make a trial from the closed facts; tells whether it clashes.
    fn run(&mut self, question: &Question, selections: &mut Selections) -> bool {
        let without_clash = extends(&mut self.scratch, question, selections, &self.forbidden);
        if without_clash {
            self.scratch.report(&mut self.allowed_order, &mut self.allowed_equal);
            if self.scratch.work() > LONG_TRIAL {
                self.keep(question, selections);
            }
        }
        self.scratch.reset(self.facts);
        !without_clash
    }

    // Keep the facts of the trial just made, joined with those kept last if that gives no clash.
    fn keep(&mut self, question: &Question, selections: &mut Selections) {
        if let Some(last) = self.kept.last() {
            let mut joined = last.clone();
            if extends(&mut joined, question, selections, &self.forbidden) {
                self.kept.pop();
                self.kept.push(joined);
                return;
            }
        }
        if self.kept.len() == MOST_KEPT {
            self.kept.remove(0);
        }
        self.kept.push(self.scratch.clone());
    }
}
