// Where a path leads from a variable, found backwards from its end.

use crate::closure::Facts;
use crate::rows::{bit, members, Row};
use crate::selections::Selections;
use crate::sheet::Path;

// The variables that state the feature with a child at or above one of the ends.
fn before(feature: u16, ends: Row, facts: &Facts, selections: &Selections) -> Row {
    let Some(branch) = selections.find(feature) else {
        return 0;
    };
    members(branch.subjects)
        .filter(|&subject| facts.down[branch.child(subject)] & ends != 0)
        .fold(0, |all, subject| all | bit(subject))
}

// Whether a path leads from a variable to one of the ends or above it: what the end has at its root is there too.
pub fn leads(start: usize, path: &Path, ends: Row, facts: &Facts, selections: &Selections) -> bool {
    let steps = path.features().iter().rev();
    let starts = steps.fold(ends, |row, &feature| before(feature, row, facts, selections));
    facts.down[start] & starts != 0
}
