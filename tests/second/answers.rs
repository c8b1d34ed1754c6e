// What the closed facts say of a sheet: its clash, the labels at its roots and paths, the replies to its questions.

use crate::closure::Facts;
use crate::paths::leads;
use crate::rows::{holds, least, Grid, EMPTY};
use crate::selections::Selections;
use crate::sheet::{Question, Sheet};
use crate::trials::Trials;

// Reply bytes.
pub const ALWAYS: u8 = 0;
pub const NEVER: u8 = 1;
pub const OPEN: u8 = 2;

// The least pair of variables to which F5 applies.
pub fn clash(facts: &Facts, rivals: &Grid) -> Option<(usize, usize)> {
    (0..rivals.len()).find_map(|i| {
        let row = facts.mates[i] & rivals[i];
        (row != 0).then(|| (i, least(row)))
    })
}

// The label of a root under every assignment meeting a consistent sheet: the least one has there what is stated below.
pub fn label(i: usize, sheet: &Sheet, facts: &Facts) -> Option<u16> {
    sheet.labels.among(facts.down[i])
}

// The label at the path of a question under every assignment meeting a consistent sheet, if it is about a path.
pub fn path_label(question: &Question, sheet: &Sheet, facts: &Facts, selections: &Selections) -> Option<u16> {
    let Question::Reaches(i, path) = question else {
        return None;
    };
    let mut labels = sheet.labels.each();
    let found = labels.find(|&(_, bearers)| leads(*i, path, bearers, facts, selections));
    found.map(|(a, _)| a)
}

// Whether the facts of a consistent sheet support what is asked.
fn supported(question: &Question, sheet: &Sheet, facts: &Facts, selections: &Selections) -> bool {
    match *question {
        Question::Order(i, j) => holds(facts.up[i], j),
        Question::Mates(i, j) => holds(facts.mates[i], j),
        Question::Selects(selection) => facts.supports(selection, selections),
        Question::Labelled(i, a) => facts.down[i] & sheet.labels.bearers(a) != 0,
        Question::Reaches(i, ref path) => leads(i, path, !0, facts, selections),
    }
}

// Write the reply to each question of a consistent sheet.
pub fn reply(sheet: &Sheet, facts: &Facts, rivals: &Grid, selections: &mut Selections, replies: &mut [u8]) {
    let harmless = *rivals == EMPTY;
    let mut trials: Option<Trials> = None;
    for (question, reply) in sheet.questions.iter().zip(replies) {
        if supported(question, sheet, facts, selections) {
            *reply = ALWAYS;
            continue;
        }
        let never = match *question {
            Question::Labelled(i, a) => facts.mates[i] & sheet.labels.against(a) != 0,
            Question::Reaches(..) => false,
            _ if harmless => false,
            _ => trials
                .get_or_insert_with(|| Trials::new(facts, rivals, selections))
                .clashes(question, selections),
        };
        *reply = if never { NEVER } else { OPEN };
    }
}
