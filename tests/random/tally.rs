//! What was compared, counted: a count of 0 is a hole in the comparison.

use crate::damage::{Damage, LONGEST};
use crate::sheets::Place;

#[derive(Default)]
pub struct Tally {
    pub sheets: u64,
    pub runs: u64,
    pub calls: u64,
    pub refused: [u64; 11],
    pub clashed: u64,
    pub consistent: u64,
    /// Numbers for which a root's label was asked, those with one, and of these the variables that have none stated.
    pub labels: [u64; 3],
    /// Calls for the label at a path, by what came of it.
    pub paths: [u64; PATHS.len()],
    /// By the kind of question, then by reply.
    pub replies: [[u64; 3]; 5],
    /// Sheets as long as any that are accepted, and longer ones that are refused behind that.
    pub longest: [u64; 2],
    /// Sheets that were damaged at a place and refused there, by the refusal's number.
    pub places: [[u64; 11]; PLACES.len()],
}

/// Each place, its name, and the number by which a wrong value there is refused, if one can be wrong.
const PLACES: [(Place, &str, Option<usize>); 21] = [
    (Place::HeaderMap, "header map", Some(2)),
    (Place::VariableCount, "variable count", Some(3)),
    (Place::RecordCount, "record count", Some(4)),
    (Place::QuestionCount, "question count", Some(4)),
    (Place::RecordMap, "record's map", Some(5)),
    (Place::RecordSubject, "record's subject", Some(6)),
    (Place::RecordTarget, "record's target", Some(6)),
    (Place::RecordPartner, "record's partner", Some(6)),
    (Place::RecordFeature, "record's feature", None),
    (Place::RecordChild, "record's child", Some(6)),
    (Place::RecordLabel, "record's label", None),
    (Place::QuestionMap, "question's map", Some(5)),
    (Place::QuestionSubject, "question's subject", Some(6)),
    (Place::QuestionTarget, "question's target", Some(6)),
    (Place::QuestionPartner, "question's partner", Some(6)),
    (Place::QuestionFeature, "question's feature", None),
    (Place::QuestionChild, "question's child", Some(6)),
    (Place::QuestionLabel, "question's label", None),
    (Place::PathCount, "path's count", Some(10)),
    (Place::PathFeature, "path's feature", None),
    (Place::Behind, "behind the end", Some(7)),
];

const KINDS: [&str; 5] = ["i <= j", "i ~ j", "i[f]j", "a(i)", "path"];
const REPLIES: [&str; 3] = ["always", "never", "open"];
const LABELS: [&str; 3] = ["asked of a root", "told", "told but not stated there"];

/// The kind of question that is never replied to with never.
const PATH: usize = 4;

/// What can come of a call for the label at a path.
#[derive(Clone, Copy)]
pub enum AtPath {
    Told,
    Unlabelled,
    Open,
    OtherQuestion,
    NoQuestion,
    Clash,
    Refused,
    ShortTable,
    ShortReplies,
}

/// Each of these, by its number, with its name.
const PATHS: [(AtPath, &str); 9] = [
    (AtPath::Told, "told"),
    (AtPath::Unlabelled, "none where it is there"),
    (AtPath::Open, "none where it is open"),
    (AtPath::OtherQuestion, "asked of another question"),
    (AtPath::NoQuestion, "asked of no question"),
    (AtPath::Clash, "asked on a clash"),
    (AtPath::Refused, "asked of what is no sheet"),
    (AtPath::ShortTable, "asked with a short table"),
    (AtPath::ShortReplies, "asked with a short reply buffer"),
];

impl Tally {
    /// Counts an outcome of a sheet of so many bytes that both solvers agree on.
    pub fn outcome(&mut self, outcome: u64, length: usize) {
        self.calls += 1;
        self.longest[0] += u64::from(outcome & 255 != 2 && length == LONGEST);
        self.longest[1] += u64::from(outcome == 2 + 256 * 7 + ((LONGEST as u64) << 24));
        match outcome & 255 {
            0 => self.consistent += 1,
            1 => self.clashed += 1,
            _ => self.refused[(outcome >> 8 & 15) as usize] += 1,
        }
    }

    /// Counts the replies to questions of these maps.
    pub fn reply(&mut self, maps: &[u8], replies: &[u8]) -> Result<(), String> {
        for (map, &reply) in maps.iter().zip(replies) {
            self.replies[map.trailing_zeros() as usize][reply as usize] += 1;
        }
        if self.replies[PATH][1] > 0 {
            return Err("a path is replied to with never".to_string());
        }
        Ok(())
    }

    /// Counts what came of a call for the label at a path, by both solvers.
    pub fn at_path(&mut self, what: AtPath) {
        self.paths[what as usize] += 1;
    }

    /// Counts what was told of a root, by both solvers, and whether no label is stated for its variable.
    pub fn label(&mut self, told: bool, unstated: bool) {
        self.labels[0] += 1;
        self.labels[1] += u64::from(told);
        self.labels[2] += u64::from(told && unstated);
    }

    /// Whether there were paths of both replies, and labels at some.
    pub fn tells_of_paths(&self) -> bool {
        self.replies[PATH][0] > 0 && self.replies[PATH][2] > 0 && self.paths[AtPath::Told as usize] > 0
    }

    /// How many questions got the reply never.
    pub fn never(&self) -> u64 {
        self.replies.iter().map(|counts| counts[1]).sum()
    }

    /// Counts a refusal that is told at the place of the damage.
    pub fn refused_at(&mut self, damage: &Damage, outcome: u64) {
        let (number, offset) = ((outcome >> 8 & 255) as usize, (outcome >> 24) as usize);
        if let Some(k) = PLACES.iter().position(|&(place, ..)| place == damage.place && offset == damage.offset) {
            self.places[k][number] += 1;
        }
    }

    pub fn add(&mut self, other: &Tally) {
        self.sheets += other.sheets;
        self.runs += other.runs;
        self.calls += other.calls;
        self.clashed += other.clashed;
        self.consistent += other.consistent;
        add_each(&mut self.refused, &other.refused);
        add_each(&mut self.labels, &other.labels);
        add_each(&mut self.paths, &other.paths);
        add_each(&mut self.longest, &other.longest);
        for (mine, theirs) in self.places.iter_mut().zip(&other.places) {
            add_each(mine, theirs);
        }
        for (mine, theirs) in self.replies.iter_mut().zip(&other.replies) {
            add_each(mine, theirs);
        }
    }

    /// Every count with its name.
    pub fn named(&self) -> Vec<(String, u64)> {
        let mut all: Vec<(String, u64)> = (1..11).map(|k| (format!("refused by {k}"), self.refused[k])).collect();
        all.push(("clash".to_string(), self.clashed));
        all.push(("consistent".to_string(), self.consistent));
        all.extend(LABELS.iter().zip(&self.labels).map(|(what, &count)| (format!("label {what}"), count)));
        all.extend(PATHS.iter().map(|&(what, name)| (format!("label at a path {name}"), self.paths[what as usize])));
        all.push(("longest sheet accepted".to_string(), self.longest[0]));
        all.push(("refused behind the longest sheet".to_string(), self.longest[1]));
        for (k, (kind, counts)) in KINDS.iter().zip(&self.replies).enumerate() {
            let replies = REPLIES.iter().zip(counts).enumerate().filter(|&(reply, _)| (k, reply) != (PATH, 1));
            all.extend(replies.map(|(_, (reply, &count))| (format!("{kind} {reply}"), count)));
        }
        for ((place, name, number), counts) in PLACES.iter().zip(&self.places) {
            let cut = (*place != Place::Behind).then_some(1);
            all.extend(cut.iter().chain(number).map(|&k| (format!("refused by {k}: {name}"), counts[k])));
        }
        all
    }
}

fn add_each(mine: &mut [u64], theirs: &[u64]) {
    for (a, b) in mine.iter_mut().zip(theirs) {
        *a += b;
    }
}
