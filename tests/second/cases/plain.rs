// A deliberately plain solver, rule by rule on booleans, to hold the fast one against.

use crate::steps::{self, Node};

// A list of up to eight features, with the unused places zero.
#[derive(Clone, Copy, Debug, PartialEq)]
pub struct Path {
    places: [u16; 8],
    length: usize,
}

impl Path {
    // The path of these features.
    pub fn of(features: &[u16]) -> Path {
        let mut places = [0; 8];
        places[..features.len()].copy_from_slice(features);
        Path {
            places,
            length: features.len(),
        }
    }

    // The features from first to last.
    pub fn features(&self) -> &[u16] {
        &self.places[..self.length]
    }
}

// One statement or one question; a path is only asked.
#[derive(Clone, Copy, Debug, PartialEq)]
pub enum Said {
    Below(usize, usize),
    Mates(usize, usize),
    Selects(usize, u16, usize),
    Labelled(usize, u16),
    Reaches(usize, Path),
}

// A sheet as a number of variables, what each record states, and the questions.
#[derive(Clone, Debug, Default)]
pub struct Plain {
    pub n: usize,
    pub records: Vec<Vec<Said>>,
    pub questions: Vec<Said>,
}

// Both relations as square tables.
#[derive(Clone, PartialEq)]
pub struct Tables {
    pub below: Vec<Vec<bool>>,
    pub mates: Vec<Vec<bool>>,
}

// What a check must leave behind.
#[derive(Debug, PartialEq)]
pub struct Expected {
    pub kind: u64,
    pub first: u64,
    pub second: u64,
    pub table: Vec<u8>,
    pub labels: Vec<Option<u16>>,
    pub replies: Vec<u8>,
    pub path_labels: Vec<Option<u16>>,
}

use Said::{Below, Labelled, Mates, Reaches, Selects};

// Set one entry; tells whether it is new.
fn set(table: &mut [Vec<bool>], i: usize, j: usize) -> bool {
    !std::mem::replace(&mut table[i][j], true)
}

// One round of the rules for three variables: F1.2, F3.2, F3.3, each unless left out.
fn round_of_triples(n: usize, t: &mut Tables, without: &str) -> bool {
    let mut more = false;
    for i in 0..n {
        for j in 0..n {
            if t.mates[i][j] && without != "F3.3" {
                more |= set(&mut t.mates, j, i);
            }
            for k in 0..n {
                if t.below[i][j] && t.below[j][k] && without != "F1.2" {
                    more |= set(&mut t.below, i, k);
                }
                if t.below[i][j] && t.mates[j][k] && without != "F3.2" {
                    more |= set(&mut t.mates, i, k);
                }
            }
        }
    }
    more
}

// One round of the rules for two selections: F2 and F4, each unless left out.
fn round_of_selections(said: &[Said], t: &mut Tables, without: &str) -> bool {
    let mut more = false;
    for one in said {
        for other in said {
            let (&Selects(i, f, c), &Selects(j, g, d)) = (one, other) else {
                continue;
            };
            if f == g && t.below[i][j] && without != "F2" {
                more |= set(&mut t.below, c, d);
            }
            if f == g && t.mates[i][j] && without != "F4" {
                more |= set(&mut t.mates, c, d);
            }
        }
    }
    more
}

// The derived facts, from nothing, with one rule left out if it is named.
pub fn derive(n: usize, said: &[Said], without: &str) -> Tables {
    let mut t = Tables {
        below: vec![vec![false; n]; n],
        mates: vec![vec![false; n]; n],
    };
    for i in 0..n {
        t.below[i][i] = true;
        t.mates[i][i] = true;
    }
    for one in said {
        match *one {
            Below(i, j) => t.below[i][j] = true,
            Mates(i, j) => t.mates[i][j] = true,
            _ => {}
        }
    }
    loop {
        let more = round_of_triples(n, &mut t, without);
        if !round_of_selections(said, &mut t, without) && !more {
            return t;
        }
    }
}

// The least pair to which F5 applies.
pub fn clash(n: usize, said: &[Said], t: &Tables) -> Option<(usize, usize)> {
    for i in 0..n {
        for j in 0..n {
            for one in said {
                for other in said {
                    let (&Labelled(k, a), &Labelled(l, b)) = (one, other) else {
                        continue;
                    };
                    if k == i && l == j && a != b && t.mates[i][j] {
                        return Some((i, j));
                    }
                }
            }
        }
    }
    None
}

// Whether the derived facts and statements support a question.
fn supported(question: Said, said: &[Said], t: &Tables) -> bool {
    match question {
        Below(i, j) => t.below[i][j],
        Mates(i, j) => t.mates[i][j],
        Labelled(i, a) => said
            .iter()
            .any(|&one| matches!(one, Labelled(k, b) if b == a && t.below[k][i])),
        Selects(i, f, j) => {
            let lower = |&one: &Said| matches!(one, Selects(k, g, m) if g == f && t.below[j][m] && t.below[k][i]);
            let upper = |&one: &Said| matches!(one, Selects(k, g, m) if g == f && t.below[i][k] && t.below[m][j]);
            said.iter().any(lower) && said.iter().any(upper)
        }
        Reaches(..) => steps::node(question, said, t).is_some(),
    }
}

// The reply to one question of a consistent sheet.
pub fn reply(n: usize, question: Said, said: &[Said], t: &Tables) -> u8 {
    if supported(question, said, t) {
        return 0;
    }
    if let Reaches(..) = question {
        return 2;
    }
    let mut longer = said.to_vec();
    longer.push(question);
    let trial = derive(n, &longer, "");
    match clash(n, &longer, &trial) {
        Some(_) => 1,
        None => 2,
    }
}

// One round of the rule that i <= j and a(i) give a(j), which the paper leaves out of Table 1 for simplicity only.
fn round_of_labels(n: usize, t: &Tables, labels: &mut [Option<u16>]) -> bool {
    let mut more = false;
    for i in 0..n {
        for j in 0..n {
            if t.below[i][j] && labels[i].is_some() && labels[i] != labels[j] {
                assert_eq!(labels[j], None, "two labels at one root of a consistent sheet");
                labels[j] = labels[i];
                more = true;
            }
        }
    }
    more
}

// The labels of the roots of a consistent sheet: those stated, and what that rule adds to them.
fn labels(n: usize, said: &[Said], t: &Tables) -> Vec<Option<u16>> {
    let mut labels = vec![None; n];
    for one in said {
        if let Labelled(i, a) = *one {
            labels[i] = Some(a);
        }
    }
    while round_of_labels(n, t, &mut labels) {}
    labels
}

// The label that every assignment has at the path of a question, if it is about a path.
fn path_label(question: Said, said: &[Said], t: &Tables) -> Option<u16> {
    match steps::node(question, said, t) {
        Some(Node::Labelled(a)) => Some(a),
        _ => None,
    }
}

// The bytes of the first table.
pub fn bytes(n: usize, t: &Tables) -> Vec<u8> {
    (0..n * n)
        .map(|at| u8::from(t.below[at / n][at % n]) + 2 * u8::from(t.mates[at / n][at % n]))
        .collect()
}

// All that a check must give for a lawful sheet.
pub fn solve(sheet: &Plain) -> Expected {
    let n = sheet.n;
    let said: Vec<Said> = sheet.records.concat();
    let t = derive(n, &said, "");
    let table = bytes(n, &t);
    if let Some((i, j)) = clash(n, &said, &t) {
        return Expected {
            kind: 1,
            first: i as u64,
            second: j as u64,
            table,
            labels: vec![None; n],
            replies: Vec::new(),
            path_labels: vec![None; sheet.questions.len()],
        };
    }
    let replies = sheet.questions.iter().map(|&q| reply(n, q, &said, &t)).collect();
    let path_labels = sheet.questions.iter().map(|&q| path_label(q, &said, &t)).collect();
    let count = |value: u8| table.iter().filter(|&&byte| byte & value != 0).count() as u64;
    Expected {
        kind: 0,
        first: count(1),
        second: count(2),
        labels: labels(n, &said, &t),
        replies,
        path_labels,
        table,
    }
}
