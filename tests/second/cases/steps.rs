// What every assignment has at a path, rule by rule: for each variable, what it has at what is left of the path.

use crate::plain::Said::{self, Below, Labelled, Mates, Reaches, Selects};
use crate::plain::Tables;

// A node that is there.
#[derive(Clone, Copy, Debug, PartialEq)]
pub enum Node {
    Bare,
    Labelled(u16),
}

// For each variable, what is known of the node at the end of the features that are left.
type Nodes = Vec<Option<Node>>;

// Take what is known of one node for another too; tells whether that is new.
fn hand_over(from: Option<Node>, to: &mut Option<Node>) -> bool {
    let joined = match (from, *to) {
        (None, there) | (Some(Node::Bare), there @ Some(_)) => there,
        (Some(Node::Labelled(a)), Some(Node::Labelled(b))) => {
            assert_eq!(a, b, "two labels at one path on a consistent sheet");
            from
        }
        _ => from,
    };
    std::mem::replace(to, joined) != joined
}

// One round of the rule that i <= j gives j all that i has.
fn round_of_orders(t: &Tables, nodes: &mut Nodes) -> bool {
    let mut more = false;
    for i in 0..nodes.len() {
        for j in 0..nodes.len() {
            if t.below[i][j] {
                let lower = nodes[i];
                more |= hand_over(lower, &mut nodes[j]);
            }
        }
    }
    more
}

// One round of the rule that i[f]j gives i under f what j has, and j what i has under f.
fn round_of_selections(said: &[Said], feature: u16, nodes: &mut Nodes, rest: &mut Nodes) -> bool {
    let mut more = false;
    for one in said {
        if let Selects(i, f, j) = *one {
            if f == feature {
                more |= hand_over(rest[j], &mut nodes[i]) | hand_over(nodes[i], &mut rest[j]);
            }
        }
    }
    more
}

// One round of all rules, the path longer by one feature in each of the lists after the first.
fn round(said: &[Said], t: &Tables, features: &[u16], all: &mut [Nodes]) -> bool {
    let mut more = false;
    for nodes in all.iter_mut() {
        more |= round_of_orders(t, nodes);
    }
    for (at, &feature) in features.iter().rev().enumerate() {
        let (rest, nodes) = all.split_at_mut(at + 1);
        more |= round_of_selections(said, feature, &mut nodes[0], &mut rest[at]);
    }
    more
}

// What every variable has at its root: it is there, and has the label that is stated.
fn roots(n: usize, said: &[Said]) -> Nodes {
    let mut nodes = vec![Some(Node::Bare); n];
    for one in said {
        match *one {
            Labelled(i, a) => nodes[i] = Some(Node::Labelled(a)),
            Below(..) | Mates(..) | Selects(..) | Reaches(..) => {}
        }
    }
    nodes
}

// What every assignment meeting a consistent sheet has at the path of a question; nothing where it is about no path.
pub fn node(question: Said, said: &[Said], t: &Tables) -> Option<Node> {
    let Reaches(subject, path) = question else {
        return None;
    };
    let n = t.below.len();
    let mut all = vec![vec![None; n]; path.features().len() + 1];
    all[0] = roots(n, said);
    while round(said, t, path.features(), &mut all) {}
    all[path.features().len()][subject]
}
