//! Pairs of accepted graphs of which the second is better: one type has more cores, one WCET is lowered, an edge is removed;
//! several of these; a whole board. The changes can be as small as none.

use super::graphs::{of, twins};
use super::random::Random;
use super::ways;
use crate::reference::graph::{Graph, MOST_CORES};

#[derive(Clone, Copy, PartialEq, Eq, PartialOrd, Ord, Debug)]
pub enum Change {
    Cores,
    Work,
    Edge,
    /// several changes of cores and work, one after the other
    Several,
    /// the same with edges among them
    SeveralLoose,
    /// every type and every WCET at once, and for `BoardLoose` some of the edges too
    Board,
    BoardLoose,
}

use Change::{Board, BoardLoose, Cores, Edge, Several, SeveralLoose, Work};

pub const CHANGES: [Change; 7] = [Cores, Work, Edge, Several, SeveralLoose, Board, BoardLoose];

impl Change {
    /// No edge is removed.
    pub fn keeps_edges(self) -> bool {
        [Cores, Work, Several, Board].contains(&self)
    }
}

pub struct Pair {
    pub change: Change,
    pub before: Graph,
    pub after: Graph,
}

pub fn pair(random: &mut Random) -> Pair {
    let before = match random.below(12) {
        0 => ways::any(random),
        1 => twins(random),
        2 => of(random, 40, 1_000),
        3..=7 => tiny(random),
        _ => {
            let n = random.between(1, 9);
            of(random, n, 12)
        }
    };
    let change = random.pick(&CHANGES);
    let mut after = before.clone();
    match change {
        Several | SeveralLoose => {
            let choices = if change == Several { &CHANGES[..2] } else { &CHANGES[..3] };
            for _ in 0..random.between(2, 6) {
                let one = random.pick(choices);
                alter(random, &mut after, one);
            }
        }
        _ => alter(random, &mut after, change),
    }
    Pair { change, before, after }
}

/// Up to four vertices of two types: where there is a counter-example of some shape, there is a small one.
fn tiny(random: &mut Random) -> Graph {
    let n = random.between(2, 4);
    let pairs = (0..n as u8).flat_map(|u| (u + 1..n as u8).map(move |v| (u, v)));
    Graph {
        cores: (0..2).map(|_| random.pick(&[1, 1, 2, 3, MOST_CORES])).collect(),
        edges: pairs.filter(|_| random.one_in(2)).collect(),
        kinds: (0..n).map(|_| random.below(2) as u8).collect(),
        wcets: (0..n).map(|_| random.between(0, 3) as u32).collect(),
    }
}

fn alter(random: &mut Random, graph: &mut Graph, change: Change) {
    match change {
        Cores => {
            let kind = random.below(graph.cores.len());
            graph.cores[kind] = more(random, graph.cores[kind]);
        }
        Work => {
            let v = random.below(graph.vertices());
            graph.wcets[v] = random.up_to(graph.wcets[v] as u64) as u32;
        }
        Edge if !graph.edges.is_empty() => {
            graph.edges.remove(random.below(graph.edges.len()));
        }
        Board | BoardLoose => {
            graph.cores.iter_mut().for_each(|cores| *cores = more(random, *cores));
            graph.wcets.iter_mut().for_each(|wcet| *wcet = random.up_to(*wcet as u64) as u32);
            if change == BoardLoose {
                graph.edges.retain(|_| !random.one_in(4));
            }
        }
        _ => {}
    }
}

/// At least so many cores.
fn more(random: &mut Random, cores: u8) -> u8 {
    random.between(cores as usize, MOST_CORES as usize) as u8
}
