//! The type and the limit for which enough cores are asked: around each of the sixteen bounds, undeclared types, and anything;
//! and the requests about them that are asked for every seed.

use super::catalogue::{case_a, case_d, case_f, cores_for_no_time, graph_of, type_of_one_core, unused_cores};
use super::graphs::{chain, exactly};
use super::random::Random;
use super::request::{self, Request, LONGEST_PAYLOAD};
use crate::reference::enough::ticks_with;
use crate::reference::graph::{Graph, MOST_CORES, MOST_KINDS, MOST_VERTICES, MOST_WCET};
use crate::reference::reader::{read, VERTEX};
use crate::reference::writer::file_of;

/// Type numbers from the first that no graph has; cut to 8 or 16 bits some of them are small.
pub const UNDECLARED: [u64; 11] = [10, 11, 128, 255, 256, 257, 65_535, 65_536, 1 << 24, 1 << 31, u32::MAX as u64];

/// Each of the sixteen bounds and one below it, nothing, and the most.
pub fn limits(graph: &Graph, kind: usize) -> Vec<u32> {
    let bounds = (1..=MOST_CORES).map(|cores| ticks_with(graph, kind, cores) as u32);
    let mut limits: Vec<u32> = bounds.flat_map(|ticks| [ticks, ticks.saturating_sub(1)]).collect();
    limits.extend([0, u32::MAX]);
    limits.sort_unstable();
    limits.dedup();
    limits
}

/// A type of the graph; one time in ten a number that is none.
pub fn kind(random: &mut Random, graph: &Graph) -> u64 {
    let k = graph.cores.len() as u64;
    let declared = random.up_to(k - 1);
    let undeclared = random.pick(&UNDECLARED);
    // the first that is none, and what is a type again where bits of it are lost
    let wrapping = random.pick(&[256, 1 << 16, 1 << 24, 1 << 31]) + declared;
    if random.one_in(10) {
        random.pick(&[k, k, k + 1, undeclared, undeclared, wrapping])
    } else {
        random.pick(&[declared, declared, declared, 0, k - 1])
    }
}

/// Where the type is none, the limit is one for the first.
pub fn limit(random: &mut Random, graph: &Graph, kind: u64) -> u64 {
    let kind = if kind < graph.cores.len() as u64 { kind as usize } else { 0 };
    let cores = random.between(1, MOST_CORES as usize) as u8;
    let ticks = ticks_with(graph, kind, cores);
    let (least, most) = (ticks_with(graph, kind, MOST_CORES), ticks_with(graph, kind, 1));
    let between = least + random.up_to(most - least);
    let anything = random.next() >> random.between(32, 63);
    let wrapping = random.pick(&[1 << 8, 1 << 16, 1 << 24, 1 << 27, 1 << 31]) + least.saturating_sub(1);
    let below = ticks.saturating_sub(1);
    let end = random.pick(&[0, u32::MAX as u64, least, least.saturating_sub(1), most]);
    random.pick(&[ticks, ticks, ticks, below, below, ticks + 1, between, between, end, end, anything, wrapping])
}

/// The graphs whose every type is asked for with all its limits.
pub fn graphs() -> Vec<Graph> {
    let random = &mut Random::new(0, 30);
    let cases = [case_a(), case_d(), case_f(), type_of_one_core(), unused_cores(), cores_for_no_time()];
    let mut graphs: Vec<Graph> = cases.iter().map(graph_of).collect();
    graphs.extend([board(), exactly(random, MOST_KINDS, MOST_VERTICES, 1_024)]);
    graphs.extend([chain(MOST_VERTICES, 3, MOST_WCET), beside()]);
    graphs
}

/// The sample.
pub fn board() -> Graph {
    read(include_bytes!("../../samples/board.graph")).expect("a graph file")
}

/// 128 vertices without an edge, each at the largest WCET: every number of cores has another bound.
pub fn beside() -> Graph {
    Graph { edges: vec![], ..chain(MOST_VERTICES, 3, MOST_WCET) }
}

pub fn catalogue() -> Vec<Request> {
    let mut requests = Vec::new();
    for graph in graphs() {
        let (file, k) = (file_of(&graph), graph.cores.len());
        for kind in 0..k {
            requests
                .extend(limits(&graph, kind).iter().map(|&limit| request::enough(&file, kind as u64, limit as u64)));
        }
        for kind in [k as u64, k as u64 + 1].into_iter().chain(UNDECLARED) {
            requests.extend([0, u32::MAX as u64].map(|limit| request::enough(&file, kind, limit)));
        }
    }
    requests.extend([0, 1].map(|longer| request::enough(&vec![VERTEX; LONGEST_PAYLOAD - 20 + longer], 0, 0)));
    // numbers in 32 bits and above them, of a good file and of none
    let file = file_of(&graph_of(&case_a()));
    for number in [u32::MAX as u64, 1 << 32, (1 << 32) + 1, 1 << 63, u64::MAX] {
        for file in [&file[..], &[]] {
            requests.extend(
                [(number, 19), (1, number), (number, number)].map(|(kind, limit)| request::enough(file, kind, limit)),
            );
        }
    }
    requests
}
