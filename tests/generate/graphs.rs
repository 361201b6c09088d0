//! Accepted graphs. A graph is first laid out in positions, edges going up; then the positions get vertex numbers in some
//! order, so that edges go against the numbering too. Half of them have one source and one sink, the others any number.

use super::random::Random;
use crate::reference::graph::{Graph, MOST_CORES, MOST_EDGES, MOST_KINDS, MOST_VERTICES, MOST_WCET};
use std::collections::BTreeSet;

/// Mostly small, as small graphs have the ties and the tight corners, but of every size.
pub fn any(random: &mut Random) -> Graph {
    if random.one_in(10) {
        return twins(random);
    }
    let n = match random.below(20) {
        0 => MOST_VERTICES,
        1 => random.between(60, MOST_VERTICES),
        2..=5 => random.between(13, 60),
        _ => random.between(1, 12),
    };
    let wcet = random.pick(&[0, 1, 1, 3, 3, 5, 20, 20, 20, 1_000, MOST_WCET, MOST_WCET]);
    of(random, n, wcet)
}

/// Of at least three vertices, an edge and few kinds, so that every fault can be planted within the longest file.
pub fn to_be_damaged(random: &mut Random) -> Graph {
    let n = random.between(3, 30);
    let mut graph = of(random, n, 20);
    if graph.edges.is_empty() {
        graph.edges.push((0, 1));
    }
    graph.cores.truncate(4);
    let k = graph.cores.len() as u8;
    graph.kinds.iter_mut().for_each(|kind| *kind %= k);
    graph
}

/// With n vertices and no WCET above the given one.
pub fn of(random: &mut Random, n: usize, most_wcet: u32) -> Graph {
    let kinds = random.pick(&[1, 1, 2, 2, 3, 4, MOST_KINDS]);
    let extra = random.pick(&[0, 0, n / 2, 2 * n, 6 * n, 4 * MOST_EDGES]);
    let mut layout = layout(random, n, MOST_EDGES, extra);
    loosen(random, n, &mut layout);
    let (cores, used) = board(random, kinds);
    Graph {
        cores,
        kinds: kinds_of_vertices(random, &used, n),
        wcets: wcets(random, n, most_wcet),
        edges: numbered(random, n, &layout),
    }
}

/// With exactly these counts; `edges` must be possible, from n - 1 on.
pub fn exactly(random: &mut Random, kinds: usize, n: usize, edges: usize) -> Graph {
    let mut layout: BTreeSet<(usize, usize)> = (1..n).map(|p| (p - 1, p)).collect();
    while layout.len() < edges {
        layout.extend(upward(random, n));
    }
    let (cores, used) = board(random, kinds);
    Graph {
        cores,
        kinds: kinds_of_vertices(random, &used, n),
        wcets: wcets(random, n, MOST_WCET),
        edges: numbered(random, n, &layout),
    }
}

/// A source, a sink, and between them more vertices of one kind than it has cores; each has a WCET of 2 at least.
pub fn fan(random: &mut Random) -> Graph {
    let (cores, beside) = (random.between(1, 3), random.between(1, 6));
    let n = cores + beside + 2;
    let layout = (1..n - 1).flat_map(|p| [(0, p), (p, n - 1)]).collect();
    let number = numbers(random, n);
    let mut kinds = vec![0; n];
    kinds[number[0] as usize] = 1;
    kinds[number[n - 1] as usize] = 1;
    Graph {
        cores: vec![cores as u8, random.between(1, 2) as u8],
        kinds,
        wcets: (0..n).map(|_| random.between(2, 9) as u32).collect(),
        edges: edges_between(&number, &layout),
    }
}

/// One vertex behind the other, in the order of their numbers.
pub fn chain(n: usize, cores: u8, wcet: u32) -> Graph {
    Graph {
        cores: vec![cores],
        kinds: vec![0; n],
        wcets: vec![wcet; n],
        edges: (1..n).map(|v| (v as u8 - 1, v as u8)).collect(),
    }
}

/// With several longest paths: joints one behind the other, and from each to the next some branches that have the same
/// vertices in another order. Now and then a branch is shorter than its twins by a tick, or an edge leads past a joint, or
/// the first joint or the last is cut off, so that the longest paths begin or end at several vertices.
pub fn twins(random: &mut Random) -> Graph {
    let kinds = random.between(1, 4);
    let (cores, used) = board(random, kinds);
    let most = random.pick(&[1, 4, 1_000, MOST_WCET]);
    let any_vertex = |random: &mut Random| (random.pick(&used), random.between(0, most as usize) as u32);
    let mut vertices = vec![any_vertex(random)];
    let mut layout = BTreeSet::new();
    for _ in 0..random.between(1, 4) {
        let joint = vertices.len() - 1;
        let mut branch: Vec<(u8, u32)> = (0..random.between(1, 4)).map(|_| any_vertex(random)).collect();
        let mut ends = Vec::new();
        for _ in 0..random.between(2, 4) {
            random.shuffle(&mut branch);
            let first = vertices.len();
            let last = first + branch.len() - 1;
            vertices.extend(&branch);
            layout.insert((joint, first));
            layout.extend((first..last).map(|p| (p, p + 1)));
            ends.push(last);
            if random.one_in(6) {
                vertices[last].1 = vertices[last].1.saturating_sub(1);
            }
        }
        layout.extend(ends.iter().map(|&end| (end, vertices.len())));
        vertices.push(any_vertex(random));
    }
    if random.one_in(3) {
        layout.extend(upward(random, vertices.len()));
    }
    if random.one_in(3) {
        layout.retain(|&(from, _)| from != 0);
    }
    if random.one_in(3) {
        layout.retain(|&(_, to)| to != vertices.len() - 1);
    }
    let number = numbers(random, vertices.len());
    let mut of_number = vec![(0, 0); vertices.len()];
    vertices.iter().zip(&number).for_each(|(&vertex, &v)| of_number[v as usize] = vertex);
    Graph {
        cores,
        kinds: of_number.iter().map(|&(kind, _)| kind).collect(),
        wcets: of_number.iter().map(|&(_, wcet)| wcet).collect(),
        edges: edges_between(&number, &layout),
    }
}

/// Edges between positions: one into each but the first, one out of each but the last, and up to `extra` more.
fn layout(random: &mut Random, n: usize, most: usize, extra: usize) -> BTreeSet<(usize, usize)> {
    let mut edges = BTreeSet::new();
    let reach = random.pick(&[1, 2, 4, n, n]);
    let from_first = random.one_in(5);
    for p in 1..n {
        let from = if from_first { 0 } else { p - 1 - random.below(reach.min(p)) };
        edges.insert((from, p));
    }
    for p in 0..n - 1 {
        if !edges.iter().any(|&(from, _)| from == p) {
            let to = if random.one_in(2) { n - 1 } else { p + 1 + random.below(reach.min(n - 1 - p)) };
            edges.insert((p, to));
        }
    }
    for _ in 0..extra {
        if edges.len() < most {
            edges.extend(upward(random, n));
        }
    }
    edges
}

/// Half of the layouts stay as they are. The others lose edges: all or most of them; those between parts that nothing
/// joins then; or those into some positions and out of others, which become sources and sinks.
fn loosen(random: &mut Random, n: usize, edges: &mut BTreeSet<(usize, usize)>) {
    match random.below(6) {
        0 => {
            let kept = random.pick(&[0, 1, 1, 2]);
            edges.retain(|_| random.below(4) < kept);
        }
        1 => {
            let parts = random.between(2, 4);
            let part: Vec<usize> = (0..n).map(|_| random.below(parts)).collect();
            edges.retain(|&(from, to)| part[from] == part[to]);
        }
        2 => {
            let some = random.pick(&[2, 4]);
            let is_source: Vec<bool> = (0..n).map(|_| random.one_in(some)).collect();
            let is_sink: Vec<bool> = (0..n).map(|_| random.one_in(some)).collect();
            edges.retain(|&(from, to)| !is_source[to] && !is_sink[from]);
        }
        _ => {}
    }
}

/// An edge between two positions, where there are two.
pub fn upward(random: &mut Random, n: usize) -> Option<(usize, usize)> {
    let (p, q) = (random.below(n), random.below(n));
    (p != q).then_some((p.min(q), p.max(q)))
}

fn numbered(random: &mut Random, n: usize, layout: &BTreeSet<(usize, usize)>) -> Vec<(u8, u8)> {
    edges_between(&numbers(random, n), layout)
}

/// The vertex number of each position: upwards, downwards, or anyhow.
pub fn numbers(random: &mut Random, n: usize) -> Vec<u8> {
    let mut number: Vec<u8> = (0..n as u8).collect();
    match random.below(4) {
        0 => {}
        1 => number.reverse(),
        _ => random.shuffle(&mut number),
    }
    number
}

/// The positions' edges as edges between vertices.
pub fn edges_between(number: &[u8], layout: &BTreeSet<(usize, usize)>) -> Vec<(u8, u8)> {
    let mut edges: Vec<(u8, u8)> = layout.iter().map(|&(p, q)| (number[p], number[q])).collect();
    edges.sort_unstable();
    edges
}

/// The cores of each kind, and the kinds that vertices may have. The others are none, one, all but one or any number of
/// them, wherever they stand; every other time one of them has the most cores that a kind can have.
pub fn board(random: &mut Random, kinds: usize) -> (Vec<u8>, Vec<u8>) {
    let most = random.pick(&[1, 2, 3, MOST_CORES, MOST_CORES]);
    let mut cores: Vec<u8> = (0..kinds).map(|_| random.between(1, most as usize) as u8).collect();
    let any = random.below(kinds);
    let many = random.pick(&[0, 1.min(kinds - 1), kinds - 1, any]);
    let mut used: Vec<u8> = (0..kinds as u8).collect();
    random.shuffle(&mut used);
    let unused = used.split_off(kinds - many);
    if !unused.is_empty() && random.one_in(2) {
        cores[unused[0] as usize] = MOST_CORES;
    }
    (cores, used)
}

/// Each of the kinds that are used has a vertex, where there are enough.
pub fn kinds_of_vertices(random: &mut Random, used: &[u8], n: usize) -> Vec<u8> {
    let mut kinds: Vec<u8> = (0..n).map(|v| used.get(v).copied().unwrap_or_else(|| random.pick(used))).collect();
    random.shuffle(&mut kinds);
    kinds
}

pub fn wcets(random: &mut Random, n: usize, most: u32) -> Vec<u32> {
    let style = random.below(4);
    let one = |random: &mut Random| match style {
        0 => most,
        1 if random.one_in(2) => 0,
        2 if random.one_in(4) => most,
        _ => random.between(0, most as usize) as u32,
    };
    (0..n).map(|_| one(random)).collect()
}
