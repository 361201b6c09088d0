//! Numbers of unfinished predecessors: the runs and records of docs/orders/08.md, and records one step away from good ones.

use super::catalogue::{
    case_a, case_d, chain_of_no_time, graph_of, no_time_at_the_ends, no_time_beside, one_behind_all,
};
use super::miscounts::{mistaken, MISCOUNTS};
use crate::reference::graph::{Graph, MOST_VERTICES};
use crate::reference::record::{Numbers, RunRecord};
use crate::reference::schedule::{record_at, spans};
use std::collections::BTreeSet;

/// A name, the graph, and the times.
pub fn runs() -> Vec<(&'static str, Graph, Vec<u32>)> {
    let [a, d, chain, ends, beside] =
        [case_a(), case_d(), chain_of_no_time(), no_time_at_the_ends(), no_time_beside()].map(|lists| graph_of(&lists));
    let full = |name: &'static str, graph: &Graph| (name, graph.clone(), graph.wcets.clone());
    let with = |name: &'static str, graph: &Graph, times: &[u32]| (name, graph.clone(), times.to_vec());
    vec![
        full("A", &a),
        with("A, 2 takes no time", &a, &[4, 9, 0, 3]),
        with("A, 0 takes no time", &a, &[0, 9, 6, 3]),
        with("A, nothing takes time", &a, &[0; 4]),
        full("D", &d),
        with("E", &d, &[0, 2, 2, 5, 1, 6, 0]),
        full("a chain of no time", &chain),
        full("no time at the ends", &ends),
        full("no time beside", &beside),
        full("one behind 127", &one_behind_all()),
    ]
}

/// A name, the graph, and the record.
pub fn records() -> Vec<(&'static str, Graph, RunRecord)> {
    let [a, chain, beside] = [case_a(), chain_of_no_time(), no_time_beside()].map(|lists| graph_of(&lists));
    let four = &[0, 9, 6, 3];
    let written: [(&str, &Graph, u64, &[u32], &[u8]); 23] = [
        ("A at 4", &a, 4, four, &[0, 0, 0, 2]),
        ("A at 4, one too low", &a, 4, four, &[0, 0, 0, 1]),
        ("A at 4, one too high", &a, 4, four, &[0, 0, 0, 3]),
        ("A at 4, 1 for the first", &a, 4, four, &[1, 0, 0, 2]),
        ("A at 4, 255 for the first", &a, 4, four, &[255, 0, 0, 2]),
        ("A at 4, those of instant 3", &a, 4, four, &[0, 1, 1, 2]),
        ("A at 4, all zero", &a, 4, four, &[0, 0, 0, 0]),
        ("A at 4, a 1 at place 4", &a, 4, four, &[0, 0, 0, 2, 1]),
        ("A at 4, a 1 at place 127", &a, 4, four, &at_place_127([0, 0, 0, 2])),
        ("A at 0, all that stand before", &a, 0, &[4, 9, 6, 3], &[0, 1, 1, 3]),
        ("A at 16", &a, 16, &[0; 4], &[0; 4]),
        ("A at 16, a number left", &a, 16, &[0; 4], &[0, 0, 0, 1]),
        ("1 ahead of 0", &a, 7, &[4, 0, 6, 3], &[0, 1, 1, 2]),
        ("1 ahead of 0, taken for finished", &a, 7, &[4, 0, 6, 3], &[0, 1, 1, 1]),
        ("1 ahead of 0, both finish", &a, 7, &[1, 0, 6, 3], &[0, 1, 1, 2]),
        ("the chain at 1", &chain, 1, &[1, 0, 0, 0, 3], &[0, 1, 1, 1, 1]),
        ("the chain at 1, by the remainders", &chain, 1, &[1, 0, 0, 0, 3], &[0, 1, 0, 0, 0]),
        ("the chain at 2, told to 1", &chain, 2, &[0, 0, 0, 0, 3], &[0, 0, 1, 1, 1]),
        ("the chain at 2, told to 2", &chain, 2, &[0, 0, 0, 0, 3], &[0, 0, 0, 1, 1]),
        ("the chain at 2, told to 3", &chain, 2, &[0, 0, 0, 0, 3], &[0, 0, 0, 0, 1]),
        ("beside at 1", &beside, 1, &[1, 0, 3], &[0, 1, 2]),
        ("beside at 1, by the remainders", &beside, 1, &[1, 0, 3], &[0, 1, 1]),
        ("beside at 2, told once", &beside, 2, &[0, 0, 3], &[0, 0, 1]),
    ];
    let record = |graph: &Graph, instant: u64, left: &[u32], numbers: &[u8]| {
        let mut record = RunRecord { n: graph.vertices() as u64, instant, ..RunRecord::zero() };
        record.remaining[..left.len()].copy_from_slice(left);
        record.waiting[..numbers.len()].copy_from_slice(numbers);
        record
    };
    written.map(|(name, graph, t, left, numbers)| (name, graph.clone(), record(graph, t, left, numbers))).to_vec()
}

fn at_place_127(begin: [u8; 4]) -> Numbers {
    let mut numbers = [0; MOST_VERTICES];
    numbers[..4].copy_from_slice(&begin);
    numbers[127] = 1;
    numbers
}

/// The records of a run at its start, at each instant at which a vertex finishes, and just before.
pub fn around_ends(graph: &Graph, times: &[u32]) -> Vec<RunRecord> {
    let ends = spans(graph, times).into_iter().flat_map(|span| [span.end.saturating_sub(1), span.end]);
    let instants: BTreeSet<u64> = std::iter::once(0).chain(ends).collect();
    instants.into_iter().map(|instant| record_at(graph, times, instant)).collect()
}

/// One of a run's records with other numbers: one too high and too low, one from N on, those of the record before and of the
/// next, a vertex mistaken for finished or not, and all counted wrongly. Of a large graph the first vertex, one between and
/// the last stand for all.
pub fn one_step_away(graph: &Graph, records: &[RunRecord], i: usize) -> Vec<RunRecord> {
    let (record, n) = (&records[i], graph.vertices());
    let vertices: Vec<usize> = if n < 8 { (0..n).collect() } else { vec![0, n / 2, n - 1] };
    let mut others = Vec::new();
    let mut with = |v: usize, number: u8| {
        let mut other = record.waiting;
        other[v] = number;
        others.push(other);
    };
    for &v in &vertices {
        with(v, record.waiting[v].wrapping_add(1));
        with(v, record.waiting[v].wrapping_sub(1));
    }
    if n < MOST_VERTICES {
        [n, MOST_VERTICES - 1].iter().for_each(|&past| [1, 255].iter().for_each(|&number| with(past, number)));
    }
    others.extend([i.wrapping_sub(1), i + 1].iter().filter_map(|&i| records.get(i)).map(|other| other.waiting));
    others.extend(vertices.iter().map(|&v| mistaken(graph, &record.remaining, v)));
    others.extend(MISCOUNTS.iter().map(|(_, count)| count(graph, &record.remaining)));
    others.retain(|other| *other != record.waiting);
    others.into_iter().map(|waiting| RunRecord { waiting, ..record.clone() }).collect()
}
