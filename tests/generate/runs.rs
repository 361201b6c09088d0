//! Execution times and run records: of real runs, of none, damaged, and with wrong numbers of unfinished predecessors.

use super::miscounts::{mistaken, MISCOUNTS};
use super::random::Random;
use crate::reference::graph::{Graph, MOST_VERTICES};
use crate::reference::record::{ready, Numbers, RunRecord, LATEST};
use crate::reference::schedule::{record_at, spans};

/// Times that suit the graph.
pub fn times(random: &mut Random, graph: &Graph) -> Vec<u32> {
    let style = random.below(10);
    let one = |random: &mut Random, c: u32| match style {
        0 => 0,
        1..=2 => c,
        3..=4 if random.one_in(3) => 0,
        5..=6 => c - random.below(c.min(2) as usize + 1) as u32,
        _ => random.between(0, c as usize) as u32,
    };
    graph.wcets.iter().map(|&c| one(random, c)).collect()
}

/// Times that may have another length than the graph, or be above a WCET.
pub fn any_times(random: &mut Random, graph: &Graph) -> Vec<u32> {
    let mut times = times(random, graph);
    if random.one_in(5) {
        for _ in 0..random.pick(&[1, 1, 2]) {
            let v = random.below(times.len());
            times[v] = random.pick(&[graph.wcets[v] + 1, graph.wcets[v].max(1) * 2, u32::MAX]);
        }
    }
    if random.one_in(8) {
        let n = times.len();
        times.resize(random.pick(&[0, n - 1, n + 1, n + 1, 2 * n, 200]), 0);
    }
    times
}

/// A record that a run of the graph has at some instant, its start and its end among them.
pub fn reached(random: &mut Random, graph: &Graph) -> RunRecord {
    let times = times(random, graph);
    let instant = instant(random, graph, &times);
    record_at(graph, &times, instant)
}

/// An instant of the run with these times.
fn instant(random: &mut Random, graph: &Graph, times: &[u32]) -> u64 {
    let spans = spans(graph, times);
    let finish = spans.iter().map(|s| s.end).max().unwrap_or(0);
    let span = random.pick(&spans);
    // around a start or a finish is where marks come and go, and numbers fall
    let near = random.pick(&[span.begin, span.end, span.end.saturating_sub(1), span.begin + 1]);
    let anywhere = random.between(0, finish as usize) as u64;
    let instant = random.pick(&[0, anywhere, anywhere, near, near, near, finish.saturating_sub(1), finish]);
    instant.min(finish)
}

/// A record that suits the graph although no run may reach it: any remainders, any marks that are allowed.
pub fn unreached(random: &mut Random, graph: &Graph) -> RunRecord {
    let mut record = RunRecord::zero();
    record.n = graph.vertices() as u64;
    for v in 0..graph.vertices() {
        let any = random.between(0, graph.wcets[v] as usize) as u32;
        record.remaining[v] = random.pick(&[0, 0, any]);
    }
    let mut free = graph.cores.clone();
    for (v, is_ready) in ready(graph, &record.remaining).into_iter().enumerate() {
        let kind = graph.kinds[v] as usize;
        if is_ready && free[kind] > 0 && random.one_in(2) {
            free[kind] -= 1;
            record.mark(v);
        }
    }
    let room = LATEST as u64 - total(&record);
    let anywhere = random.up_to(room);
    record.instant = random.pick(&[0, 1, room, anywhere]);
    record.numbered(graph)
}

/// A record with one thing wrong, or changed so little that it still suits. The numbers of unfinished predecessors mostly go
/// with the remainders, so that nothing else is wrong.
pub fn damaged(random: &mut Random, graph: &Graph) -> RunRecord {
    let mut record = if random.one_in(2) { reached(random, graph) } else { unreached(random, graph) };
    let n = graph.vertices();
    let v = random.below(n);
    match random.below(15) {
        0 => record.remaining[v] = random.pick(&[graph.wcets[v] + 1, u32::MAX, 1 << 31]),
        1 => record.mark(v),
        2 => (0..n).for_each(|v| record.mark(v)),
        3 => mark_all_ready(graph, &mut record),
        4 => record.ran[random.below(2)] ^= 1 << random.below(64),
        5 if n < MOST_VERTICES => record.remaining[random.between(n, MOST_VERTICES - 1)] = random.pick(&[1, u32::MAX]),
        6 if n < MOST_VERTICES => record.mark(random.between(n, MOST_VERTICES - 1)),
        7 => record.n = random.pick(&[0, n as u64 - 1, n as u64 + 1, n as u64 + 256, n as u64 + (1 << 32), u64::MAX]),
        8 => record = RunRecord::zero(),
        9 => record.ran = [random.next(), random.next()],
        10..=12 => mark_about_all_cores(random, graph, &mut record),
        _ => record.instant = late_instant(random, &record),
    }
    if random.one_in(6) {
        record
    } else {
        record.numbered(graph)
    }
}

/// A record that suits but for its numbers of unfinished predecessors, where these aren't right by chance: one of them too high
/// or too low; one from N on; two changed places; one vertex mistaken for finished, or not; those of another instant of the
/// same run; or all counted wrongly.
pub fn misnumbered(random: &mut Random, graph: &Graph) -> RunRecord {
    let n = graph.vertices();
    let times = times(random, graph);
    let instants = [(); 2].map(|_| instant(random, graph, &times));
    let mut record = record_at(graph, &times, instants[0]);
    if random.one_in(3) {
        record = unreached(random, graph);
    }
    match random.below(12) {
        0..=3 => one_wrong(random, n, &mut record.waiting),
        4 if n < MOST_VERTICES => {
            let past = random.between(n, MOST_VERTICES - 1);
            record.waiting[random.pick(&[n, past, MOST_VERTICES - 1])] = random.pick(&[1, 255]);
        }
        5 => record.waiting.swap(random.below(n), random.below(n)),
        6..=7 => record.waiting = mistaken(graph, &record.remaining, random.below(n)),
        8 => record = RunRecord { waiting: record_at(graph, &times, instants[1]).waiting, ..record },
        _ => record.waiting = random.pick(&MISCOUNTS).1(graph, &record.remaining),
    }
    record
}

/// By one, mostly, of the first vertex, the last, or any. One less than 0 is 255.
fn one_wrong(random: &mut Random, n: usize, numbers: &mut Numbers) {
    let mut some: Vec<usize> = (0..n).collect();
    if random.one_in(2) && numbers[..n].iter().any(|&number| number > 0) {
        some.retain(|&v| numbers[v] > 0);
    }
    let any = random.pick(&some);
    let v = random.pick(&[some[0], some[some.len() - 1], any, any]);
    let off = random.pick(&[1, 1, 1, 255, 255, 255, 2, 64, 128, 254]);
    numbers[v] = numbers[v].wrapping_add(off);
}

/// Instants where the sum with the remainders is just too large, or would wrap to a small one.
fn late_instant(random: &mut Random, record: &RunRecord) -> u64 {
    let total = total(record);
    let room = (LATEST as u64).saturating_sub(total);
    let wrapping = 0u64.wrapping_sub(total);
    let wrapping_late = wrapping.wrapping_add(random.up_to(LATEST as u64));
    random.pick(&[
        room,
        room + 1,
        LATEST as u64,
        LATEST as u64 + 1,
        wrapping,
        wrapping_late,
        1 << 32,
        1 << 63,
        u64::MAX,
    ])
}

/// Of one kind, as many marks on ready vertices as it has cores, or one more.
fn mark_about_all_cores(random: &mut Random, graph: &Graph, record: &mut RunRecord) {
    let ready = ready(graph, &record.remaining);
    let kind = graph.kinds[random.below(graph.vertices())];
    let many = graph.cores[kind as usize] as usize + random.below(2);
    record.ran = [0; 2];
    (0..graph.vertices()).filter(|&v| ready[v] && graph.kinds[v] == kind).take(many).for_each(|v| record.mark(v));
}

fn mark_all_ready(graph: &Graph, record: &mut RunRecord) {
    let ready = ready(graph, &record.remaining);
    (0..graph.vertices()).filter(|&v| ready[v]).for_each(|v| record.mark(v));
}

fn total(record: &RunRecord) -> u64 {
    record.remaining.iter().map(|&r| r as u64).sum()
}
