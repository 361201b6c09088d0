//! The list schedule: start, one tick, a whole run.
//!
//! A tick is played by the rule, and the numbers of unfinished predecessors are counted afresh at each. A whole run is not
//! made of ticks: as a vertex that runs runs on until it has finished, the run is a queue of finishes, and its cost doesn't
//! grow with the times.

use super::graph::Graph;
use super::record::{finished, ready, RunRecord};
use super::refusal::{refuse_first, refuse_if, Refusal};
use std::cmp::Reverse;
use std::collections::{BTreeSet, BinaryHeap};

#[derive(Clone, Copy, Debug, PartialEq, Eq)]
pub enum Ticked {
    Moved,
    Done,
}

/// Numbers 13 and 14, of the execution times.
pub fn judge_times(graph: &Graph, times: &[u32]) -> Result<(), Refusal> {
    refuse_if(13, times.len() != graph.vertices())?;
    refuse_first(14, 0, times.iter().zip(&graph.wcets).map(|(e, c)| e > c))
}

pub fn start(graph: &Graph, times: &[u32]) -> Result<RunRecord, Refusal> {
    judge_times(graph, times)?;
    let mut record = RunRecord::zero();
    record.n = graph.vertices() as u64;
    record.remaining[..times.len()].copy_from_slice(times);
    Ok(record.numbered(graph))
}

/// One tick; a refusal leaves the record to the caller as it was.
pub fn tick(graph: &Graph, record: &RunRecord) -> Result<(Ticked, RunRecord), Refusal> {
    refuse_if(16, !record.suits(graph))?;
    if finished(graph, &record.remaining).iter().all(|&f| f) {
        return Ok((Ticked::Done, record.clone()));
    }
    let mut next = record.clone();
    next.instant += 1;
    next.ran = [0; 2];
    for v in chosen(graph, record) {
        next.remaining[v] -= 1;
        if next.remaining[v] > 0 {
            next.mark(v);
        }
    }
    Ok((Ticked::Moved, next.numbered(graph)))
}

/// Who runs in the tick that begins: first those that ran in the tick before, then the lowest numbered.
fn chosen(graph: &Graph, record: &RunRecord) -> Vec<usize> {
    let ready = ready(graph, &record.remaining);
    let mut free = graph.cores.clone();
    let mut chosen = Vec::new();
    for ran_before in [true, false] {
        for v in 0..graph.vertices() {
            let kind = graph.kinds[v] as usize;
            if ready[v] && record.is_marked(v) == ran_before && free[kind] > 0 {
                free[kind] -= 1;
                chosen.push(v);
            }
        }
    }
    chosen
}

/// When a vertex first ran and when it finished; both are the finish where it took no time.
#[derive(Clone, Copy, Debug, Default, PartialEq, Eq)]
pub struct Span {
    pub begin: u64,
    pub end: u64,
}

/// The whole run for a lent list of `room` places: each vertex's finish instant.
pub fn run(graph: &Graph, times: &[u32], room: usize) -> Result<Vec<u32>, Refusal> {
    judge_times(graph, times)?;
    refuse_if(15, room < graph.vertices())?;
    Ok(spans(graph, times).iter().map(|s| s.end as u32).collect())
}

/// The span of each vertex in the list schedule with these times.
pub fn spans(graph: &Graph, times: &[u32]) -> Vec<Span> {
    let mut board = Board::new(graph, times);
    let before = graph.predecessors();
    (0..graph.vertices()).filter(|&v| before[v].is_empty()).for_each(|v| board.open(v));
    board.hand_out_cores();
    while let Some(instant) = board.next_finish() {
        board.finish_all_at(instant);
        board.hand_out_cores();
    }
    board.spans
}

struct Board<'a> {
    graph: &'a Graph,
    times: &'a [u32],
    after: Vec<Vec<usize>>,
    /// how many predecessors are unfinished
    waiting: Vec<usize>,
    free: Vec<u8>,
    ready: Vec<BTreeSet<usize>>,
    running: BinaryHeap<Reverse<(u64, usize)>>,
    instant: u64,
    spans: Vec<Span>,
}

impl Board<'_> {
    fn new<'a>(graph: &'a Graph, times: &'a [u32]) -> Board<'a> {
        Board {
            graph,
            times,
            after: graph.successors(),
            waiting: graph.predecessors().iter().map(Vec::len).collect(),
            free: graph.cores.clone(),
            ready: vec![BTreeSet::new(); graph.cores.len()],
            running: BinaryHeap::new(),
            instant: 0,
            spans: vec![Span::default(); graph.vertices()],
        }
    }

    /// `v` has no unfinished predecessor any more. Without time of its own it finishes at once and takes no core.
    fn open(&mut self, v: usize) {
        if self.times[v] > 0 {
            self.ready[self.graph.kinds[v] as usize].insert(v);
            return;
        }
        self.spans[v].begin = self.instant;
        self.finish(v);
    }

    fn finish(&mut self, v: usize) {
        self.spans[v].end = self.instant;
        for w in self.after[v].clone() {
            self.waiting[w] -= 1;
            if self.waiting[w] == 0 {
                self.open(w);
            }
        }
    }

    fn next_finish(&self) -> Option<u64> {
        self.running.peek().map(|Reverse((instant, _))| *instant)
    }

    /// All finishes of one instant come before any core is handed out again.
    fn finish_all_at(&mut self, instant: u64) {
        self.instant = instant;
        while self.next_finish() == Some(instant) {
            if let Some(Reverse((_, v))) = self.running.pop() {
                self.free[self.graph.kinds[v] as usize] += 1;
                self.finish(v);
            }
        }
    }

    fn hand_out_cores(&mut self) {
        for kind in 0..self.free.len() {
            while self.free[kind] > 0 {
                let Some(v) = self.ready[kind].pop_first() else {
                    break;
                };
                self.free[kind] -= 1;
                self.spans[v].begin = self.instant;
                self.running.push(Reverse((self.instant + self.times[v] as u64, v)));
            }
        }
    }
}

/// The record of the run with these times at an instant at or before its finish. Its numbers are of those that finish later.
pub fn record_at(graph: &Graph, times: &[u32], instant: u64) -> RunRecord {
    let mut record = start(graph, times).expect("times that suit the graph");
    let (spans, before) = (spans(graph, times), graph.predecessors());
    record.instant = instant;
    for (v, span) in spans.iter().enumerate() {
        let ran = instant.clamp(span.begin, span.end) - span.begin;
        record.remaining[v] -= ran as u32;
        if ran > 0 && instant < span.end {
            record.mark(v);
        }
        record.waiting[v] = before[v].iter().filter(|&&u| spans[u].end > instant).count() as u8;
    }
    record
}
