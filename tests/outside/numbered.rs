//! The kinds of run records whose numbers of unfinished predecessors can be judged or kept wrongly: each has to be asked for.
//! Where they are wrong, nothing else is.

use crate::generate::miscounts::{mistaken, MISCOUNTS};
use crate::reference::graph::{Graph, MOST_VERTICES};
use crate::reference::record::{finished, waiting, RunRecord};
use crate::reference::schedule::{tick, Ticked};

/// A record that was asked for, of an accepted graph, and the same with the right numbers, where that suits the graph.
pub struct Numbered<'a> {
    graph: &'a Graph,
    record: &'a RunRecord,
    right: RunRecord,
}

pub const RECORDS: [(&str, fn(&Numbered) -> bool); 31] = [
    ("at a start", |r| r.suits() && r.record.instant == 0 && r.record.ran == [0; 2] && r.some_wait()),
    ("on the way", |r| r.suits() && r.some_wait() && r.some_end_is_told()),
    ("no time behind one unfinished", |r| r.suits() && r.some_without_time_waits()),
    ("told on through no time", |r| r.suits() && r.is_told_on_through_no_time()),
    ("several ends in a tick", |r| r.suits() && r.ends_of_the_tick().len() > 1),
    ("two fall at once", |r| r.suits() && r.fall_of_the_tick().iter().any(|&by| by > 1)),
    ("127", |r| r.suits() && r.record.waiting.contains(&127)),
    ("done", |r| r.suits() && r.all_finished()),
    ("one too high, first", |r| r.one_wrong(|v, _| v == 0, 1)),
    ("one too high, between", |r| r.one_wrong(|v, n| v > 0 && v + 1 < n, 1)),
    ("one too high, last", |r| r.one_wrong(|v, n| v > 0 && v + 1 == n, 1)),
    ("one too high, vertex 127", |r| r.one_wrong(|v, _| v == 127, 1)),
    ("one too low, first", |r| r.one_wrong(|v, _| v == 0, -1)),
    ("one too low, between", |r| r.one_wrong(|v, n| v > 0 && v + 1 < n, -1)),
    ("one too low, last", |r| r.one_wrong(|v, n| v > 0 && v + 1 == n, -1)),
    ("one too low, vertex 127", |r| r.one_wrong(|v, _| v == 127, -1)),
    ("one too low, ready for it", |r| r.one_wrong(|_, _| true, -1) && r.makes_one_ready()),
    ("255 for 0", |r| r.one_wrong(|_, _| true, 255)),
    ("of the next tick", |r| r.is_wrong() && r.next().waiting == r.record.waiting),
    ("two changed places", |r| r.is_exchanged()),
    ("an end not told", |r| r.is_mistaken(true)),
    ("an end told too early", |r| r.is_mistaken(false)),
    ("wrong at the end", |r| r.is_wrong() && r.all_finished()),
    ("from N on, first", |r| r.one_wrong_at(|n| n)),
    ("from N on, last", |r| r.one_wrong_at(|_| MOST_VERTICES - 1)),
    (MISCOUNTS[0].0, |r| r.is_counted(0)),
    (MISCOUNTS[1].0, |r| r.is_counted(1)),
    (MISCOUNTS[2].0, |r| r.is_counted(2)),
    (MISCOUNTS[3].0, |r| r.is_counted(3)),
    (MISCOUNTS[4].0, |r| r.is_counted(4)),
    (MISCOUNTS[5].0, |r| r.is_counted(5)),
];

impl Numbered<'_> {
    pub fn of<'a>(graph: &'a Graph, record: &'a RunRecord) -> Option<Numbered<'a>> {
        let right = record.clone().numbered(graph);
        right.suits(graph).then_some(Numbered { graph, record, right })
    }

    fn n(&self) -> usize {
        self.graph.vertices()
    }

    fn suits(&self) -> bool {
        self.record.waiting == self.right.waiting
    }

    fn is_wrong(&self) -> bool {
        !self.suits()
    }

    /// The places of wrong numbers.
    fn wrong(&self) -> Vec<usize> {
        (0..MOST_VERTICES).filter(|&v| self.record.waiting[v] != self.right.waiting[v]).collect()
    }

    /// Of one vertex, by so much.
    fn one_wrong(&self, is: impl Fn(usize, usize) -> bool, by: i32) -> bool {
        match self.wrong()[..] {
            [v] => {
                let off = self.record.waiting[v] as i32 - self.right.waiting[v] as i32;
                v < self.n() && is(v, self.n()) && off == by
            }
            _ => false,
        }
    }

    fn one_wrong_at(&self, place: impl Fn(usize) -> usize) -> bool {
        self.n() < MOST_VERTICES && self.wrong() == [place(self.n())]
    }

    fn finished(&self) -> Vec<bool> {
        finished(self.graph, &self.record.remaining)
    }

    fn all_finished(&self) -> bool {
        self.finished().iter().all(|&done| done)
    }

    fn some_wait(&self) -> bool {
        self.right.waiting.iter().any(|&number| number > 0)
    }

    fn some_end_is_told(&self) -> bool {
        self.right.waiting != MISCOUNTS[1].1(self.graph, &self.record.remaining)
    }

    fn some_without_time_waits(&self) -> bool {
        let (done, after) = (self.finished(), self.graph.successors());
        (0..self.n()).any(|v| self.record.remaining[v] == 0 && !done[v] && !after[v].is_empty())
    }

    fn next(&self) -> RunRecord {
        match tick(self.graph, &self.right) {
            Ok((Ticked::Moved, next)) => next,
            _ => self.right.clone(),
        }
    }

    /// Who finishes with the tick.
    fn ends_of_the_tick(&self) -> Vec<usize> {
        let (now, then) = (self.finished(), finished(self.graph, &self.next().remaining));
        (0..self.n()).filter(|&v| then[v] && !now[v]).collect()
    }

    /// By how much the tick lowers each number.
    fn fall_of_the_tick(&self) -> Vec<u8> {
        let next = waiting(self.graph, &self.next().remaining);
        (0..self.n()).map(|v| self.right.waiting[v] - next[v]).collect()
    }

    /// One that never runs in the tick finishes with it, and someone waits for that.
    fn is_told_on_through_no_time(&self) -> bool {
        let after = self.graph.successors();
        self.ends_of_the_tick().iter().any(|&v| self.record.remaining[v] == 0 && !after[v].is_empty())
    }

    /// The number is 0 where someone unfinished is before the vertex, which has ticks left: it would run too early.
    fn makes_one_ready(&self) -> bool {
        self.wrong().iter().all(|&v| self.record.waiting[v] == 0 && self.record.remaining[v] > 0)
    }

    fn is_exchanged(&self) -> bool {
        match self.wrong()[..] {
            [u, v] => {
                let mut exchanged = self.right.waiting;
                exchanged.swap(u, v);
                exchanged == self.record.waiting
            }
            _ => false,
        }
    }

    /// Some vertex is taken for the contrary of what it is: unfinished where it is finished, or finished where it isn't.
    fn is_mistaken(&self, is_finished: bool) -> bool {
        let done = self.finished();
        let as_if = |v: usize| mistaken(self.graph, &self.record.remaining, v);
        self.is_wrong() && (0..self.n()).any(|v| done[v] == is_finished && as_if(v) == self.record.waiting)
    }

    fn is_counted(&self, miscount: usize) -> bool {
        self.is_wrong() && MISCOUNTS[miscount].1(self.graph, &self.record.remaining) == self.record.waiting
    }
}
