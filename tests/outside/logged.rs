//! The kinds of logs that can be judged wrongly: each has to be asked for.

use crate::reference::bounds::bounds;
use crate::reference::graph::{Graph, MOST_VERTICES, RECORD};
use crate::reference::late::finish;
use crate::reference::log::{bytes_of, events_of_run, Event, LONGEST_LOG};
use crate::reference::refusal::Refusal;
use crate::reference::replay::{replay, stretches, Replay};
use std::collections::BTreeSet;

/// A log that was asked for, of an accepted graph, and what it comes to where there is room.
pub struct Logged<'a> {
    graph: &'a Graph,
    log: &'a [u8],
    outcome: Result<Replay, Refusal>,
}

/// Where among the places that a number can have.
#[derive(PartialEq)]
enum Spot {
    First,
    Between,
    Last,
}
use Spot::{Between, First, Last};

pub const LOGS: [(&str, fn(&Logged) -> bool); 29] = [
    ("empty", |l| l.log.is_empty()),
    ("of a list schedule", |l| l.accepted(|r| r.finish > 0 && l.log == bytes_of(&events_of_run(l.graph, &r.times)))),
    ("earlier than it", |l| l.accepted(|r| r.finish < finish(l.graph, &r.times).unwrap() as u64)),
    ("later than it", |l| l.accepted(|r| r.finish > finish(l.graph, &r.times).unwrap() as u64)),
    ("at the bound", |l| l.accepted(|r| r.finish > 0 && r.finish == bounds(l.graph).ticks)),
    ("a vertex set aside", |l| l.accepted(|_| l.has_neighbours(|a, b| a < b))),
    ("a stop and a start at one instant", |l| l.accepted(|_| l.has_neighbours(|a, b| a == b))),
    ("one absent between two", |l| l.accepted(|r| l.has_absent_between(&r.times))),
    ("65,536 bytes", |l| l.accepted(|_| l.log.len() == LONGEST_LOG)),
    ("128,000,000", |l| l.accepted(|r| r.finish == 128_000_000)),
    ("18 broken off", |l| l.is_refused(18) && l.log.len() % RECORD != 0),
    ("18 too long", |l| l.is_refused(18) && l.log.len() % RECORD == 0 && l.log.len() > LONGEST_LOG),
    ("18 running at the end", |l| l.is_refused(18) && l.is_short() && l.begins_well() && l.place() == Some(0)),
    ("18 first", |l| l.is_refused(18) && l.is_short() && !l.begins_well()),
    ("18 between", |l| l.is_refused(18) && l.is_short() && l.spot(0..l.records()) == Between),
    ("18 last", |l| l.is_refused(18) && l.is_short() && l.spot(0..l.records()) == Last),
    ("19 first", |l| l.is_refused(19) && l.spot(l.starts()) == First),
    ("19 between", |l| l.is_refused(19) && l.spot(l.starts()) == Between),
    ("19 last", |l| l.is_refused(19) && l.spot(l.starts()) == Last),
    ("19 past absent ones", |l| l.is_refused(19) && l.is_past_absent_ones()),
    // the first start of all can't be one too many
    ("20 first", |l| l.is_refused(20) && l.spot(l.starts().into_iter().skip(1)) == First),
    ("20 between", |l| l.is_refused(20) && l.spot(l.starts().into_iter().skip(1)) == Between),
    ("20 last", |l| l.is_refused(20) && l.spot(l.starts()) == Last),
    ("21 first", |l| l.is_refused(21) && l.spot(0..l.graph.vertices()) == First),
    ("21 between", |l| l.is_refused(21) && l.spot(0..l.graph.vertices()) == Between),
    ("21 last", |l| l.is_refused(21) && l.spot(0..l.graph.vertices()) == Last),
    ("22 first", |l| l.is_refused(22) && l.place() == Some(0)),
    ("22 between", |l| l.is_refused(22) && l.spot(l.instants()) == Between),
    ("22 last", |l| l.is_refused(22) && l.spot(l.instants()) == Last),
];

impl Logged<'_> {
    pub fn of<'a>(graph: &'a Graph, log: &'a [u8]) -> Logged<'a> {
        Logged { graph, log, outcome: replay(graph, log, MOST_VERTICES) }
    }

    fn accepted(&self, is: impl Fn(&Replay) -> bool) -> bool {
        self.outcome.as_ref().is_ok_and(is)
    }

    fn is_refused(&self, number: u32) -> bool {
        self.outcome.as_ref().is_err_and(|refusal| refusal.number == number)
    }

    fn place(&self) -> Option<usize> {
        self.outcome.as_ref().err().map(|refusal| refusal.place)
    }

    fn spot(&self, places: impl IntoIterator<Item = usize>) -> Spot {
        let places: Vec<usize> = places.into_iter().collect();
        match self.place() {
            place if place == places.first().copied() => First,
            place if place == places.last().copied() => Last,
            _ => Between,
        }
    }

    fn is_short(&self) -> bool {
        self.log.len() % RECORD == 0 && self.log.len() <= LONGEST_LOG
    }

    fn records(&self) -> usize {
        self.log.len() / RECORD
    }

    /// The first record is fine.
    fn begins_well(&self) -> bool {
        let first = self.log.chunks(RECORD).next().and_then(Event::from_record);
        first.is_some_and(|e| e.starts && (e.vertex as usize) < self.graph.vertices() && e.instant <= 128_000_000)
    }

    /// Of a log in form.
    fn events(&self) -> Vec<Event> {
        self.log.chunks(RECORD).map(|record| Event::from_record(record).unwrap()).collect()
    }

    fn starts(&self) -> Vec<usize> {
        self.events().iter().enumerate().filter(|(_, event)| event.starts).map(|(place, _)| place).collect()
    }

    /// At which a core can idle: 0 and the log's, before the last start. Whoever waits starts later.
    fn instants(&self) -> Vec<usize> {
        let events = self.events();
        let last = events.iter().filter(|event| event.starts).map(|event| event.instant).max().unwrap_or(0);
        let all: BTreeSet<u32> = std::iter::once(0).chain(events.iter().map(|event| event.instant)).collect();
        all.into_iter().filter(|&instant| instant < last).map(|instant| instant as usize).collect()
    }

    /// Whether two stretches of one vertex that follow each other are like this: the end of one, the begin of the next.
    fn has_neighbours(&self, are: impl Fn(u32, u32) -> bool) -> bool {
        let all = stretches(self.graph.vertices(), &self.events());
        all.iter().any(|ran| ran.windows(2).any(|two| are(two[0].end, two[1].start)))
    }

    fn has_absent_between(&self, times: &[u32]) -> bool {
        let (before, after) = (self.graph.predecessors(), self.graph.successors());
        let some_ran = |vertices: &[usize]| vertices.iter().any(|&v| times[v] > 0);
        (0..times.len()).any(|v| times[v] == 0 && some_ran(&before[v]) && some_ran(&after[v]))
    }

    /// None of the predecessors of what starts too early has a record.
    fn is_past_absent_ones(&self) -> bool {
        let events = self.events();
        let early = events[self.place().unwrap()].vertex as usize;
        let before = &self.graph.predecessors()[early];
        before.iter().all(|&u| events.iter().all(|event| event.vertex as usize != u))
    }
}
