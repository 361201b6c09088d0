//! Replay of a recorded frame: which logs are work-conserving schedules of the graph.
//!
//! Nothing is played here. A log in form is the stretches that each vertex ran, and these tell at once when each vertex
//! was finished: when it had run for the last time and all its predecessors were finished. So they tell who was ready at
//! any instant, the log's later records too.

use super::graph::{Graph, RECORD};
use super::log::{Event, LONGEST_LOG};
use super::order::topological;
use super::record::LATEST;
use super::refusal::{refuse_first, refuse_if, Refusal};
use std::collections::BTreeSet;
use std::ops::Range;

#[derive(Clone, Debug, PartialEq, Eq)]
pub struct Replay {
    pub finish: u64,
    pub times: Vec<u32>,
}

/// The finish and the times of a log, for a lent list of `room` places. Each number is tested over the whole log before
/// the next one is looked at.
pub fn replay(graph: &Graph, log: &[u8], room: usize) -> Result<Replay, Refusal> {
    let events = events_of(graph.vertices(), log)?;
    let stretches = stretches(graph.vertices(), &events);
    let ready = ready_spans(graph, &stretches);
    let times: Vec<u32> =
        stretches.iter().map(|ran| ran.iter().map(|stretch| stretch.end - stretch.start).sum()).collect();
    refuse_first(19, 0, events.iter().map(|e| e.starts && e.instant < ready[e.vertex as usize].start))?;
    refuse_first(20, 0, crowded(graph, &events))?;
    refuse_first(21, 0, times.iter().zip(&graph.wcets).map(|(time, wcet)| time > wcet))?;
    if let Some(instant) = first_idle(graph, &events, &stretches, &ready) {
        return Err(Refusal { number: 22, place: instant as usize });
    }
    refuse_if(15, room < graph.vertices())?;
    let finish = ready.iter().map(|span| span.end).max().expect("a graph has a vertex");
    Ok(Replay { finish: finish as u64, times })
}

/// The records of a log in form. A wrong length has place 0, and so has a vertex that still runs at the end; else 18 is at
/// the first record that is at fault after those before it, which are fine.
fn events_of(n: usize, log: &[u8]) -> Result<Vec<Event>, Refusal> {
    refuse_if(18, log.len() % RECORD != 0 || log.len() > LONGEST_LOG)?;
    let mut events: Vec<Event> = Vec::new();
    let mut runs = vec![false; n];
    for (place, record) in log.chunks(RECORD).enumerate() {
        let is_fine = |e: &Event| {
            let v = e.vertex as usize;
            v < n && e.instant as u128 <= LATEST && events.last() < Some(e) && runs[v] != e.starts
        };
        let event = Event::from_record(record).filter(is_fine).ok_or(Refusal { number: 18, place })?;
        runs[event.vertex as usize] = event.starts;
        events.push(event);
    }
    refuse_if(18, runs.contains(&true))?;
    Ok(events)
}

/// From when until when each vertex ran, in order.
pub fn stretches(n: usize, events: &[Event]) -> Vec<Vec<Range<u32>>> {
    let mut stretches: Vec<Vec<Range<u32>>> = vec![Vec::new(); n];
    for event in events {
        let ran = &mut stretches[event.vertex as usize];
        match ran.last_mut() {
            Some(stretch) if !event.starts => stretch.end = event.instant,
            _ => ran.push(event.instant..event.instant),
        }
    }
    stretches
}

/// From when until when each vertex was ready: from when its predecessors were finished until it was finished itself. One
/// that took no time was finished at once, and never ready; what waits for it waits for its predecessors.
pub fn ready_spans(graph: &Graph, stretches: &[Vec<Range<u32>>]) -> Vec<Range<u32>> {
    let before = graph.predecessors();
    let mut ready = vec![0..0; graph.vertices()];
    for v in topological(graph) {
        let opened = before[v].iter().map(|&u| ready[u].end).max().unwrap_or(0);
        let ran = stretches[v].last().map_or(0, |stretch| stretch.end);
        ready[v] = opened..opened.max(ran);
    }
    ready
}

/// Of each record, whether after it more vertices of its kind run than the kind has cores, and it is a start.
fn crowded<'a>(graph: &'a Graph, events: &'a [Event]) -> impl Iterator<Item = bool> + 'a {
    let mut run = vec![0; graph.cores.len()];
    events.iter().map(move |event| {
        let kind = graph.kinds[event.vertex as usize] as usize;
        run[kind] = if event.starts { run[kind] + 1 } else { run[kind] - 1 };
        event.starts && run[kind] > graph.cores[kind] as usize
    })
}

/// The first instant at which fewer vertices of a kind run than are ready and than it has cores. Between two instants of
/// the log nobody starts, stops, finishes or becomes ready.
fn first_idle(graph: &Graph, events: &[Event], stretches: &[Vec<Range<u32>>], ready: &[Range<u32>]) -> Option<u32> {
    let instants: BTreeSet<u32> = std::iter::once(0).chain(events.iter().map(|event| event.instant)).collect();
    instants.into_iter().find(|instant| {
        let (mut run, mut could) = (vec![0; graph.cores.len()], vec![0; graph.cores.len()]);
        for v in 0..graph.vertices() {
            run[graph.kinds[v] as usize] += runs_at(&stretches[v], *instant) as u8;
            could[graph.kinds[v] as usize] += ready[v].contains(instant) as u8;
        }
        (0..graph.cores.len()).any(|s| run[s] < could[s].min(graph.cores[s]))
    })
}

pub fn runs_at(stretches: &[Range<u32>], instant: u32) -> bool {
    let begun = stretches.partition_point(|stretch| stretch.start <= instant);
    begun > 0 && instant < stretches[begun - 1].end
}
