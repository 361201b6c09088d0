//! The log of a frame: which vertex ran when, as records of 8 bytes. And the log of a list schedule.

use super::graph::{Graph, RECORD};
use super::refusal::{refuse_if, Refusal};
use super::schedule::{judge_times, spans};

pub const START: u8 = 0x53;
pub const STOP: u8 = 0x50;
pub const LONGEST_LOG: usize = 65_536;

/// What a record says. The records of a log ascend strictly, by instant, stops before starts, then vertex.
#[derive(Clone, Copy, Debug, PartialEq, Eq, PartialOrd, Ord)]
pub struct Event {
    pub instant: u32,
    pub starts: bool,
    pub vertex: u8,
}

impl Event {
    pub fn start(instant: u64, vertex: usize) -> Event {
        Event { instant: instant as u32, starts: true, vertex: vertex as u8 }
    }

    pub fn stop(instant: u64, vertex: usize) -> Event {
        Event { starts: false, ..Event::start(instant, vertex) }
    }

    /// None where the kind is unknown or a spare byte is set.
    pub fn from_record(record: &[u8]) -> Option<Event> {
        let instant = u32::from_le_bytes(record[4..RECORD].try_into().ok()?);
        let is_known = [START, STOP].contains(&record[0]) && record[2..4] == [0, 0];
        is_known.then_some(Event { instant, starts: record[0] == START, vertex: record[1] })
    }

    pub fn record(self) -> [u8; RECORD] {
        let i = self.instant.to_le_bytes();
        [if self.starts { START } else { STOP }, self.vertex, 0, 0, i[0], i[1], i[2], i[3]]
    }
}

pub fn bytes_of(events: &[Event]) -> Vec<u8> {
    events.iter().flat_map(|event| event.record()).collect()
}

/// The log of the list schedule with these times, where `room` bytes are enough for it.
pub fn log(graph: &Graph, times: &[u32], room: usize) -> Result<Vec<u8>, Refusal> {
    judge_times(graph, times)?;
    let log = bytes_of(&events_of_run(graph, times));
    refuse_if(15, room < log.len())?;
    Ok(log)
}

/// A vertex of the list schedule that takes time starts once and stops once; one that takes none has no record.
pub fn events_of_run(graph: &Graph, times: &[u32]) -> Vec<Event> {
    let spans = spans(graph, times);
    let with_time = (0..graph.vertices()).filter(|&v| times[v] > 0);
    let mut events: Vec<Event> =
        with_time.flat_map(|v| [Event::start(spans[v].begin, v), Event::stop(spans[v].end, v)]).collect();
    events.sort_unstable();
    events
}
