//! Logs of frames: of list schedules, of other work-conserving schedules, and with a fault planted for each number that
//! says no. As in a file, the larger number is planted first.

use super::conserving::{schedule, Manner};
use super::damage::damage;
use super::frames::written;
use super::graphs;
use super::lists::Record;
use super::random::Random;
use super::runs::times;
use crate::reference::graph::{Graph, MOST_VERTICES, RECORD};
use crate::reference::log::{bytes_of, events_of_run, Event, LONGEST_LOG, START, STOP};
use crate::reference::replay::{ready_spans, runs_at, stretches};
use std::collections::BTreeSet;
use std::ops::Range;

/// How many records the longest log has.
pub const MOST_RECORDS: usize = LONGEST_LOG / RECORD;

/// Two in five are good.
pub fn any(random: &mut Random, graph: &Graph) -> Vec<u8> {
    let mut times = times(random, graph);
    match random.below(20) {
        0..=2 => bytes_of(&events_of_run(graph, &times)),
        3..=6 => bytes_of(&conserving(random, graph, &times)),
        7 => {
            let records = random.pick(&[8, 30, 100, 400]);
            let events = conserving(random, graph, &times);
            bytes_of(&cut(random, graph, &events, records))
        }
        8..=16 => {
            if random.one_in(2) {
                times.iter_mut().zip(&graph.wcets).for_each(|(time, &wcet)| *time = wcet.min(1).max(*time));
            }
            let numbers = [random.between(18, 22) as u32, random.between(18, 22) as u32];
            let many = random.pick(&[1, 1, 1, 2]);
            with(random, graph, &times, &numbers[..many])
        }
        17..=18 => {
            let mut log = bytes_of(&conserving(random, graph, &times));
            damage(random, &mut log);
            log
        }
        _ => drawn(random, graph),
    }
}

pub fn conserving(random: &mut Random, graph: &Graph, times: &[u32]) -> Vec<Event> {
    let manner = Manner::any(random);
    schedule(random, graph, times, manner)
}

/// The same schedule with more records, where its stretches are long enough: they are cut by a stop and a start of a vertex
/// at one instant.
pub fn cut(random: &mut Random, graph: &Graph, events: &[Event], records: usize) -> Vec<Event> {
    let mut uncut: Vec<(usize, Range<u32>)> = Vec::new();
    for (v, ran) in stretches(graph.vertices(), events).into_iter().enumerate() {
        uncut.extend(ran.into_iter().map(|stretch| (v, stretch)));
    }
    let mut all = events.to_vec();
    while all.len() + 2 <= records && !uncut.is_empty() {
        let (v, stretch) = uncut.swap_remove(random.below(uncut.len()));
        if stretch.len() < 2 {
            continue;
        }
        let at = random.between(stretch.start as usize + 1, stretch.end as usize - 1) as u32;
        all.extend([Event::stop(at as u64, v), Event::start(at as u64, v)]);
        uncut.extend([(v, stretch.start..at), (v, at..stretch.end)]);
    }
    all.sort_unstable();
    all
}

/// A graph with work enough for the longest log, and a log of so many records, or of a few more or fewer.
pub fn longest(random: &mut Random) -> (Graph, Vec<u8>) {
    let n = random.between(20, MOST_VERTICES);
    let mut graph = graphs::of(random, n, 2_000);
    graph.wcets.iter_mut().for_each(|wcet| *wcet = (*wcet).max(500));
    let events = conserving(random, &graph, &graph.wcets);
    let records = random.pick(&[MOST_RECORDS, MOST_RECORDS, MOST_RECORDS - 2, MOST_RECORDS + 2]);
    let mut log = bytes_of(&cut(random, &graph, &events, records));
    if random.one_in(3) {
        let extra = random.pick(&[1, 7, 8, 9]);
        log.extend(vec![0; extra]);
    } else if random.one_in(3) {
        damage(random, &mut log);
    }
    (graph, log)
}

/// A log of a schedule with these times after each of the numbers, 18 to 22, has got its fault, where the graph has work
/// and vertices enough for it.
pub fn with(random: &mut Random, graph: &Graph, times: &[u32], numbers: &[u32]) -> Vec<u8> {
    let mut times = times.to_vec();
    if numbers.contains(&21) {
        let v = random.below(times.len());
        let v = random.pick(&[0, v, v, times.len() - 1]);
        times[v] = graph.wcets[v] + random.pick(&[1, 1, 2, 50]);
    }
    let mut events =
        if numbers.contains(&22) { idle(random, graph, &times) } else { conserving(random, graph, &times) };
    if numbers.contains(&20) {
        crowd(random, graph, &mut events);
    }
    if numbers.contains(&19) {
        start_early(random, graph, &mut events);
    }
    if numbers.contains(&18) {
        return out_of_form(random, graph, events);
    }
    bytes_of(&events)
}

/// A core idles: from the begin on, somewhere, or in the last stretch; or in two of these.
fn idle(random: &mut Random, graph: &Graph, times: &[u32]) -> Vec<Event> {
    let mut manner = Manner::any(random);
    manner.idle = random.one_in(2).then(|| random.below(4));
    let mut events = schedule(random, graph, times, manner);
    if manner.idle.is_some() && random.one_in(2) {
        return events;
    }
    if random.one_in(2) {
        let later = random.between(1, 4) as u32;
        events.iter_mut().for_each(|event| event.instant += later);
    } else {
        rest_before_the_end(random, &mut events);
    }
    events
}

/// The vertex that ends last rests for a tick of its last stretch, the first one or a later one, and ends a tick later.
fn rest_before_the_end(random: &mut Random, events: &mut Vec<Event>) {
    let Some(last) = events.pop() else {
        return;
    };
    let (v, end) = (last.vertex as usize, last.instant as u64);
    let start = events.iter().rposition(|event| event.vertex == last.vertex).expect("the start of what stops");
    let begin = events[start].instant as u64;
    let at = begin + random.up_to(end - 1 - begin);
    if at > begin {
        events.extend([Event::stop(at, v), Event::start(at + 1, v)]);
    } else {
        events[start] = Event::start(at + 1, v);
    }
    events.push(Event::stop(end + 1, v));
    events.sort_unstable();
}

/// One more tick of a vertex while all cores of its kind are taken by others.
fn crowd(random: &mut Random, graph: &Graph, events: &mut Vec<Event>) {
    let stretches = stretches(graph.vertices(), events);
    let ready = ready_spans(graph, &stretches);
    let instants: BTreeSet<u32> = events.iter().map(|event| event.instant).collect();
    let mut waiting = Vec::new();
    for t in instants {
        let runs: Vec<bool> = stretches.iter().map(|ran| runs_at(ran, t)).collect();
        let taken = |kind: u8| (0..graph.vertices()).filter(|&v| runs[v] && graph.kinds[v] == kind).count() as u64;
        let waits = |v: &usize| !runs[*v] && ready[*v].contains(&t) && taken(graph.kinds[*v]) == graph.cores_of(*v);
        waiting.extend((0..graph.vertices()).filter(waits).map(|v| (t as u64, v)));
    }
    if let Some((t, v)) = of_them(random, &waiting) {
        run_for_a_tick(events, t, v);
    }
}

/// One more tick of a vertex while a predecessor is unfinished; or the last that starts does so a tick earlier.
fn start_early(random: &mut Random, graph: &Graph, events: &mut Vec<Event>) {
    let ready = ready_spans(graph, &stretches(graph.vertices(), events));
    let last = events.iter_mut().rev().find(|event| event.starts);
    let just_opened = last.filter(|e| e.instant > 0 && e.instant == ready[e.vertex as usize].start);
    match just_opened {
        Some(start) if random.one_in(3) => {
            start.instant -= 1;
            events.sort_unstable();
        }
        _ => {
            let waiting: Vec<usize> = (0..graph.vertices()).filter(|&v| ready[v].start > 0).collect();
            if let Some(v) = of_them(random, &waiting) {
                let last = ready[v].start as u64 - 1;
                let any = random.up_to(last);
                run_for_a_tick(events, random.pick(&[0, any, last]), v);
            }
        }
    }
}

/// The first, the last, or any.
fn of_them<T: Copy>(random: &mut Random, choices: &[T]) -> Option<T> {
    match random.below(4) {
        0 => choices.first().copied(),
        1 => choices.last().copied(),
        _ => (!choices.is_empty()).then(|| random.pick(choices)),
    }
}

/// Of a vertex that doesn't run then.
fn run_for_a_tick(events: &mut Vec<Event>, instant: u64, v: usize) {
    events.extend([Event::start(instant, v), Event::stop(instant + 1, v)]);
    events.sort_unstable();
}

/// A wrong length, a vertex that runs at the end, or a record at fault: the first, the last or any.
fn out_of_form(random: &mut Random, graph: &Graph, mut events: Vec<Event>) -> Vec<u8> {
    let n = graph.vertices();
    if events.is_empty() {
        return written(random.pick(&["S0@0", "P0@0", "T0@0", "S0@5 S0@6"]));
    }
    match random.below(12) {
        0 => {
            let mut log = bytes_of(&events);
            let extra = random.between(1, RECORD - 1);
            log.extend((0..extra).map(|_| random.byte()));
            return log;
        }
        // the last record is a stop
        1 => drop(events.pop()),
        // one record more: as starts and stops take turns, it is at fault or makes a later one so
        2..=4 => {
            let event = of_them(random, &events).expect("a record");
            let any = random.below(n) as u8;
            let vertex = random.pick(&[event.vertex, any]);
            let instant = random.pick(&[event.instant, event.instant + 1, event.instant.saturating_sub(1)]);
            events.push(Event { instant, starts: random.one_in(2), vertex });
            events.sort_unstable();
        }
        _ => {
            let mut records: Vec<Record> = events.iter().map(|event| event.record()).collect();
            spoil(random, n, &mut records);
            return records.concat();
        }
    }
    bytes_of(&events)
}

/// One record, or two that stand beside each other.
fn spoil(random: &mut Random, n: usize, records: &mut Vec<Record>) {
    let places: Vec<usize> = (0..records.len()).collect();
    let k = of_them(random, &places).expect("a record");
    let beside = if k > 0 { k - 1 } else { 1 };
    match random.below(8) {
        0 => records[k][0] = random.pick(&[0, 0x52, 0x54, 0x45, 0x56, START ^ 0x80, STOP ^ 0x20, 0xFF]),
        1 => records[k][1] = random.pick(&[n, n, MOST_VERTICES.max(n), 255]) as u8,
        2 => records[k][random.pick(&[2, 3])] = random.pick(&[1, 0x80, 0xFF]),
        3 => {
            let late = random.pick(&[128_000_001, 128_000_001, 1 << 27, 1 << 31, u32::MAX]);
            records[k][4..].copy_from_slice(&late.to_le_bytes());
        }
        4 => records.insert(k, records[k]),
        5 => drop(records.remove(k)),
        6 => records[k][0] ^= START ^ STOP,
        _ => records.swap(k, beside),
    }
}

/// Records of the graph's vertices with any instants, put in order.
fn drawn(random: &mut Random, graph: &Graph) -> Vec<u8> {
    let most = random.pick(&[3, 10, 1_000]);
    let many = random.between(0, 8);
    let one = |random: &mut Random| {
        let v = random.below(graph.vertices());
        let begin = random.up_to(most);
        let end = begin + 1 + random.up_to(most);
        [Event::start(begin, v), Event::stop(end, v)]
    };
    let mut events: Vec<Event> = (0..many).flat_map(|_| one(random)).collect();
    events.sort_unstable();
    bytes_of(&events)
}
