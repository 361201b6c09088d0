//! A second judge of logs, for short ones: it writes out who runs in each tick, and asks document 01's sentences of each
//! tick by itself. Ticks are who runs in each of them.

use crate::reference::graph::{Graph, RECORD};
use crate::reference::log::{Event, LONGEST_LOG, START, STOP};
use crate::reference::record::{finished, ready};
use crate::reference::refusal::{refuse_first, refuse_if, Refusal};
use crate::reference::replay::Replay;

pub fn judged(graph: &Graph, log: &[u8], room: usize) -> Result<Replay, Refusal> {
    let n = graph.vertices();
    refuse_if(18, log.len() % RECORD != 0 || log.len() > LONGEST_LOG)?;
    let records: Vec<&[u8]> = log.chunks(RECORD).collect();
    refuse_first(18, 0, (0..records.len()).map(|k| !is_begin_of_a_log(n, &records[..=k])))?;
    refuse_if(18, (0..n).any(|v| records.iter().filter(|r| r[1] as usize == v).count() % 2 == 1))?;

    let events: Vec<Event> = records.iter().map(|r| Event::from_record(r).unwrap()).collect();
    let ticks = ticks(n, &events);
    let times = times(n, &ticks);
    let kind = |v: usize| graph.kinds[v];
    refuse_first(
        19,
        0,
        events.iter().map(|e| e.starts && !ready(graph, &left(graph, &ticks, e.instant as usize))[e.vertex as usize]),
    )?;
    // at its instant those run that start there by a later record, too
    let at_once = |k: usize| {
        let later = |v: usize| events[k + 1..].iter().any(|e| e.instant == events[k].instant && e.vertex as usize == v);
        let tick = &ticks[events[k].instant as usize];
        (0..n).filter(|&v| tick[v] && kind(v) == kind(events[k].vertex as usize) && !later(v)).count() as u64
    };
    let many = |k: usize| events[k].starts && at_once(k) > graph.cores_of(events[k].vertex as usize);
    refuse_first(20, 0, (0..events.len()).map(many))?;
    refuse_first(21, 0, (0..n).map(|v| times[v] > graph.wcets[v]))?;
    refuse_first(22, 0, (0..ticks.len()).map(|t| !runs_as_many_as_it_can(graph, &ticks, t)))?;
    refuse_if(15, room < n)?;
    let finish = (0..).find(|&t| finished(graph, &left(graph, &ticks, t)).iter().all(|&done| done));
    Ok(Replay { finish: finish.unwrap() as u64, times })
}

/// Whether these records are in form as far as they go.
fn is_begin_of_a_log(n: usize, records: &[&[u8]]) -> bool {
    let instant = |r: &[u8]| (4..8).map(|i| (r[i] as u64) << (8 * (i - 4))).sum::<u64>();
    let key = |r: &[u8]| (instant(r), r[0] == START, r[1]);
    let kinds_of = |v: usize| records.iter().filter(|r| r[1] as usize == v).map(|r| r[0]).collect::<Vec<u8>>();
    records.iter().all(|r| b"PS".contains(&r[0]) && (r[1] as usize) < n && r[2] == 0 && r[3] == 0)
        && records.iter().all(|r| instant(r) <= 128_000_000)
        && records.windows(2).all(|two| key(two[0]) < key(two[1]))
        && (0..n).all(|v| kinds_of(v).iter().zip([START, STOP].iter().cycle()).all(|(kind, want)| kind == want))
}

/// Up to the last record: those run that have started once more than they have stopped.
fn ticks(n: usize, events: &[Event]) -> Vec<Vec<bool>> {
    let until = events.iter().map(|e| e.instant).max().unwrap_or(0);
    let many = |t: u32, v: usize, starts: bool| {
        events.iter().filter(|e| e.instant <= t && e.vertex as usize == v && e.starts == starts).count()
    };
    (0..until).map(|t| (0..n).map(|v| many(t, v, true) > many(t, v, false)).collect()).collect()
}

fn times(n: usize, ticks: &[Vec<bool>]) -> Vec<u32> {
    (0..n).map(|v| ticks.iter().filter(|tick| tick[v]).count() as u32).collect()
}

/// What each vertex has yet to run at an instant.
fn left(graph: &Graph, ticks: &[Vec<bool>], instant: usize) -> Vec<u32> {
    times(graph.vertices(), &ticks[instant..])
}

/// Of each type as many ready vertices as the smaller of its cores and the number ready.
fn runs_as_many_as_it_can(graph: &Graph, ticks: &[Vec<bool>], t: usize) -> bool {
    let ready = ready(graph, &left(graph, ticks, t));
    (0..graph.cores.len()).all(|s| {
        let of_kind: Vec<usize> = (0..graph.vertices()).filter(|&v| graph.kinds[v] as usize == s).collect();
        let can = of_kind.iter().filter(|&&v| ready[v]).count();
        let run = of_kind.iter().filter(|&&v| ready[v] && ticks[t][v]).count();
        run == can.min(graph.cores[s] as usize) && of_kind.iter().all(|&v| ready[v] || !ticks[t][v])
    })
}

/// The definition itself, with the times that the ticks add up to.
pub fn is_work_conserving(graph: &Graph, ticks: &[Vec<bool>]) -> bool {
    let times = times(graph.vertices(), ticks);
    times.iter().zip(&graph.wcets).all(|(time, wcet)| time <= wcet)
        && (0..ticks.len()).all(|t| runs_as_many_as_it_can(graph, ticks, t))
}

/// The log of any ticks: a record wherever who runs changes.
pub fn log_of(n: usize, ticks: &[Vec<bool>]) -> Vec<Event> {
    let runs = |t: usize, v: usize| t < ticks.len() && ticks[t][v];
    let mut events = Vec::new();
    for t in 0..=ticks.len() {
        let ran = |v: usize| t > 0 && runs(t - 1, v);
        events.extend((0..n).filter(|&v| ran(v) && !runs(t, v)).map(|v| Event::stop(t as u64, v)));
        events.extend((0..n).filter(|&v| !ran(v) && runs(t, v)).map(|v| Event::start(t as u64, v)));
    }
    events
}
