//! Work-conserving schedules that need not be list schedules: any of the ready vertices may get a core, and a vertex may be
//! set aside and resumed. A schedule is told by the records of its log.

use super::random::Random;
use crate::reference::graph::{Graph, MOST_VERTICES};
use crate::reference::log::Event;
use crate::reference::order::topological;
use crate::reference::record::ready;

/// How the cores are given to the ready vertices, each time anew.
#[derive(Clone, Copy)]
pub enum Choice {
    /// any of them
    Any,
    /// the same as before, but for a surprise now and then
    MostlyKept,
    /// those with the least work behind them, so that the longest chain waits
    LongestLast,
    /// the highest numbers
    HighestFirst,
}

/// How a schedule comes about. The cores are given anew whenever a vertex ends.
#[derive(Clone, Copy)]
pub struct Manner {
    pub choice: Choice,
    /// how many times besides
    pub more: usize,
    /// whether a vertex that runs on may be stopped and started at one instant
    pub restarts: bool,
    /// which time, from 0 on, a core is left idle that a ready vertex could have: then it isn't work conserving
    pub idle: Option<usize>,
}

impl Manner {
    pub fn any(random: &mut Random) -> Manner {
        Manner {
            choice: random.pick(&[Choice::Any, Choice::MostlyKept, Choice::LongestLast, Choice::HighestFirst]),
            more: random.pick(&[0, 1, 5, 30]),
            restarts: random.one_in(3),
            idle: None,
        }
    }
}

/// The records of a schedule with these times.
pub fn schedule(random: &mut Random, graph: &Graph, times: &[u32], manner: Manner) -> Vec<Event> {
    let (n, behind) = (graph.vertices(), work_behind(graph));
    let (mut left, mut ran, mut events) = (times.to_vec(), vec![false; n], Vec::new());
    let (mut instant, mut given) = (0, 0);
    loop {
        let ready = ready(graph, &left);
        let mut runs = given_cores(random, graph, manner.choice, &ready, &ran, &behind);
        if manner.idle == Some(given) {
            leave_out_one(random, &mut runs);
        }
        tell(random, manner.restarts, instant, &ran, &runs, &mut events);
        if !ready.contains(&true) {
            return events;
        }
        let until_one_ends = (0..n).filter(|&v| runs[v]).map(|v| left[v]).min().unwrap_or(3);
        let stretch = if given < manner.more {
            let any = random.between(1, until_one_ends as usize) as u32;
            random.pick(&[1, any])
        } else {
            until_one_ends
        };
        (0..n).filter(|&v| runs[v]).for_each(|v| left[v] -= stretch);
        instant += stretch as u64;
        given += 1;
        ran = runs;
    }
}

/// As many of each kind as there are cores or ready vertices, whichever are fewer.
fn given_cores(
    random: &mut Random,
    graph: &Graph,
    choice: Choice,
    ready: &[bool],
    ran: &[bool],
    behind: &[u64],
) -> Vec<bool> {
    let mut runs = vec![false; graph.vertices()];
    for (kind, &cores) in graph.cores.iter().enumerate() {
        let mut waiting: Vec<usize> =
            (0..graph.vertices()).filter(|&v| ready[v] && graph.kinds[v] as usize == kind).collect();
        random.shuffle(&mut waiting);
        match choice {
            Choice::Any => {}
            Choice::MostlyKept if random.one_in(6) => {}
            Choice::MostlyKept => waiting.sort_by_key(|&v| !ran[v]),
            Choice::LongestLast => waiting.sort_by_key(|&v| behind[v]),
            Choice::HighestFirst => waiting.sort_by_key(|&v| MOST_VERTICES - v),
        }
        waiting.iter().take(cores as usize).for_each(|&v| runs[v] = true);
    }
    runs
}

fn leave_out_one(random: &mut Random, runs: &mut [bool]) {
    let running: Vec<usize> = (0..runs.len()).filter(|&v| runs[v]).collect();
    if !running.is_empty() {
        runs[random.pick(&running)] = false;
    }
}

/// The records of an instant: who stops, then who starts.
fn tell(random: &mut Random, restarts: bool, instant: u64, ran: &[bool], runs: &[bool], events: &mut Vec<Event>) {
    let again: Vec<bool> = ran.iter().zip(runs).map(|(&a, &b)| a && b && restarts && random.one_in(4)).collect();
    let all = 0..ran.len();
    events.extend(all.clone().filter(|&v| ran[v] && (!runs[v] || again[v])).map(|v| Event::stop(instant, v)));
    events.extend(all.filter(|&v| runs[v] && (!ran[v] || again[v])).map(|v| Event::start(instant, v)));
}

/// The most ticks from a vertex to a sink.
fn work_behind(graph: &Graph) -> Vec<u64> {
    let after = graph.successors();
    let mut behind = vec![0; graph.vertices()];
    for &v in topological(graph).iter().rev() {
        behind[v] = graph.wcets[v] as u64 + after[v].iter().map(|&w| behind[w]).max().unwrap_or(0);
    }
    behind
}
