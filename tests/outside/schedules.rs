//! Demand 3 by experiment: work-conserving schedules that are no list schedules, with times from 0 to the WCETs. Each
//! must finish by NEW-B-1, and NEW-B-1 must not exceed OLD-B; the same for NEW-B-2 and NEW-B-1, where there are few enough
//! complete paths.

use crate::generate::conserving::{schedule, Manner};
use crate::generate::graphs::of;
use crate::generate::random::Random;
use crate::generate::request;
use crate::generate::runs::times;
use crate::options::Options;
use crate::probe::{Probe, BAD_END};
use crate::reference::bounds::{bounds, Bounds};
use crate::reference::graph::{Graph, MOST_VERTICES, PARTS_IN_A_TICK};
use crate::reference::second::second;
use crate::reference::writer::file_of;

pub fn schedules(options: &Options) -> bool {
    let seed = options.seed;
    let pieces = (0..options.count).map(move |place| {
        let file = file_of(&experiment(seed, place).0);
        [request::bounds(&file).bytes(), request::second(&file).bytes()].concat()
    });
    let mut probe = (!options.command.is_empty()).then(|| Probe::start(&options.command, pieces));
    let (mut beyond, mut nearest, mut at_the_tick, mut below, mut at_the_second) = (0, 0.0f64, 0, 0, 0);
    for place in 0..options.count {
        let (graph, mut random) = experiment(seed, place);
        let times = times(&mut random, &graph);
        let finish = finish_of(&mut random, &graph, &times);
        let (bounds, second) = match &mut probe {
            None => (bounds(&graph), second(&graph).ok()),
            Some(probe) => (probed(probe.line()), probed_second(probe.line())),
        };
        let parts = finish * PARTS_IN_A_TICK;
        // without NEW-B-2, NEW-B-1 stands in its place
        let least = second.unwrap_or(bounds.new);
        if parts > least || least > bounds.new || bounds.new > bounds.old || finish > bounds.ticks {
            eprintln!(
                "schedule {place} finishes at {finish} against {bounds:?} and {second:?}: {graph:?}, times {times:?}"
            );
            beyond += 1;
        }
        below += (least < bounds.new) as u64;
        at_the_second += (least < bounds.new && finish == least / PARTS_IN_A_TICK) as u64;
        if bounds.new > 0 {
            nearest = nearest.max(parts as f64 / bounds.new as f64);
        }
        at_the_tick += (finish == bounds.ticks) as u64;
    }
    println!(
        "{} schedules, {beyond} beyond a bound; {at_the_tick} finish in NEW-B-1's last whole tick, the nearest at {:.1} per cent of it",
        options.count,
        nearest * 100.0
    );
    println!("NEW-B-2 is below NEW-B-1 in {below} of them; {at_the_second} of these finish in its last whole tick");
    beyond == 0 && probe.map(ended_well).unwrap_or(true)
}

/// The program has no more to say, and ended well.
pub fn ended_well(mut probe: Probe) -> bool {
    let said_all = probe.rest().is_empty();
    if !said_all {
        eprintln!("more than one line for a request");
    }
    let ended_well = probe.end();
    if !ended_well {
        eprintln!("{BAD_END}");
    }
    said_all && ended_well
}

/// The graph of an experiment, and the numbers for all that follows.
fn experiment(seed: u64, place: u64) -> (Graph, Random) {
    let mut random = Random::new(seed ^ 0x5C4E_D01E, place);
    let n = if random.one_in(40) { random.between(41, MOST_VERTICES) } else { random.between(1, 40) };
    let most = random.pick(&[1, 2, 5, 20]);
    (of(&mut random, n, most), random)
}

/// `old X new Y ticks Z`, or bounds that nothing keeps, so that any other answer is a fault.
pub fn probed(line: Option<String>) -> Bounds {
    let line = line.unwrap_or_default();
    match line.split(' ').collect::<Vec<_>>()[..] {
        ["old", old, "new", new, "ticks", ticks] => {
            Bounds { old: old.parse().unwrap_or(0), new: new.parse().unwrap_or(1), ticks: ticks.parse().unwrap_or(0) }
        }
        _ => Bounds { old: 0, new: 1, ticks: 0 },
    }
}

/// `second X`; none where there are too many paths; or what nothing keeps.
pub fn probed_second(line: Option<String>) -> Option<u64> {
    let line = line.unwrap_or_default();
    match line.split(' ').collect::<Vec<_>>()[..] {
        ["second", parts] => Some(parts.parse().unwrap_or(u64::MAX)),
        ["refused", "17", "at", "0", "second", "0"] => None,
        _ => Some(u64::MAX),
    }
}

/// The cores are given anew in most ticks.
fn finish_of(random: &mut Random, graph: &Graph, times: &[u32]) -> u64 {
    let manner = Manner { more: usize::MAX, ..Manner::any(random) };
    schedule(random, graph, times, manner).last().map_or(0, |event| event.instant as u64)
}
