//! Order 11 by experiment: pairs of graphs of which the second is better. NEW-B-1 and its whole ticks never rise; neither does
//! NEW-B-2 where no edge is removed, and then both graphs get it or neither does. The same search has to find what has no such
//! property: OLD-B with more cores, and NEW-B-2 without an edge.

use crate::generate::better::{pair, Change, Pair, CHANGES};
use crate::generate::random::Random;
use crate::generate::request;
use crate::options::Options;
use crate::probe::Probe;
use crate::reference::bounds::{bounds, Bounds};
use crate::reference::graph::Graph;
use crate::reference::second::second;
use crate::reference::writer::file_of;
use crate::schedules::{ended_well, probed, probed_second};

pub fn pairs(options: &Options) -> bool {
    let seed = options.seed;
    let pieces = (0..options.count).flat_map(move |place| {
        let Pair { before, after, .. } = pair(&mut random(seed, place));
        [asked(&before), asked(&after)]
    });
    let mut probe = (!options.command.is_empty()).then(|| Probe::start(&options.command, pieces));
    let mut seen = Seen::default();
    for place in 0..options.count {
        let pair = pair(&mut random(seed, place));
        let mut given = |graph: &Graph| match &mut probe {
            None => (bounds(graph), second(graph).ok()),
            Some(probe) => (probed(probe.line()), probed_second(probe.line())),
        };
        let (before, after) = (given(&pair.before), given(&pair.after));
        if !seen.taken(&pair, before, after) {
            eprintln!(
                "pair {place} rises by {:?}: {before:?} of {:?}, {after:?} of {:?}",
                pair.change, pair.before, pair.after
            );
            seen.risen += 1;
        }
    }
    seen.told(options.count) && probe.map(ended_well).unwrap_or(true)
}

fn random(seed: u64, place: u64) -> Random {
    Random::new(seed ^ 0xBE77_E12B, place)
}

fn asked(graph: &Graph) -> Vec<u8> {
    let file = file_of(graph);
    [request::bounds(&file).bytes(), request::second(&file).bytes()].concat()
}

/// What the pairs had in them.
#[derive(Default)]
struct Seen {
    risen: u64,
    /// by change: how often NEW-B-1 fell, and NEW-B-2
    fallen: [(u64, u64); CHANGES.len()],
    neither: u64,
    old: Found,
    edge: Found,
}

#[derive(Default)]
struct Found {
    times: u64,
    vertices: Option<usize>,
}

impl Found {
    fn counted(&mut self, graph: &Graph) {
        self.times += 1;
        self.vertices = Some(self.vertices.map_or(graph.vertices(), |n| n.min(graph.vertices())));
    }
}

impl Seen {
    /// Whether nothing rises that must not.
    fn taken(&mut self, pair: &Pair, before: (Bounds, Option<u64>), after: (Bounds, Option<u64>)) -> bool {
        let (old, new) = (before.0, after.0);
        let seconds = before.1.zip(after.1);
        let fallen = &mut self.fallen[CHANGES.iter().position(|&change| change == pair.change).unwrap()];
        fallen.0 += (new.new < old.new) as u64;
        fallen.1 += seconds.is_some_and(|(a, b)| b < a) as u64;
        self.neither += (before.1.is_none() && after.1.is_none()) as u64;
        if new.old > old.old && pair.change == Change::Cores {
            self.old.counted(&pair.before);
        }
        let rises = seconds.is_some_and(|(a, b)| b > a);
        if rises && pair.change == Change::Edge {
            self.edge.counted(&pair.before);
        }
        let same_right = before.1.is_some() == after.1.is_some();
        new.new <= old.new && new.ticks <= old.ticks && (!pair.change.keeps_edges() || same_right && !rises)
    }

    fn told(&self, count: u64) -> bool {
        println!("{count} pairs of graphs, {} rise; both without NEW-B-2 in {}", self.risen, self.neither);
        for (change, (new, second)) in CHANGES.iter().zip(self.fallen) {
            println!("  {change:?}: NEW-B-1 falls in {new}, NEW-B-2 in {second}");
        }
        let least = |found: &Found| found.vertices.unwrap_or(0);
        println!("OLD-B rises with more cores in {}, on {} vertices at the least", self.old.times, least(&self.old));
        println!("NEW-B-2 rises without an edge in {}, on {} at the least", self.edge.times, least(&self.edge));
        let all_tried = self.fallen.iter().all(|&(new, second)| new > 0 && second > 0) && self.neither > 0;
        if !all_tried {
            eprintln!("some change never made a bound fall, or every graph had its NEW-B-2");
        }
        // docs/orders/11.md has these as the smallest
        let found = least(&self.old) >= 2 && least(&self.edge) >= 3;
        if !found {
            eprintln!("the counter-examples were not found, or one that is smaller than on paper");
        }
        self.risen == 0 && all_tried && found
    }
}
