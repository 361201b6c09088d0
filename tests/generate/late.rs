//! The tick that a run is asked to end by: around its finish, around NEW-B-1, where something begins or ends, and anything.

use super::random::Random;
use crate::reference::bounds::bounds;
use crate::reference::graph::Graph;
use crate::reference::late::finish;
use crate::reference::schedule::spans;

/// Both sides of the finish and of NEW-B-1's whole ticks, the middle of the run, and the ends of 32 bits.
pub fn limits(graph: &Graph, times: &[u32]) -> Vec<u32> {
    let finish = finish(graph, times).expect("times that suit the graph");
    let ticks = bounds(graph).ticks as u32;
    let around = |tick: u32| [tick.saturating_sub(1), tick, tick + 1];
    [&[0, finish / 2][..], &around(finish), &around(ticks), &[u32::MAX]].concat()
}

/// For any times: where they don't suit the graph, the tick is one for the WCETs.
pub fn tick(random: &mut Random, graph: &Graph, times: &[u32]) -> u64 {
    let times = if finish(graph, times).is_ok() { times } else { &graph.wcets };
    let limits = limits(graph, times);
    let spans = spans(graph, times);
    let finish = spans.iter().map(|span| span.end).max().expect("a graph has a vertex");
    let span = random.pick(&spans);
    let near = random.pick(&[span.begin, span.end, span.begin + 1, span.end.saturating_sub(1)]);
    let inside = random.up_to(finish);
    let between = finish + random.up_to(bounds(graph).ticks - finish);
    let anything = random.next() >> random.between(32, 63);
    let limit = random.pick(&limits) as u64;
    // as large as wraps to a small one in fewer bits
    let wrapping = random.pick(&[1 << 8, 1 << 16, 1 << 24, 1 << 27, 1 << 31]) + inside;
    random.pick(&[limit, limit, limit, limit, limit, near, near, inside, inside, between, between, anything, wrapping])
}
