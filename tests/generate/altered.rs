//! What a caller of the altered gains names, a vertex and its new WCET, fitting and not; and the room for gains.

use super::random::Random;
use crate::reference::graph::{Graph, MOST_VERTICES, MOST_WCET};

/// A vertex of the graph; one time in eight a number that is none, but may be one again where bits of it are lost.
pub fn vertex(random: &mut Random, graph: &Graph) -> u64 {
    let n = graph.vertices() as u64;
    let v = random.up_to(n - 1);
    let missing = random.pick(&[n, n, n + 1, 127.max(n), 128, 255, 256, u32::MAX as u64]);
    let wrapping = random.pick(&[256, 1 << 16, 1 << 24, 1 << 31]) + v;
    if random.one_in(8) {
        random.pick(&[missing, missing, wrapping])
    } else {
        random.pick(&[v, v, v, v, 0, n - 1])
    }
}

/// A WCET for a vertex that has this one: the same, near it, or anything; one time in eight one above the limit.
pub fn wcet(random: &mut Random, old: u32) -> u64 {
    let (old, most) = (old as u64, MOST_WCET as u64);
    let anything = random.up_to(most);
    let near = random.pick(&[old, old, old.saturating_sub(1), (old + 1).min(most), old / 2, (2 * old).min(most)]);
    if random.one_in(8) {
        random.pick(&[most + 1, most + 1, most + 2, 1 << 20, (1 << 24) + old, 1 << 31, u32::MAX as u64])
    } else {
        random.pick(&[0, near, near, near, anything, most])
    }
}

/// The same number with more than 32 bits: cut to 32 it may be good.
pub fn too_wide(random: &mut Random, number: u64) -> u64 {
    random.pick(&[1 << 32, (1 << 32) + number, (1 << 63) + number, u64::MAX])
}

/// Enough for the most part, since a refusal says nothing of the gains.
pub fn room(random: &mut Random, graph: &Graph) -> usize {
    let n = graph.vertices();
    if random.one_in(10) {
        let fewer = random.below(n);
        return random.pick(&[0, n - 1, n - 1, fewer]);
    }
    let more = n + random.between(2, 20);
    random.pick(&[n, n, n, n + 1, more, MOST_VERTICES])
}
