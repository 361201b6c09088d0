//! Graphs with a given number of complete paths, up to far more than 64 bits can count.
//!
//! The number is taken apart as digits are: times a factor, plus a rest, again and again. A factor is a block, so many ways
//! from a joint to the next one; one more is a way of its own that comes in from a source.

use super::graphs::{board, chain, edges_between, kinds_of_vertices, numbers, upward, wcets};
use super::random::Random;
use crate::reference::graph::{Graph, MOST_EDGES, MOST_KINDS, MOST_VERTICES, MOST_WCET};
use std::collections::BTreeSet;

/// The limit from both sides, what is at the limit where 16, 32 or 64 bits wrap, and anything.
pub fn any(random: &mut Random) -> Graph {
    let few = random.between(1, 300) as u128;
    let near = random.between(3_000, 5_500) as u128;
    let wrapping = 1u128 << random.pick(&[16, 16, 31, 32, 32, 63, 64, 64, 64, 64]);
    let over = random.pick(&[0, 0, 1, 2, 2, 3, 4_095, 4_096, few]);
    let paths = match random.below(16) {
        0..=2 => few,
        3..=5 => near,
        6..=7 => 4_096,
        8..=9 => 4_097,
        10 => random.pick(&[4_095, 4_098, 8_191, 8_192, 8_193, 1 << 13, 1 << 20]),
        11..=13 => wrapping + over,
        14 => return dense(random),
        _ => return parted(random),
    };
    with_paths(random, paths)
}

/// So many complete paths: at most 2^20, or a power of 2 up to 2^64 and some thousands.
pub fn with_paths(random: &mut Random, paths: u128) -> Graph {
    // the largest numbers have no vertices to waste: their last digits alone are not 0, and must stay so
    let is_large = paths > 1 << 20;
    let isolated = random.pick(&[0, 0, 1, 2]).min(if is_large { paths % 4_096 } else { paths - 1 });
    let mut left = paths - isolated;
    let mut digits = Vec::new();
    while left > 1 {
        let factor = if is_large { 4 } else { random.pick(&[2, 2, 3, 4, 4, 5, 7, 8, 16]) }.min(left);
        digits.push((factor as usize, (left % factor) as usize));
        left /= factor;
    }
    digits.reverse();
    let needed: usize = digits.iter().map(|&(factor, rest)| least(factor) + rest).sum();
    let spare = MOST_VERTICES.checked_sub(1 + isolated as usize + needed);
    let mut layout = Layout::new(spare.expect("a number of paths that 128 vertices have"));
    layout.lengthen(random);
    for (factor, rest) in digits {
        layout.multiply(random, factor);
        (0..rest).for_each(|_| layout.add_one());
        layout.lengthen(random);
    }
    layout.n += isolated as usize;
    layout.graph(random)
}

/// The slowest to go through: 4,096 complete paths and all 128 vertices, of which so many stand before the choices, and the
/// others but for those of the choices behind them. With one more way in, there is one path too many.
pub fn longest(random: &mut Random, before: usize, one_more: bool) -> Graph {
    let mut layout = Layout::new(0);
    let rest = MOST_VERTICES - 1 - 6 * least(4);
    layout.go_on(before);
    (0..6).for_each(|_| layout.multiply(random, 4));
    layout.go_on(rest - before);
    if one_more {
        layout.add_one();
    }
    layout.graph(random)
}

/// The least vertices that a block takes: those inside a complete graph where the factor is a power of 2, or one for each
/// way but the direct one; and the next joint.
fn least(factor: usize) -> usize {
    1 + if factor.is_power_of_two() { factor.trailing_zeros() as usize } else { factor - 1 }
}

struct Layout {
    edges: BTreeSet<(usize, usize)>,
    n: usize,
    /// where all ways until now end
    joint: usize,
    /// how many vertices nobody needs
    spare: usize,
}

impl Layout {
    /// Position 0 is a source, and so far the joint too.
    fn new(spare: usize) -> Layout {
        Layout { edges: BTreeSet::new(), n: 1, joint: 0, spare }
    }

    fn vertex(&mut self) -> usize {
        self.n += 1;
        self.n - 1
    }

    /// A chain behind the joint.
    fn go_on(&mut self, many: usize) {
        for _ in 0..many {
            let next = self.vertex();
            self.edges.insert((self.joint, next));
            self.joint = next;
        }
    }

    /// A chain of spare vertices: few, and now and then up to all of them.
    fn lengthen(&mut self, random: &mut Random) {
        let most = if random.one_in(12) { self.spare } else { self.spare.min(3) };
        let many = random.between(0, most);
        self.spare -= many;
        self.go_on(many);
    }

    /// So many ways to the next joint: through a complete graph, or a direct one and others beside it, some of them longer.
    fn multiply(&mut self, random: &mut Random, factor: usize) {
        let from = self.joint;
        let more = factor - least(factor);
        if factor.is_power_of_two() && (self.spare < more || random.one_in(3)) {
            let all: Vec<usize> = std::iter::once(from).chain(self.n..self.n + least(factor)).collect();
            for (i, &u) in all.iter().enumerate() {
                self.edges.extend(all[i + 1..].iter().map(|&v| (u, v)));
            }
            self.n += least(factor);
            self.joint = self.n - 1;
            return;
        }
        self.spare -= more;
        let mut ends = vec![from];
        for _ in 1..factor {
            self.joint = from;
            self.go_on(1);
            self.lengthen(random);
            ends.push(self.joint);
        }
        self.joint = self.vertex();
        self.edges.extend(ends.into_iter().map(|end| (end, self.joint)));
    }

    /// One way more to the joint: from position 0 where no edge leads there from it, or from a source of its own.
    fn add_one(&mut self) {
        if !self.edges.insert((0, self.joint)) {
            let source = self.vertex();
            self.edges.insert((source, self.joint));
        }
    }

    fn graph(self, random: &mut Random) -> Graph {
        let kinds = random.pick(&[1, 1, 2, 2, 3, 4, MOST_KINDS]);
        let most = random.pick(&[1, 20, 1_000, MOST_WCET]);
        let number = numbers(random, self.n);
        let (cores, used) = board(random, kinds);
        Graph {
            cores,
            kinds: kinds_of_vertices(random, &used, self.n),
            wcets: wcets(random, self.n, most),
            edges: edges_between(&number, &self.edges),
        }
    }
}

/// As many edges as a graph may have, between positions that are near each other, or anywhere.
fn dense(random: &mut Random) -> Graph {
    if random.one_in(2) {
        return densest(random);
    }
    let mut layout = Layout::new(0);
    layout.n = random.between(46, MOST_VERTICES);
    while layout.edges.len() < MOST_EDGES {
        layout.edges.extend(upward(random, layout.n));
    }
    layout.graph(random)
}

/// All 128 vertices and the 1,024 shortest edges: about 10^38 complete paths.
pub fn densest(random: &mut Random) -> Graph {
    let mut layout = Layout::new(0);
    layout.n = MOST_VERTICES;
    let shortest = (1..MOST_VERTICES).flat_map(|step| (0..MOST_VERTICES - step).map(move |p| (p, p + step)));
    layout.edges = shortest.take(MOST_EDGES).collect();
    layout.graph(random)
}

/// Sources, sinks and isolated vertices: rows of any width one behind the other, each vertex with edges to some of the next
/// row or to none.
fn parted(random: &mut Random) -> Graph {
    let mut layout = Layout::new(0);
    let mut row = 0..1;
    let rows = random.between(1, 8);
    for _ in 0..rows {
        let next = row.end..row.end + random.between(1, MOST_VERTICES / rows - 1);
        for p in row {
            let some = random.between(0, 4);
            layout.edges.extend(next.clone().filter(|_| random.below(4) < some).map(|q| (p, q)));
        }
        row = next;
    }
    layout.n = row.end;
    while layout.edges.len() > MOST_EDGES {
        layout.edges.pop_first();
    }
    layout.graph(random)
}

/// 2^64 complete paths along 64 rows of two, each with edges to both of the next row: two sources, two sinks.
pub fn pairs() -> Graph {
    let edges = (0..126u8).flat_map(|v| [0, 1].map(|i| (v, v / 2 * 2 + 2 + i))).collect();
    Graph { edges, ..chain(MOST_VERTICES, 3, 5) }
}
