//! How many cores are enough: the types and limits for which it can be told wrongly, each of which has to be asked for; by a
//! second way, with the cores in the file's own bytes and from the most of them down; and worked on paper.

use crate::generate::catalogue::{case_a, case_d, case_f, graph_of, unused_cores};
use crate::generate::enough::{beside, board, graphs, limits, UNDECLARED};
use crate::generate::graphs::chain;
use crate::generate::random::Random;
use crate::reference::bounds::bounds;
use crate::reference::enough::{enough, ticks_with, with_cores};
use crate::reference::graph::{Graph, MOST_CORES, MOST_VERTICES, MOST_WCET, PARTS_IN_A_TICK, RECORD};
use crate::reference::reader::read;
use crate::reference::refusal::Refusal;
use crate::reference::writer::file_of;

/// A graph, a type and a limit that were asked for, and what comes of it.
pub struct Limited<'a> {
    graph: &'a Graph,
    kind: u32,
    limit: u64,
    outcome: Result<u8, Refusal>,
    /// NEW-B-1's whole ticks with 1 to 16 cores; none where the type is undeclared
    ticks: Vec<u64>,
}

pub const LIMITS: [(&str, fn(&Limited) -> bool); 22] = [
    ("fewer than declared", |l| l.cores().is_some() && l.cores() < l.declared()),
    ("as declared", |l| l.cores().is_some() && l.cores() == l.declared()),
    ("more than declared", |l| l.cores() > l.declared()),
    ("a limit of 0, met", |l| l.limit == 0 && l.cores() == Some(1)),
    ("a limit of 0, not met", |l| l.limit == 0 && l.is_refused(26)),
    ("the largest limit", |l| l.limit == u32::MAX as u64 && l.cores() == Some(1)),
    ("26 one below", |l| l.is_refused(26) && l.limit + 1 == l.ticks[15]),
    ("26 far below", |l| l.is_refused(26) && l.limit < l.ticks[15] / 2),
    ("met as 16 cores are", |l| l.cores().is_some() && l.limit == l.ticks[15]),
    ("met by more than a whole tick's part", |l| l.cores().is_some_and(|cores| l.has_a_rest(cores))),
    ("several with one bound", |l| l.cores().is_some_and(|cores| l.same_bound(cores)) && l.limit == l.ticks[15]),
    ("an unused type, met", |l| l.cores() == Some(1) && !l.is_used()),
    ("an unused type, not met", |l| l.is_refused(26) && !l.is_used()),
    ("a type of no time", |l| l.cores() == Some(1) && l.is_used() && !l.takes_time() && l.limit == l.ticks[0]),
    ("the first of ten types", |l| l.graph.cores.len() == 10 && l.kind == 0 && l.cores() > Some(1)),
    ("the last of ten types", |l| l.kind == 9 && l.cores() > Some(1)),
    ("25 at the first undeclared", |l| l.is_refused(25) && l.kind as usize == l.graph.cores.len()),
    ("25 of type 10", |l| l.is_refused(25) && l.kind == 10),
    ("25 of type 255", |l| l.is_refused(25) && l.kind == 255),
    ("25 small in 8 bits", |l| l.is_refused(25) && ((l.kind & 255) as usize) < l.graph.cores.len()),
    ("25 before 26", |l| l.is_refused(25) && l.limit == 0 && bounds(l.graph).ticks > 0),
    ("25 by any limit", |l| l.is_refused(25) && l.limit == u32::MAX as u64),
];

/// Each number of cores, just at its bound and one below: where another number of cores has the same bound, it isn't.
pub fn bounds_asked() -> Vec<String> {
    let both = |cores: u8| [format!("at {cores}"), format!("below {cores}")];
    (1..=MOST_CORES).flat_map(both).collect()
}

impl Limited<'_> {
    pub fn of(graph: &Graph, kind: u32, limit: u32) -> Limited<'_> {
        let is_declared = (kind as usize) < graph.cores.len();
        let numbers = if is_declared { 1..=MOST_CORES } else { 1..=0 };
        let ticks = numbers.map(|cores| ticks_with(graph, kind as usize, cores)).collect();
        Limited { graph, kind, limit: limit as u64, outcome: enough(graph, kind, limit), ticks }
    }

    /// What it is a case of, of `bounds_asked`.
    pub fn asked(&self) -> Vec<String> {
        let alone = |c: usize| self.ticks.iter().filter(|&&ticks| ticks == self.ticks[c]).count() == 1;
        let cases = (0..self.ticks.len()).filter(|&c| alone(c)).filter_map(|c| match self.ticks[c] {
            ticks if ticks == self.limit => Some(format!("at {}", c + 1)),
            ticks if ticks == self.limit + 1 => Some(format!("below {}", c + 1)),
            _ => None,
        });
        cases.collect()
    }

    fn cores(&self) -> Option<u8> {
        self.outcome.as_ref().ok().copied()
    }

    fn is_refused(&self, number: u32) -> bool {
        self.outcome.as_ref().is_err_and(|refusal| refusal.number == number)
    }

    fn declared(&self) -> Option<u8> {
        self.graph.cores.get(self.kind as usize).copied()
    }

    fn is_used(&self) -> bool {
        self.graph.is_used(self.kind as usize)
    }

    fn takes_time(&self) -> bool {
        (0..self.graph.vertices()).any(|v| self.graph.kinds[v] as u32 == self.kind && self.graph.wcets[v] > 0)
    }

    /// The bound is above the limit in parts, and not in whole ticks.
    fn has_a_rest(&self, cores: u8) -> bool {
        bounds(&with_cores(self.graph, self.kind as usize, cores)).new > self.limit * PARTS_IN_A_TICK
    }

    /// One core more would do as well and not better.
    fn same_bound(&self, cores: u8) -> bool {
        cores > 1 && self.ticks.get(cores as usize) == Some(&self.ticks[cores as usize - 1])
    }
}

/// Some type of the graph; and another one is 25, whatever the limit.
pub fn enough_agrees(random: &mut Random, graph: &Graph) -> bool {
    let k = graph.cores.len();
    let undeclared = [k as u32, random.pick(&UNDECLARED) as u32].map(|kind| enough(graph, kind, random.next() as u32));
    agrees(random.below(k), graph) && undeclared.iter().all(|outcome| *outcome == refused(25))
}

/// The file with so many cores of the type is read and gets its bound, from 16 cores down to the first that doesn't meet the
/// limit. So none is enough exactly where 16 aren't, and more than enough are enough (order 11).
fn agrees(kind: usize, graph: &Graph) -> bool {
    let file = file_of(graph);
    let by_bytes = |cores: u8| {
        let mut other = file.clone();
        other[kind * RECORD + 2] = cores;
        bounds(&read(&other).expect("a graph with other cores")).ticks
    };
    let ticks: Vec<u64> = (1..=MOST_CORES).map(by_bytes).collect();
    let never_rises = ticks.windows(2).all(|two| two[1] <= two[0]);
    let limits = limits(graph, kind).into_iter().chain([(ticks[0] + ticks[15]) as u32 / 2]);
    let mut wanted = limits.map(|limit| {
        let meeting = ticks.iter().rev().take_while(|&&ticks| ticks <= limit as u64).count() as u8;
        (limit, if meeting > 0 { Ok(MOST_CORES + 1 - meeting) } else { refused(26) })
    });
    never_rises && wanted.all(|(limit, want)| enough(graph, kind as u32, limit) == want)
}

pub fn faults() -> Vec<String> {
    let mut faults = on_paper();
    for graph in graphs() {
        if !(0..graph.cores.len()).all(|kind| agrees(kind, &graph)) {
            faults.push(format!("two ways to find enough cores differ on {graph:?}"));
        }
    }
    faults
}

fn refused<T>(number: u32) -> Result<T, Refusal> {
    Err(Refusal { number, place: 0 })
}

/// NEW-B-1's whole ticks of the board with 1 to 16 cores of each type.
const OF_THE_BOARD: [[u32; 16]; 3] = [
    [
        90_378, 80_178, 76_778, 75_078, 74_058, 73_378, 72_893, 72_528, 72_245, 72_018, 71_833, 71_678, 71_547, 71_435,
        71_338, 71_253,
    ],
    [
        81_578, 75_078, 72_937, 71_866, 71_223, 70_795, 70_489, 70_260, 70_081, 69_938, 69_821, 69_724, 69_642, 69_571,
        69_510, 69_456,
    ],
    [
        461_835, 254_935, 186_418, 152_160, 131_605, 117_901, 108_113, 100_772, 95_062, 90_495, 86_757, 83_643, 81_008,
        78_749, 76_791, 75_078,
    ],
];

/// docs/orders/13.md works these out: from which limit on so many cores are enough; below the last no number is.
fn on_paper() -> Vec<String> {
    let graph = graph_of;
    let (a, d) = (graph(&case_a()), graph(&case_d()));
    // where each number of cores has a bound of its own
    let numbered = |bounds: [u32; 16]| bounds.into_iter().zip(1..).collect::<Vec<(u32, u8)>>();
    let of_128 = numbered(std::array::from_fn(|i| 1_000_000 + 127_000_000 / (i as u32 + 1)));
    let (board, [general, signal, vision]) = (board(), OF_THE_BOARD.map(numbered));
    let worked: [(&str, &Graph, u32, &[(u32, u8)]); 12] = [
        ("A, type 0", &a, 0, &[(22, 1), (19, 2), (18, 3), (17, 4), (16, 7)]),
        ("A, type 1", &a, 1, &[(22, 1), (19, 2)]),
        ("D, type 0", &d, 0, &[(17, 1), (15, 2), (14, 4)]),
        ("D, type 1", &d, 1, &[(17, 1), (15, 2), (14, 4)]),
        ("F", &graph(&case_f()), 0, &[(0, 1)]),
        ("an unused type", &graph(&unused_cores()), 2, &[(19, 1)]),
        ("a type beside an unused one", &graph(&unused_cores()), 0, &[(22, 1), (19, 2), (18, 3), (17, 4), (16, 7)]),
        ("128 in a row", &chain(MOST_VERTICES, 3, MOST_WCET), 0, &[(128_000_000, 1)]),
        ("128 beside each other", &beside(), 0, &of_128),
        ("the board, general", &board, 0, &general),
        ("the board, signal", &board, 1, &signal),
        ("the board, vision", &board, 2, &vision),
    ];
    let mut faults = Vec::new();
    for (name, graph, kind, from) in worked {
        let holds = from.iter().enumerate().all(|(i, &(limit, cores))| {
            // up to the limit from which fewer are enough, and below it more, or none
            let last = i.checked_sub(1).map_or(u32::MAX, |before| from[before].0 - 1);
            let fewer = match limit.checked_sub(1) {
                Some(below) => enough(graph, kind, below) == from.get(i + 1).map_or(refused(26), |next| Ok(next.1)),
                None => true,
            };
            [limit, last].iter().all(|&limit| enough(graph, kind, limit) == Ok(cores)) && fewer
        });
        if !holds {
            faults.push(format!("{name}: other numbers of cores are enough than on paper"));
        }
    }
    for (graph, kind) in [(&a, 2), (&a, 10), (&a, 255), (&a, 256), (&a, 257), (&a, u32::MAX), (&d, 2)] {
        if [0, 19, u32::MAX].iter().any(|&limit| enough(graph, kind, limit) != refused(25)) {
            faults.push(format!("type {kind} is not undeclared as on paper"));
        }
    }
    faults
}
