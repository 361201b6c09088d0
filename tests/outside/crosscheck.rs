//! The reference against itself by second ways: all complete paths written out, bounds as fractions, ancestors by who
//! stands before whom on these paths, gains by the paths without a vertex's time, alterations in the file's own bytes,
//! runs tick by tick, stopped at any, unfinished predecessors by the finishes that lie ahead and by the paths, logs tick by
//! tick and every schedule of three vertices, texts byte by byte and there and back, files mended by counting and from the list
//! of it, enough cores from the most of them down, a planted fault for each number and each pair of them, and the values worked
//! on paper.

use crate::by_ticks::{is_work_conserving, judged, log_of};
use crate::compare::hex;
use crate::enough;
use crate::enough::enough_agrees;
use crate::generate::altered;
use crate::generate::catalogue::{
    case_a, case_d, case_f, cores_for_no_time, middle_of_no_time, source_of_no_time, two_longest_paths,
};
use crate::generate::catalogue::{
    numbers_of_paths, parallel_to_two, three_joined, two_chained, two_cores, two_sources, two_without_an_edge,
    type_of_one_core, unused_cores,
};
use crate::generate::conserving::{schedule, Manner};
use crate::generate::faults::file_with;
use crate::generate::frames::frames;
use crate::generate::graphs::{chain, fan, of, to_be_damaged, twins};
use crate::generate::lists::{edge, file_of as file_of_records, lists_of, records_of};
use crate::generate::logs;
use crate::generate::numbers;
use crate::generate::random::Random;
use crate::generate::runs::{damaged, misnumbered, times, unreached};
use crate::generate::ways;
use crate::mend;
use crate::options::Options;
use crate::reference::bounds::{bounds, least_path, Bounds};
use crate::reference::gains::{gains, gains_altered, gains_of, ranking, with_wcet};
use crate::reference::graph::{Graph, MOST_CORES, MOST_VERTICES, MOST_WCET, PARTS_IN_A_TICK, RECORD};
use crate::reference::late::{late, Late};
use crate::reference::log::{bytes_of, events_of_run, log};
use crate::reference::order::topological;
use crate::reference::reader::read;
use crate::reference::record::{finished, Numbers, RunRecord};
use crate::reference::refusal::Refusal;
use crate::reference::replay::{replay, Replay};
use crate::reference::schedule::{record_at, run, spans, start, tick, Ticked};
use crate::reference::second::{second, values, Ways, MOST_PATHS};
use crate::reference::sheet::sheet;
use crate::reference::writer::{file_of, write, Lists};
use crate::stg;

/// OLD-B and NEW-B-1, which are equal there, and NEW-B-2, in ticks.
const EXAMPLES: [(&[u8], u64, u64); 3] = [
    (include_bytes!("../examples/example-1.graph"), 930, 880),
    (include_bytes!("../examples/example-2.graph"), 468, 468),
    (include_bytes!("../examples/example-3.graph"), 320, 320),
];
const SAMPLES: [(&[u8], &str); 3] = [
    (include_bytes!("../../samples/case-a.graph"), include_str!("../../samples/case-a.sheet")),
    (include_bytes!("../../samples/board.graph"), include_str!("../../samples/board.sheet")),
    (include_bytes!("../../samples/two-cameras.graph"), include_str!("../../samples/two-cameras.sheet")),
];

/// Frames of the board: one as it may run, and one in which a core idled.
const RECORDED: [&[u8]; 2] =
    [include_bytes!("../../samples/board.log"), include_bytes!("../../samples/board-idle.log")];

pub fn faults(options: &Options) -> Vec<String> {
    let mut faults = worked_on_paper();
    faults.extend(gains_on_paper());
    faults.extend(second_on_paper());
    faults.extend(late_on_paper());
    faults.extend(logs_on_paper());
    faults.extend(numbers_on_paper());
    faults.extend(records_on_paper());
    faults.extend(stg::faults(options));
    faults.extend(mend::faults(options));
    faults.extend(enough::faults());
    faults.extend(better_on_paper());
    faults.extend(paths_counted());
    faults.extend(schedules_of_three());
    for place in 0..2_000 {
        let random = &mut Random::new(options.seed ^ 0x5E1F, place);
        let n = random.between(1, 10);
        let graph = of(random, n, 12);
        let same = round_trip_agrees(&graph)
            && paths_agree(&graph)
            && unused_agree(&graph)
            && second_agrees(&graph)
            && gains_agree(&graph)
            && alteration_agrees(random, &graph)
            && runs_agree(random, &graph)
            && numbers_agree(random, &graph)
            && late_agrees(random, &graph)
            && logs_agree(random, &graph)
            && enough_agrees(random, &graph);
        if !same {
            faults.push(format!("two ways of the reference differ on {graph:?}"));
        }
    }
    for place in 0..300 {
        let random = &mut Random::new(options.seed ^ 0x7715, place);
        let graph = twins(random);
        let same = paths_agree(&graph)
            && unused_agree(&graph)
            && second_agrees(&graph)
            && gains_agree(&graph)
            && alteration_agrees(random, &graph);
        if !same {
            faults.push(format!("two ways of the reference differ on {graph:?}"));
        }
    }
    for place in 0..300 {
        let graph = ways::any(&mut Random::new(options.seed ^ 0x2B2B, place));
        let few = Ways::of(&graph).complete_paths() <= MOST_PATHS;
        let same = if few { second_agrees(&graph) } else { second(&graph) == too_many_paths() };
        if read(&file_of(&graph)).as_ref() != Ok(&graph) || !same {
            faults.push(format!("two ways of the reference differ on {graph:?}"));
        }
    }
    for a in 1..=11 {
        for b in a..=11 {
            faults.extend((0..40).filter_map(|place| planted(options.seed, place, a, b)));
        }
    }
    for a in 18..=22 {
        for b in a..=22 {
            faults.extend((0..40).filter_map(|place| planted_in_log(options.seed, place, a, b)));
        }
    }
    faults
}

/// Faults for a and b, planted in one file: a is given, as it is the smaller.
fn planted(seed: u64, place: u64, a: u32, b: u32) -> Option<String> {
    let random = &mut Random::new(seed ^ (a * 100 + b) as u64, place);
    let lists = lists_of(&to_be_damaged(random));
    let file = file_with(random, &lists, &[a, b]);
    match read(&file) {
        Err(refusal) if refusal.number == a => None,
        other => Some(format!("faults {a} and {b} planted in {}: {other:?}", hex(&file))),
    }
}

/// The same in a log, whatever the room. Without a fault only the room says no.
fn planted_in_log(seed: u64, place: u64, a: u32, b: u32) -> Option<String> {
    let random = &mut Random::new(seed ^ (a * 100 + b) as u64, place);
    let graph = fan(random);
    let (n, times) = (graph.vertices(), graph.wcets.iter().map(|&c| random.between(1, c as usize) as u32));
    let times: Vec<u32> = times.collect();
    let good = logs::with(random, &graph, &times, &[]);
    let log = logs::with(random, &graph, &times, &[a, b]);
    let outcome = [replay(&graph, &log, n), replay(&graph, &log, 0)];
    let is_a = outcome[0] == outcome[1] && outcome[0].as_ref().is_err_and(|refusal| refusal.number == a);
    let room_says_no = replay(&graph, &good, n - 1) == Err(Refusal { number: 15, place: 0 });
    (!is_a || !room_says_no || replay(&graph, &good, n).map(|r| r.times) != Ok(times))
        .then(|| format!("faults {a} and {b} planted in the log {} of {graph:?}: {outcome:?}", hex(&log)))
}

fn round_trip_agrees(graph: &Graph) -> bool {
    let file = file_of(graph);
    let lists = lists_of(graph);
    let too_small = Err(Refusal { number: 15, place: 0 });
    read(&file).as_ref() == Ok(graph)
        && write(&lists, file.len()) == Ok(file.clone())
        && write(&lists, file.len() - 1) == too_small
}

fn paths_agree(graph: &Graph) -> bool {
    let paths = complete_paths(graph);
    let len = paths.iter().map(|p| p.iter().map(|&v| graph.wcets[v as usize] as u128).sum::<u128>()).max().unwrap();
    let scaled: Vec<u128> = paths.iter().map(|p| scaled_sum(graph, p)).collect();
    let most = *scaled.iter().max().unwrap();
    let least = paths.iter().zip(&scaled).filter(|(_, &sum)| sum == most).map(|(p, _)| p).min().unwrap();
    let most_cores =
        (0..graph.cores.len()).filter(|&s| graph.is_used(s)).map(|s| graph.cores[s] as u128).max().unwrap();
    let volumes: u128 =
        (0..graph.vertices()).map(|v| one_part(graph.wcets[v] as u128, graph.cores_of(v) as u128)).sum();
    let old = one_part(len * (most_cores - 1), most_cores) + volumes;
    let new = most + volumes;
    let whole = new / PARTS_IN_A_TICK as u128;
    bounds(graph) == Bounds { old: old as u64, new: new as u64, ticks: whole as u64 } && least_path(graph) == *least
}

/// Kinds that no vertex has count for nothing: one more of them, and none of them, leave both bounds as they are.
fn unused_agree(graph: &Graph) -> bool {
    let more = Graph { cores: [&graph.cores[..], &[MOST_CORES]].concat(), ..graph.clone() };
    let used: Vec<usize> = (0..graph.cores.len()).filter(|&s| graph.is_used(s)).collect();
    let place = |kind: u8| used.iter().position(|&s| s == kind as usize).unwrap() as u8;
    let fewer = Graph {
        cores: used.iter().map(|&s| graph.cores[s]).collect(),
        kinds: graph.kinds.iter().map(|&kind| place(kind)).collect(),
        ..graph.clone()
    };
    [more, fewer].iter().all(|other| bounds(other) == bounds(graph))
}

/// NEW-B-2 by the paths alone, as a fraction of all kinds' cores: u is an ancestor of v where a complete path has u before
/// v. It is no more than NEW-B-1, no less than the longest of the paths, and NEW-B-1 where all vertices have one type.
fn second_agrees(graph: &Graph) -> bool {
    let paths = complete_paths(graph);
    let n = graph.vertices();
    let mut on_one_path = vec![vec![false; n]; n];
    for path in &paths {
        path.iter().for_each(|&u| path.iter().for_each(|&v| on_one_path[u as usize][v as usize] = true));
    }
    let interferes = |path: &[u8], u: usize| {
        path.iter().any(|&v| graph.kinds[v as usize] == graph.kinds[u] && !on_one_path[v as usize][u])
    };
    // over the product of the cores of all kinds; the WCETs of the path and of what interferes with it
    let product: u128 = graph.cores.iter().map(|&cores| cores as u128).product();
    let of_path = |path: &[u8]| path.iter().map(|&v| graph.wcets[v as usize] as u128).sum::<u128>();
    let beside = |path: &[u8]| {
        let all = (0..n).filter(|&u| interferes(path, u));
        all.map(|u| graph.wcets[u] as u128 * (product / graph.cores_of(u) as u128)).sum::<u128>()
    };
    let most = paths.iter().map(|path| of_path(path) * product + beside(path)).max().unwrap();
    let longest = paths.iter().map(|path| of_path(path)).max().unwrap() as u64;
    let value = second(graph).unwrap();
    Ways::of(graph).complete_paths() == paths.len() as u128
        && value == one_part(most, product) as u64
        && (longest * PARTS_IN_A_TICK..=bounds(graph).new).contains(&value)
        && (value == bounds(graph).new || graph.kinds.iter().any(|&kind| kind != graph.kinds[0]))
}

fn too_many_paths() -> Result<u64, Refusal> {
    Err(Refusal { number: 17, place: 0 })
}

/// Each gain is what the longest path and the volume lose together: the paths are all there, and v's time is left out of
/// each. It is no less than v's share of the volume and no more than v's WCET. A vertex's place in the ranking is how
/// many come before it.
fn gains_agree(graph: &Graph) -> bool {
    let paths = complete_paths(graph);
    let scaled = |v: u8| scaled_sum(graph, &[v]);
    let without = |p: &[u8], v: u8| p.iter().filter(|&&u| u != v).map(|&u| scaled(u)).sum::<u128>();
    let most = paths.iter().map(|p| scaled_sum(graph, p)).max().unwrap();
    let gains = gains_of(graph);
    let ranking = ranking(&gains);
    let comes_before = |u: usize, v: usize| gains[u] > gains[v] || gains[u] == gains[v] && u < v;
    ranking.len() == gains.len()
        && (0..graph.vertices()).all(|v| {
            let wcet = graph.wcets[v] as u128;
            let share = one_part(wcet, graph.cores_of(v) as u128);
            let left = paths.iter().map(|p| without(p, v as u8)).max().unwrap();
            let gain = gains[v] as u128;
            gain == most - left + share
                && (share..=wcet * PARTS_IN_A_TICK as u128).contains(&gain)
                && ranking[(0..gains.len()).filter(|&u| comes_before(u, v)).count()] == v
        })
}

/// The gains of an alteration are those of the file whose record says the same.
fn alteration_agrees(random: &mut Random, graph: &Graph) -> bool {
    let v = random.below(graph.vertices());
    let wcet = altered::wcet(random, graph.wcets[v]) as u32;
    let record = graph.cores.len() + v;
    let mut file = file_of(graph);
    file[record * RECORD + 4..(record + 1) * RECORD].copy_from_slice(&wcet.to_le_bytes());
    gains_altered(graph, v as u32, wcet, 128) == read(&file).and_then(|graph| gains(&graph, 128))
}

/// A number of ticks over a number of cores, multiplied first and divided last; no rest may be left.
fn one_part(ticks: u128, cores: u128) -> u128 {
    assert_eq!(ticks * PARTS_IN_A_TICK as u128 % cores, 0);
    ticks * PARTS_IN_A_TICK as u128 / cores
}

fn scaled_sum(graph: &Graph, path: &[u8]) -> u128 {
    let scaled =
        |v: usize| one_part(graph.wcets[v] as u128 * (graph.cores_of(v) as u128 - 1), graph.cores_of(v) as u128);
    path.iter().map(|&v| scaled(v as usize)).sum()
}

fn complete_paths(graph: &Graph) -> Vec<Vec<u8>> {
    let (before, after) = (graph.predecessors(), graph.successors());
    let sources = (0..graph.vertices()).filter(|&v| before[v].is_empty());
    let mut unended: Vec<Vec<u8>> = sources.map(|v| vec![v as u8]).collect();
    let mut complete = Vec::new();
    while let Some(path) = unended.pop() {
        let onward = &after[path[path.len() - 1] as usize];
        if onward.is_empty() {
            complete.push(path);
        } else {
            unended.extend(onward.iter().map(|&w| [&path[..], &[w as u8]].concat()));
        }
    }
    complete
}

/// A whole run equals its ticks: each vertex's finish is the first instant at which it is finished, and each record on
/// the way is the one that the spans give: there a predecessor is unfinished where its finish lies ahead.
fn runs_agree(random: &mut Random, graph: &Graph) -> bool {
    let times = times(random, graph);
    let mut record = start(graph, &times).unwrap();
    let mut finishes = vec![None; graph.vertices()];
    loop {
        if record != record_at(graph, &times, record.instant) {
            return false;
        }
        for (v, done) in finished(graph, &record.remaining).into_iter().enumerate() {
            if done {
                finishes[v].get_or_insert(record.instant as u32);
            }
        }
        match tick(graph, &record).unwrap() {
            (Ticked::Moved, next) => record = next,
            (Ticked::Done, same) => break same == record && finishes_agree(graph, &times, finishes),
        }
    }
}

/// Of any record, good or bad: nothing is wrong with the numbers that the complete paths give, and with others it is refused. A
/// predecessor is unfinished where it has ticks left itself, or someone before it on a path has.
fn numbers_agree(random: &mut Random, graph: &Graph) -> bool {
    let paths = complete_paths(graph);
    let records =
        [misnumbered(random, graph), misnumbered(random, graph), damaged(random, graph), unreached(random, graph)];
    records.iter().all(|record| {
        let mut unfinished = vec![false; graph.vertices()];
        for path in &paths {
            let mut some_left = false;
            for &v in path {
                some_left |= record.remaining[v as usize] > 0;
                unfinished[v as usize] |= some_left;
            }
        }
        let mut numbers = [0; MOST_VERTICES];
        graph.edges.iter().for_each(|&(u, v)| numbers[v as usize] += unfinished[u as usize] as u8);
        let right = RunRecord { waiting: numbers, ..record.clone() };
        let is_right = right.unmet(graph).iter().all(|wrong| !["another number", "a number from N on"].contains(wrong));
        is_right && (record.waiting == numbers || tick(graph, record) == refused(16, 0))
    })
}

fn finishes_agree(graph: &Graph, times: &[u32], finishes: Vec<Option<u32>>) -> bool {
    let finishes: Vec<u32> = finishes.into_iter().map(Option::unwrap).collect();
    let bound = bounds(graph).ticks;
    run(graph, times, 128) == Ok(finishes) && spans(graph, times).iter().all(|span| span.end <= bound)
}

/// A run stopped at a tick, at each tick up to the bound and past it: yes exactly where the record that has been played is done,
/// and played is by how much it has advanced. From the bound on nothing has to be played: the run was done.
fn late_agrees(random: &mut Random, graph: &Graph) -> bool {
    let times = times(random, graph);
    let bound = bounds(graph).ticks;
    let mut record = start(graph, &times).unwrap();
    for d in 0..bound + 3 {
        let (ticked, next) = tick(graph, &record).unwrap();
        let yes = ticked == Ticked::Done;
        let played = if d < bound { record.instant } else { 0 };
        if late(graph, &times, d as u32) != Ok(Late { yes, played }) || d >= bound && !yes {
            return false;
        }
        record = next;
    }
    late(graph, &times, u32::MAX) == Ok(Late { yes: true, played: 0 })
}

/// Any log is judged as it is tick by tick. That of a schedule is accepted with its times, ends with the last stop and by
/// NEW-B-1; that of a list schedule has the run's finish, and is refused where the room is a byte short.
fn logs_agree(random: &mut Random, graph: &Graph) -> bool {
    let n = graph.vertices();
    let times = times(random, graph);
    let manner = Manner::any(random);
    let any = schedule(random, graph, &times, manner);
    let end = any.last().map_or(0, |event| event.instant as u64);
    let of_run = bytes_of(&events_of_run(graph, &times));
    let finish = spans(graph, &times).iter().map(|span| span.end).max().unwrap();
    let room = random.below(n + 2);
    let odd = logs::any(random, graph);
    replay(graph, &bytes_of(&any), n) == Ok(Replay { finish: end, times: times.clone() })
        && end <= bounds(graph).ticks
        && replay(graph, &of_run, n) == Ok(Replay { finish, times: times.clone() })
        && log(graph, &times, of_run.len()) == Ok(of_run.clone())
        && (of_run.is_empty() || log(graph, &times, of_run.len() - 1) == Err(Refusal { number: 15, place: 0 }))
        && [bytes_of(&any), of_run, odd].iter().all(|log| replay(graph, log, room) == judged(graph, log, room))
}

/// Every schedule of three vertices over three ticks, whoever runs in each of them, on every graph of theirs with one type
/// or two: its log is accepted exactly where the schedule is work conserving, and has its times.
fn schedules_of_three() -> Vec<String> {
    let edges = [(0, 1), (0, 2), (1, 2)];
    let subset = |set: usize| edges.iter().enumerate().filter(move |(i, _)| set >> i & 1 == 1).map(|(_, &edge)| edge);
    let mut faults = Vec::new();
    let mut accepted = 0;
    for board in 0..8 * 4 * 2 {
        let graph = Graph {
            cores: [[1, 1], [2, 1]][board % 2].to_vec(),
            kinds: [[0, 0, 0], [0, 0, 1], [0, 1, 0], [0, 1, 1]][board / 2 % 4].to_vec(),
            wcets: vec![2, 1, 3],
            edges: subset(board / 8).collect(),
        };
        for sets in 0..8usize.pow(3) {
            let ticks: Vec<Vec<bool>> =
                (0..3).map(|t| (0..3).map(|v| sets >> (3 * t + v) & 1 == 1).collect()).collect();
            // the log says nothing of ticks behind its last record
            let busy = ticks.iter().rposition(|tick| tick.contains(&true)).map_or(0, |t| t + 1);
            let log = bytes_of(&log_of(3, &ticks[..busy]));
            let outcome = replay(&graph, &log, 3);
            let is_conserving = is_work_conserving(&graph, &ticks[..busy]);
            accepted += outcome.is_ok() as u64;
            if outcome != judged(&graph, &log, 3)
                || outcome.is_ok() != is_conserving
                || outcome.is_ok_and(|replayed| replayed.finish != busy as u64)
            {
                faults.push(format!("{ticks:?} on {graph:?} is judged in two ways"));
            }
        }
    }
    if accepted < 1_000 {
        faults.push(format!("only {accepted} schedules of three vertices are accepted"));
    }
    faults
}

/// The cases of document 01, order 2's own, the examples of document 000, and the samples.
fn worked_on_paper() -> Vec<String> {
    let mut faults = Vec::new();
    let mut expect = |name: &str, holds: bool| {
        if !holds {
            faults.push(format!("{name} has another outcome than on paper"));
        }
    };
    let file = |lists: &Lists| file_of_records(&records_of(lists));
    let graph = |lists: &Lists| read(&file(lists)).unwrap();
    let number = |lists: &Lists| read(&file(lists)).map_err(|refusal| refusal.number);
    let old_new = |lists: &Lists| (bounds(&graph(lists)).old, bounds(&graph(lists)).new);
    let finishes = |lists: &Lists, times: &[u32]| run(&graph(lists), times, 128);

    let a = case_a();
    expect(
        "A",
        sheet(&file(&a))
            == "graph 2 4 4\nold 14174160\nnew 13693680\nsecond 11531520\nticks 19\npath 0 1 3\ngains 1 0 2 3\n",
    );
    expect("A, full times", finishes(&a, &a.wcets) == Ok(vec![4, 13, 10, 16]));
    let b = Lists { cores: vec![4, 3], ..a.clone() };
    expect("B", old_new(&b) == (13_333_320, 12_612_600));
    let c = Lists { cores: vec![16, 3], ..a.clone() };
    expect("C", old_new(&c) == (14_144_130, 11_801_790));
    expect("A with unused cores", bounds(&graph(&unused_cores())) == bounds(&graph(&a)));
    expect("A with cores for no time", old_new(&cores_for_no_time()) == (17_297_280, 13_693_680));
    let d = case_d();
    expect("D", old_new(&d) == (12_252_240, 12_252_240) && least_path(&graph(&d)) == [0, 1, 3, 6]);
    expect("D, full times", finishes(&d, &d.wcets).unwrap().into_iter().max() == Some(9));
    expect("E", finishes(&d, &[0, 2, 2, 5, 1, 6, 0]).unwrap().into_iter().max() == Some(14));
    let f = case_f();
    expect(
        "F",
        sheet(&file(&f)) == "graph 1 1 0\nold 0\nnew 0\nsecond 0\nticks 0\npath 0\ngains 0\n"
            && finishes(&f, &[0]) == Ok(vec![0]),
    );
    expect("G", read(&[]) == Err(Refusal { number: 4, place: 0 }));
    expect("H", read(&[0; 7]) == Err(Refusal { number: 1, place: 0 }));
    let with_edges =
        |edges: &[(u8, u8)]| Lists { edges: edges.iter().map(|&(u, v)| edge(u, v)).collect(), ..a.clone() };
    expect("I", number(&with_edges(&[(0, 1), (0, 2), (1, 3), (2, 3), (3, 0)])) == Err(11));
    let j = with_edges(&[(0, 1), (1, 3), (2, 3)]);
    expect(
        "J",
        sheet(&file(&j))
            == "graph 2 4 3\nold 14174160\nnew 13693680\nsecond 13693680\nticks 19\npath 0 1 3\ngains 1 0 2 3\n",
    );
    expect("J, full times", finishes(&j, &j.wcets) == Ok(vec![4, 13, 6, 16]));
    let two = two_without_an_edge();
    expect("two without an edge", old_new(&two) == (3_243_240, 3_243_240) && least_path(&graph(&two)) == [0]);
    expect("the longer of two", least_path(&graph(&Lists { wcets: vec![3, 4], ..two })) == [1]);
    expect("a source of no time", least_path(&graph(&source_of_no_time())) == [1, 0]);
    expect("K", number(&with_edges(&[(0, 1), (0, 1), (0, 2), (1, 3), (2, 3)])) == Err(10));
    expect("L", finishes(&a, &[4, 10, 6, 3]) == Err(Refusal { number: 14, place: 1 }));

    for (place, (bytes, ticks, second_ticks)) in EXAMPLES.iter().enumerate() {
        let parts = ticks * PARTS_IN_A_TICK;
        let graph = read(bytes).unwrap();
        let same = bounds(&graph) == Bounds { old: parts, new: parts, ticks: *ticks };
        expect(&format!("example {}", place + 1), same && second(&graph) == Ok(second_ticks * PARTS_IN_A_TICK));
    }
    expect("the sample of case A", SAMPLES[0].0 == file(&a));
    SAMPLES.iter().for_each(|(bytes, text)| expect("a sample's sheet", sheet(bytes) == *text));
    faults
}

/// docs/orders/07.md works these out: the finish and the times, or the number and the place.
fn logs_on_paper() -> Vec<String> {
    let [a, two, d] =
        [case_a(), two_cores(), case_d()].map(|lists| read(&file_of_records(&records_of(&lists))).unwrap());
    let full: (u64, &[u32]) = (16, &[4, 9, 6, 3]);
    let whole = |finish: u64| Ok((finish, &[4, 4, 4, 2][..]));
    let worked: [(&str, Result<(u64, &[u32]), (u32, usize)>); 49] = [
        ("as planned", Ok(full)),
        ("nothing ran", Ok((0, &[0; 4]))),
        ("2 took no time", Ok((16, &[4, 9, 0, 3]))),
        ("3 alone took time", Ok((3, &[0, 0, 0, 3]))),
        ("1 stopped and started at 7", Ok(full)),
        ("another kind", Err((18, 2))),
        ("vertex 4", Err((18, 3))),
        ("2 before 1", Err((18, 3))),
        ("start before stop", Err((18, 2))),
        ("back in time", Err((18, 5))),
        ("0 starts twice", Err((18, 1))),
        ("2 stops twice", Err((18, 5))),
        ("3 runs on", Err((18, 0))),
        ("stops at 128,000,001", Err((18, 7))),
        ("stops at 128,000,000", Err((21, 3))),
        ("3 before 1 is finished", Err((19, 5))),
        ("3 past absent ones", Err((19, 1))),
        ("0 comes back", Err((19, 2))),
        ("0 took 5", Err((21, 0))),
        ("2 took 7", Err((21, 2))),
        ("3 took 4", Err((21, 3))),
        ("begins at 1", Err((22, 0))),
        ("2 a tick late", Err((22, 4))),
        ("2 rests at 8", Err((22, 8))),
        ("3 a tick late", Err((22, 13))),
        ("3 rests at 15", Err((22, 15))),
        ("2 and 3 a tick late", Err((22, 4))),
        ("begins at 1, 0 took 5", Err((21, 0))),
        ("0 took 5, 3 too early", Err((19, 1))),
        ("all of it, and 3 runs on", Err((18, 0))),
        ("a stop first", Err((18, 0))),
        ("3 before 0", Err((19, 0))),
        ("as planned", whole(8)),
        ("0 set aside at 1", whole(9)),
        ("0 last", whole(10)),
        ("0 stopped and started at 1", whole(8)),
        ("every tick another two", whole(8)),
        ("three at once", Err((20, 2))),
        ("0 resumed too early", Err((20, 4))),
        ("2 a tick early", Err((20, 2))),
        ("3 while 0 is set aside", Err((19, 5))),
        ("three at once, 3 too early", Err((19, 3))),
        ("0 took 5, three at once", Err((20, 2))),
        ("2 a tick late", Err((22, 1))),
        ("0 resumed late", Err((22, 4))),
        ("D as planned", Ok((9, &[0, 3, 2, 5, 1, 6, 0]))),
        ("E as planned", Ok((14, &[0, 2, 2, 5, 1, 6, 0]))),
        ("E, 4 before 3", Ok((9, &[0, 2, 2, 5, 1, 6, 0]))),
        ("2 and 3 on one core", Err((20, 1))),
    ];
    let mut faults = Vec::new();
    let frames = frames();
    for ((name, lists, log), (same, outcome)) in frames.iter().zip(&worked) {
        let graph = read(&file_of_records(&records_of(lists))).unwrap();
        let n = graph.vertices();
        let want = |room: usize| match outcome {
            Err((number, place)) => Err(Refusal { number: *number, place: *place }),
            Ok(_) if room < n => Err(Refusal { number: 15, place: 0 }),
            Ok((finish, times)) => Ok(Replay { finish: *finish, times: times.to_vec() }),
        };
        if name != same || [0, n - 1, n, n + 1].iter().any(|&room| replay(&graph, log, room) != want(room)) {
            faults.push(format!("the log '{name}' has another outcome than on paper"));
        }
    }
    // a spare byte, a length, and the logs of runs
    let spare = |at: usize| {
        let mut log = frames[0].2.clone();
        log[at] = 1;
        replay(&a, &log, 4)
    };
    let mut expect = |name: &str, holds: bool| {
        if !holds {
            faults.push(format!("{name} is not as on paper"));
        }
    };
    expect("a log of every frame", frames.len() == worked.len());
    expect("a spare byte", spare(8 * 3 + 2) == refused(18, 3) && spare(8 * 7 + 3) == refused(18, 7));
    expect("a byte less", replay(&a, &frames[0].2[..63], 4) == refused(18, 0));
    expect("a byte more", replay(&a, &[&frames[0].2[..], &[0]].concat(), 4) == refused(18, 0));
    expect("the bounds of two cores", bounds(&two).ticks == 10);
    let (with_e, zero) = ([0, 2, 2, 5, 1, 6, 0], [0; 4]);
    expect("A's log", log(&a, &a.wcets, 64).as_ref() == Ok(&frames[0].2) && log(&a, &a.wcets, 63).is_err());
    expect("A's log of no time", log(&a, &zero, 0) == Ok(vec![]));
    expect("the log of two cores", log(&two, &two.wcets, 64).as_ref() == Ok(&frames[32].2));
    expect("D's log", log(&d, &d.wcets, 80).as_ref() == Ok(&frames[45].2));
    expect("E's log", log(&d, &with_e, 80).as_ref() == Ok(&frames[46].2));
    expect("L's log", log(&a, &[4, 10, 6, 3], 0) == Err(Refusal { number: 14, place: 1 }));
    expect("a log of three times", log(&a, &[4, 10, 6], 0) == Err(Refusal { number: 13, place: 0 }));
    let board = read(SAMPLES[1].0).unwrap();
    let [ran, idled] = RECORDED.map(|log| replay(&board, log, 91));
    expect("the board's frame", ran.map(|replayed| replayed.finish) == Ok(31_656));
    expect("the board's frame with a core idle", idled == refused(22, 2_549));
    let longest = chain(MOST_VERTICES, 1, MOST_WCET);
    let all = log(&longest, &longest.wcets, 2_048).unwrap();
    let last = Replay { finish: 128_000_000, times: longest.wcets.clone() };
    expect("the longest run", all.len() == 2_048 && replay(&longest, &all, MOST_VERTICES) == Ok(last));
    faults
}

/// docs/orders/08.md works these out: from which instant on the numbers stand, up to the finish.
fn numbers_on_paper() -> Vec<String> {
    let largest: Vec<(u64, Vec<u8>)> = (0..=43)
        .map(|step: u64| (5 * step, [vec![0; 127], vec![127u8.saturating_sub(3 * step as u8)]].concat()))
        .chain([(220, vec![0; 128])])
        .collect();
    let at = |stands: &[(u64, &[u8])]| stands.iter().map(|&(t, numbers)| (t, numbers.to_vec())).collect();
    let worked: [(&str, Vec<(u64, Vec<u8>)>); 10] = [
        ("A", at(&[(0, &[0, 1, 1, 2]), (4, &[0, 0, 0, 2]), (10, &[0, 0, 0, 1]), (13, &[0; 4]), (16, &[0; 4])])),
        ("A, 2 takes no time", at(&[(0, &[0, 1, 1, 2]), (4, &[0, 0, 0, 1]), (13, &[0; 4]), (16, &[0; 4])])),
        ("A, 0 takes no time", at(&[(0, &[0, 0, 0, 2]), (6, &[0, 0, 0, 1]), (9, &[0; 4]), (12, &[0; 4])])),
        ("A, nothing takes time", at(&[(0, &[0; 4])])),
        (
            "D",
            at(&[
                (0, &[0, 0, 0, 1, 1, 1, 2]),
                (2, &[0, 0, 0, 1, 0, 1, 2]),
                (3, &[0, 0, 0, 0, 0, 0, 2]),
                (8, &[0, 0, 0, 0, 0, 0, 1]),
                (9, &[0; 7]),
            ]),
        ),
        (
            "E",
            at(&[
                (0, &[0, 0, 0, 1, 1, 1, 2]),
                (2, &[0, 0, 0, 0, 0, 1, 2]),
                (7, &[0, 0, 0, 0, 0, 1, 1]),
                (8, &[0, 0, 0, 0, 0, 0, 1]),
                (14, &[0; 7]),
            ]),
        ),
        ("a chain of no time", at(&[(0, &[0, 1, 1, 1, 1]), (2, &[0; 5]), (5, &[0; 5])])),
        ("no time at the ends", at(&[(0, &[0, 0, 0, 1, 1]), (3, &[0; 5])])),
        ("no time beside", at(&[(0, &[0, 1, 2]), (2, &[0; 3]), (5, &[0; 3])])),
        ("one behind 127", largest),
    ];
    let mut faults = Vec::new();
    let runs = numbers::runs();
    for ((name, graph, times), (same, stands)) in runs.iter().zip(&worked) {
        if name != same || !numbers_stand(graph, times, stands) {
            faults.push(format!("the numbers of '{name}' are not as on paper"));
        }
    }
    if runs.len() != worked.len() {
        faults.push("not every run with numbers is worked on paper".to_string());
    }
    faults
}

/// docs/orders/08.md works these out: what a tick says, with the numbers that it hands back; none where it is 16 at 0.
fn records_on_paper() -> Vec<String> {
    let moved = |numbers: &[u8]| Some((Ticked::Moved, padded(numbers)));
    let worked = [
        ("A at 4", moved(&[0, 0, 0, 2])),
        ("A at 4, one too low", None),
        ("A at 4, one too high", None),
        ("A at 4, 1 for the first", None),
        ("A at 4, 255 for the first", None),
        ("A at 4, those of instant 3", None),
        ("A at 4, all zero", None),
        ("A at 4, a 1 at place 4", None),
        ("A at 4, a 1 at place 127", None),
        ("A at 0, all that stand before", None),
        ("A at 16", Some((Ticked::Done, [0; MOST_VERTICES]))),
        ("A at 16, a number left", None),
        ("1 ahead of 0", moved(&[0, 1, 1, 2])),
        ("1 ahead of 0, taken for finished", None),
        ("1 ahead of 0, both finish", moved(&[0, 0, 0, 1])),
        ("the chain at 1", moved(&[0; 5])),
        ("the chain at 1, by the remainders", None),
        ("the chain at 2, told to 1", None),
        ("the chain at 2, told to 2", None),
        ("the chain at 2, told to 3", None),
        ("beside at 1", moved(&[0; 3])),
        ("beside at 1, by the remainders", None),
        ("beside at 2, told once", None),
    ];
    let records = numbers::records();
    let mut faults = Vec::new();
    for ((name, graph, record), (same, outcome)) in records.iter().zip(&worked) {
        let told = tick(graph, record).map(|(ticked, next)| (ticked, next.waiting));
        if name != same || told != outcome.ok_or(Refusal { number: 16, place: 0 }) {
            faults.push(format!("the record '{name}' has another outcome than on paper"));
        }
    }
    if records.len() != worked.len() {
        faults.push("not every record is worked on paper".to_string());
    }
    faults
}

fn padded(numbers: &[u8]) -> Numbers {
    let mut all = [0; MOST_VERTICES];
    all[..numbers.len()].copy_from_slice(numbers);
    all
}

/// Tick by tick: from each instant on those numbers, until the next one, and the last instant is the finish.
fn numbers_stand(graph: &Graph, times: &[u32], stands: &[(u64, Vec<u8>)]) -> bool {
    let mut record = start(graph, times).unwrap();
    loop {
        let (_, numbers) = stands.iter().rfind(|(from, _)| *from <= record.instant).unwrap();
        if record.waiting != padded(numbers) {
            return false;
        }
        match tick(graph, &record).unwrap() {
            (Ticked::Moved, next) => record = next,
            (Ticked::Done, same) => break same == record && record.instant == stands[stands.len() - 1].0,
        }
    }
}

fn refused<T>(number: u32, place: usize) -> Result<T, Refusal> {
    Err(Refusal { number, place })
}

/// docs/orders/05.md works these out.
fn late_on_paper() -> Vec<String> {
    let graph = |lists: &Lists| read(&file_of_records(&records_of(lists))).unwrap();
    let (a, d, f) = (graph(&case_a()), graph(&case_d()), graph(&case_f()));
    let (full, none, e) = ([4, 9, 6, 3], [0; 4], [0, 2, 2, 5, 1, 6, 0]);
    let (longest, most) = (chain(MOST_VERTICES, 1, MOST_WCET), [MOST_WCET; MOST_VERTICES]);
    let worked: [(&str, &Graph, &[u32], u32, bool, u64); 29] = [
        ("A", &a, &full, 0, false, 0),
        ("A", &a, &full, 15, false, 15),
        ("A", &a, &full, 16, true, 16),
        ("A", &a, &full, 17, true, 16),
        ("A", &a, &full, 18, true, 16),
        ("A", &a, &full, 19, true, 0),
        ("A", &a, &full, u32::MAX, true, 0),
        ("A of no time", &a, &none, 0, true, 0),
        ("A of no time", &a, &none, 18, true, 0),
        ("D", &d, &d.wcets, 8, false, 8),
        ("D", &d, &d.wcets, 9, true, 9),
        ("D", &d, &d.wcets, 10, true, 9),
        ("D", &d, &d.wcets, 13, true, 9),
        ("D", &d, &d.wcets, 16, true, 9),
        ("D", &d, &d.wcets, 17, true, 0),
        ("E", &d, &e, 8, false, 8),
        ("E", &d, &e, 9, false, 9),
        ("E", &d, &e, 10, false, 10),
        ("E", &d, &e, 13, false, 13),
        ("E", &d, &e, 14, true, 14),
        ("E", &d, &e, 16, true, 14),
        ("E", &d, &e, 17, true, 0),
        ("F", &f, &[0], 0, true, 0),
        ("F", &f, &[0], u32::MAX, true, 0),
        ("the longest run", &longest, &most, 1, false, 1),
        ("the longest run", &longest, &most, 64_000_000, false, 64_000_000),
        ("the longest run", &longest, &most, 64_500_001, false, 64_500_001),
        ("the longest run", &longest, &most, 127_999_999, false, 127_999_999),
        ("the longest run", &longest, &most, 128_000_000, true, 0),
    ];
    let refused: [(&str, &[u32], u32, usize); 4] = [
        ("L", &[4, 10, 6, 3], 14, 1),
        ("A, two times too long", &[4, 9, 7, 4], 14, 2),
        ("A, three times", &[4, 10, 6], 13, 0),
        ("A, no times", &[], 13, 0),
    ];
    let mut faults = Vec::new();
    for (name, graph, times, d, yes, played) in worked {
        if late(graph, times, d) != Ok(Late { yes, played }) {
            faults.push(format!("{name} by tick {d} has another outcome than on paper"));
        }
    }
    for (name, times, number, place) in refused {
        if [0, 19, u32::MAX].iter().any(|&d| late(&a, times, d) != Err(Refusal { number, place })) {
            faults.push(format!("{name}: another refusal than on paper"));
        }
    }
    faults
}

/// docs/orders/11.md works these out: a graph and a better one, with OLD-B, NEW-B-1 and NEW-B-2 of each, in parts.
fn better_on_paper() -> Vec<String> {
    let graph = |lists: Lists| read(&file_of_records(&records_of(&lists))).unwrap();
    let (a, tick) = (case_a(), PARTS_IN_A_TICK);
    let b = Lists { cores: vec![4, 3], ..a.clone() };
    let c = Lists { cores: vec![16, 3], ..a.clone() };
    let j = Lists { edges: vec![edge(0, 1), edge(1, 3), edge(2, 3)], ..a.clone() };
    let (two, three) = (two_chained(), three_joined());
    let worked: [(&str, Lists, [u64; 3]); 8] = [
        ("A", a, [14_174_160, 13_693_680, 16 * tick]),
        ("B", b, [13_333_320, 12_612_600, 16 * tick]),
        ("C", c, [14_144_130, 11_801_790, 16 * tick]),
        ("J", j, [14_174_160, 13_693_680, 19 * tick]),
        ("two of one core", two.clone(), [2 * tick, 2 * tick, 2 * tick]),
        ("two, one core more", Lists { cores: vec![2, 1], ..two }, [5 * tick / 2, 2 * tick, 2 * tick]),
        ("three", three.clone(), [3 * tick, 3 * tick, 2 * tick]),
        ("three without an edge", Lists { edges: vec![edge(0, 2)], ..three }, [3 * tick; 3]),
    ];
    let differs = worked.into_iter().filter_map(|(name, lists, on_paper)| {
        let graph = graph(lists);
        let found = [bounds(&graph).old, bounds(&graph).new, second(&graph).unwrap()];
        (found != on_paper).then(|| format!("{name} has other bounds than on paper: {found:?}"))
    });
    differs.collect()
}

/// docs/orders/01.md works these gains out. A refused alteration of case A has its number and place.
fn gains_on_paper() -> Vec<String> {
    let graph = |lists: Lists| read(&file_of_records(&records_of(&lists))).unwrap();
    let (a, d, tick) = (graph(case_a()), graph(case_d()), PARTS_IN_A_TICK);
    let two = graph(two_longest_paths());
    let one = graph(type_of_one_core());
    let gains: [(&str, &Graph, &[u64], &[usize]); 7] = [
        ("A", &a, &[2_882_880, 4_324_320, 2_162_160, 2_162_160], &[1, 0, 2, 3]),
        ("A, altered", &with_wcet(&a, 1, 3), &[2_882_880, 720_720, 2_882_880, 2_162_160], &[0, 2, 3, 1]),
        ("two longest paths", &two, &[1_441_440, 1_081_080, 1_081_080, 2_882_880], &[3, 0, 1, 2]),
        ("a type of one core", &one, &[4 * tick, 5 * tick, 4 * tick, 2 * tick], &[1, 0, 2, 3]),
        ("a middle of no time", &graph(middle_of_no_time()), &[3 * tick, 0, 2 * tick], &[0, 2, 1]),
        ("D", &d, &[0, 3, 2, 5, 1, 6, 0].map(|c| c * tick), &[5, 3, 1, 2, 4, 0, 6]),
        ("F", &graph(case_f()), &[0], &[0]),
    ];
    let refusals = [
        ((4, MOST_WCET + 1, 0), 7, 0),
        ((4, MOST_WCET, 4), 7, 0),
        ((u32::MAX, u32::MAX, 128), 7, 0),
        ((0, MOST_WCET + 1, 0), 7, 2),
        ((3, u32::MAX, 4), 7, 5),
        ((3, MOST_WCET, 3), 15, 0),
    ];
    let other_gains =
        gains.iter().filter(|(_, graph, want, first)| gains_of(graph) != *want || ranking(want) != *first);
    let other_refusals = refusals.iter().filter(|((vertex, wcet, room), number, place)| {
        gains_altered(&a, *vertex, *wcet, *room) != Err(Refusal { number: *number, place: *place })
    });
    let mut faults: Vec<String> = Vec::new();
    faults.extend(other_gains.map(|(name, ..)| format!("{name} has other gains than on paper")));
    faults.extend(other_refusals.map(|(altered, ..)| format!("A altered by {altered:?} is not refused as on paper")));
    faults
}

/// docs/orders/04.md works these out: NEW-B-1, the value of each complete path, as they stand in a dictionary, in half
/// ticks, and in half ticks too what document 003's recursion (10) would give instead.
fn second_on_paper() -> Vec<String> {
    let graph = |lists: &Lists| read(&file_of_records(&records_of(lists))).unwrap();
    let (a, tick, half) = (case_a(), PARTS_IN_A_TICK, PARTS_IN_A_TICK / 2);
    let j = Lists { edges: vec![edge(0, 1), edge(1, 3), edge(2, 3)], ..a.clone() };
    let [one, two, three] = EXAMPLES.map(|(bytes, ..)| read(bytes).unwrap());
    let worked: [(&str, Graph, u64, &[u64], u64); 12] = [
        ("A", graph(&a), 13_693_680, &[32, 26], 32),
        ("B", graph(&Lists { cores: vec![4, 3], ..a.clone() }), 12_612_600, &[32, 26], 32),
        ("C", graph(&Lists { cores: vec![16, 3], ..a.clone() }), 11_801_790, &[32, 26], 32),
        ("D", graph(&case_d()), 17 * tick, &[34, 34], 34),
        ("F", graph(&case_f()), 0, &[0], 0),
        ("J", graph(&j), 19 * tick, &[38, 22], 32),
        ("parallel to two", graph(&parallel_to_two()), 10_570_560, &[26, 25, 16], 26),
        ("two sources", graph(&two_sources()), 10 * tick, &[20, 20], 14),
        ("two without an edge", graph(&two_without_an_edge()), 9 * half, &[9, 9], 6),
        ("example 1", one, 930 * tick, &[1_760, 1_200], 1_760),
        ("example 2", two, 468 * tick, &[936, 651], 936),
        ("example 3", three, 320 * tick, &[640], 640),
    ];
    let differs = worked.iter().filter(|(_, graph, new, by_path, recursion)| {
        let by_path: Vec<u64> = by_path.iter().map(|halves| halves * half).collect();
        bounds(graph).new != *new
            || !values(graph, &Ways::of(graph)).eq(by_path.iter().copied())
            || second(graph).ok() != by_path.iter().max().copied()
            || by_recursion(graph) != recursion * half
    });
    let mut faults: Vec<String> =
        differs.map(|(name, ..)| format!("{name} has another NEW-B-2 than on paper")).collect();
    // the run that the recursion would call impossible
    if run(&graph(&two_sources()), &[3, 5, 2], 3) != Ok(vec![3, 8, 10]) {
        faults.push("the two sources don't finish as on paper".to_string());
    }
    faults
}

/// Document 003's recursion (10), which leaves out what is parallel to the first vertex of a path: right for one source.
fn by_recursion(graph: &Graph) -> u64 {
    let paths = complete_paths(graph);
    let related = |u: u8, v: u8| paths.iter().any(|p| p.contains(&u) && p.contains(&v));
    let parallel = |v: u8| {
        let of_kind = (0..graph.vertices() as u8).filter(move |&u| graph.kinds[u as usize] == graph.kinds[v as usize]);
        of_kind.filter(|&u| !related(u, v)).collect::<Vec<u8>>()
    };
    let along = |path: &Vec<u8>| {
        let mut parts = 0;
        for (i, &v) in path.iter().enumerate() {
            let kind = graph.kinds[v as usize];
            let last = path[..i].iter().rev().find(|&&u| graph.kinds[u as usize] == kind);
            let counted = last.map_or(vec![], |&u| parallel(u));
            let fresh = parallel(v).into_iter().filter(|u| i > 0 && !counted.contains(u));
            let beside: u64 = fresh.map(|u| graph.wcets[u as usize] as u64).sum();
            parts += graph.wcets[v as usize] as u64 * PARTS_IN_A_TICK
                + beside * (PARTS_IN_A_TICK / graph.cores_of(v as usize));
        }
        parts
    };
    paths.iter().map(along).max().unwrap()
}

/// The catalogue's graphs have the numbers of complete paths that they are there for, each counted from the sources on too,
/// and those with more than 4,096 are refused.
fn paths_counted() -> Vec<String> {
    let graphs = numbers_of_paths();
    let from_sources = |graph: &Graph| {
        let (before, after) = (graph.predecessors(), graph.successors());
        let mut ending = vec![0u128; graph.vertices()];
        for v in topological(graph) {
            ending[v] = before[v].iter().map(|&u| ending[u]).sum::<u128>().max(1);
        }
        (0..graph.vertices()).filter(|&v| after[v].is_empty()).map(|v| ending[v]).sum::<u128>()
    };
    let counts: Vec<u128> = graphs.iter().map(|graph| Ways::of(graph).complete_paths()).collect();
    let mut faults = Vec::new();
    for (graph, &count) in graphs.iter().zip(&counts) {
        let refused = second(graph) == too_many_paths();
        if from_sources(graph) != count || refused != (count > MOST_PATHS) {
            faults.push(format!("{count} complete paths are miscounted in {graph:?}"));
        }
    }
    let wraps = 1 << 64;
    let wanted = [4_095, 4_096, 4_097, 1 << 16, 1 << 32, wraps, wraps + 1, wraps + 2, wraps + 4_096];
    let missing = wanted.iter().filter(|count| !counts.contains(count));
    faults.extend(missing.map(|count| format!("no graph of the catalogue has {count} complete paths")));
    if *counts.iter().max().unwrap() < 10u128.pow(30) {
        faults.push("no graph of the catalogue has 10^30 complete paths".to_string());
    }
    faults
}
