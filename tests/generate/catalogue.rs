//! The requests that are asked for every seed: the worked cases, and every limit from both sides.

use super::enough;
use super::frames::{frames, written};
use super::graphs::{chain, exactly};
use super::late;
use super::lists::{edge, file_of as file_of_records, lists_of, records_of, Record};
use super::logs::{conserving, cut, MOST_RECORDS};
use super::mends;
use super::numbers;
use super::random::Random;
use super::request::{self, Request, LARGEST_ROOM, LONGEST_PAYLOAD};
use super::texts;
use super::ways;
use crate::reference::graph::{Graph, LONGEST_FILE, MOST_VERTICES, MOST_WCET, RECORD};
use crate::reference::log::{bytes_of, events_of_run, START, STOP};
use crate::reference::reader::read;
use crate::reference::record::{RunRecord, LATEST, RECORD_BYTES};
use crate::reference::schedule::{record_at, spans};
use crate::reference::writer::{file_of, Lists};

pub fn catalogue() -> Vec<Request> {
    let mut requests = Vec::new();
    worked_cases().iter().for_each(|file| requests.extend(questions_of(file)));
    good_limits().iter().for_each(|graph| requests.extend(questions_of_graph(graph)));
    broken_limits().iter().for_each(|lists| requests.extend(questions_of_lists(lists)));
    odd_lengths().iter().for_each(|file| requests.extend(questions_of(file)));
    requests.extend(wide_requests());
    requests.extend(ticks_of_small_runs());
    requests.extend(instants_at_the_limit());
    requests.extend(runs_on_paper());
    requests.extend(records_of_other_lengths());
    requests.extend(numbers_one_step_away());
    requests.extend(gains_at_the_limits());
    requests.extend(alterations_of_refused_files());
    requests.extend(ends_of_small_runs());
    requests.extend(late_and_refused());
    requests.extend(frames_on_paper());
    requests.extend(logs_of_refused_files());
    requests.extend(logs_one_step_away());
    requests.extend(logs_at_the_limits());
    requests.extend(logs_of_small_runs());
    requests.extend(texts::catalogue());
    requests.extend(mends::catalogue());
    requests.extend(enough::catalogue());
    for file in numbers_of_paths().iter().map(file_of) {
        requests.extend([request::bounds(&file), request::second(&file)]);
    }
    requests
}

/// Case A of document 01: two types of 2 and 3 cores.
pub fn case_a() -> Lists {
    Lists {
        cores: vec![2, 3],
        kinds: vec![0, 1, 0, 1],
        wcets: vec![4, 9, 6, 3],
        edges: vec![edge(0, 1), edge(0, 2), edge(1, 3), edge(2, 3)],
    }
}

/// Order 2's own example: case A with sixteen cores that no vertex can use.
pub fn unused_cores() -> Lists {
    Lists { cores: vec![2, 3, 16], ..case_a() }
}

/// The same with a vertex of WCET 0 that has their type, between 0 and 3.
pub fn cores_for_no_time() -> Lists {
    Lists {
        kinds: vec![0, 1, 0, 1, 2],
        wcets: vec![4, 9, 6, 3, 0],
        edges: [(0, 1), (0, 2), (0, 4), (1, 3), (2, 3), (4, 3)].map(|(u, v)| edge(u, v)).to_vec(),
        ..unused_cores()
    }
}

/// Case D: two types of one core, so that all scaled weights are 0.
pub fn case_d() -> Lists {
    Lists {
        cores: vec![1, 1],
        kinds: vec![0, 0, 1, 1, 1, 0, 0],
        wcets: vec![0, 3, 2, 5, 1, 6, 0],
        edges: [(0, 1), (0, 2), (1, 3), (2, 4), (3, 6), (4, 5), (5, 6)].map(|(u, v)| edge(u, v)).to_vec(),
    }
}

pub fn case_f() -> Lists {
    Lists { cores: vec![1], kinds: vec![0], wcets: vec![0], edges: vec![] }
}

/// The graphs of docs/orders/01.md. Two longest paths, on a type of two cores.
pub fn two_longest_paths() -> Lists {
    Lists {
        cores: vec![2],
        kinds: vec![0; 4],
        wcets: vec![2, 3, 3, 4],
        edges: [(0, 1), (0, 2), (1, 3), (2, 3)].map(|(u, v)| edge(u, v)).to_vec(),
    }
}

/// The first of two types has one core.
pub fn type_of_one_core() -> Lists {
    Lists { cores: vec![1, 4], kinds: vec![1, 0, 1, 0], wcets: vec![4, 5, 4, 2], ..two_longest_paths() }
}

/// A chain whose middle vertex takes no time.
pub fn middle_of_no_time() -> Lists {
    Lists { cores: vec![2], kinds: vec![0; 3], wcets: vec![3, 0, 2], edges: vec![edge(0, 1), edge(1, 2)] }
}

/// The smallest graph of two sources and two sinks; both have the largest sum.
pub fn two_without_an_edge() -> Lists {
    Lists { cores: vec![2], kinds: vec![0; 2], wcets: vec![3; 2], edges: vec![] }
}

/// Vertex 0 has the largest sum by itself, but a vertex that takes no time leads to it: the path begins there.
pub fn source_of_no_time() -> Lists {
    Lists { wcets: vec![3, 0], edges: vec![edge(1, 0)], ..two_without_an_edge() }
}

/// The graphs of docs/orders/04.md. Vertex 3 is parallel to two vertices of a path, vertex 4 to none.
pub fn parallel_to_two() -> Lists {
    Lists {
        cores: vec![2, 3],
        kinds: vec![0, 0, 0, 0, 1, 1],
        wcets: vec![2, 3, 4, 6, 5, 1],
        edges: [(0, 1), (0, 3), (0, 4), (1, 2), (2, 5), (3, 5), (4, 5)].map(|(u, v)| edge(u, v)).to_vec(),
    }
}

/// Two sources that wait for one core.
pub fn two_sources() -> Lists {
    Lists { cores: vec![1, 2], kinds: vec![0, 0, 1], wcets: vec![3, 5, 2], edges: vec![edge(0, 2), edge(1, 2)] }
}

/// The graph of docs/orders/07.md: one type of two cores, three vertices without an edge between them, and one behind two of
/// these.
pub fn two_cores() -> Lists {
    Lists { cores: vec![2], kinds: vec![0; 4], wcets: vec![4, 4, 4, 2], edges: vec![edge(0, 3), edge(1, 3)] }
}

/// The graphs of docs/orders/08.md, on one core. A chain whose vertices between the first and the last take no time.
pub fn chain_of_no_time() -> Lists {
    Lists {
        cores: vec![1],
        kinds: vec![0; 5],
        wcets: vec![2, 0, 0, 0, 3],
        edges: (1..5).map(|v| edge(v - 1, v)).collect(),
    }
}

/// The same chain, where only the vertex in the middle takes time.
pub fn no_time_at_the_ends() -> Lists {
    Lists { wcets: vec![0, 0, 3, 0, 0], ..chain_of_no_time() }
}

/// Vertex 2 stands behind 0, and behind 1, which takes no time and stands behind 0 too.
pub fn no_time_beside() -> Lists {
    Lists {
        cores: vec![1],
        kinds: vec![0; 3],
        wcets: vec![2, 0, 3],
        edges: [(0, 1), (0, 2), (1, 2)].map(|(u, v)| edge(u, v)).to_vec(),
    }
}

/// 127 vertices before one: the largest number of predecessors.
pub fn one_behind_all() -> Graph {
    with_edges(chain(128, 3, 5), &each(127, |v| (v, 127)))
}

/// The graphs of docs/orders/11.md. Two chained vertices of types of one core each: OLD-B rises with a core more.
pub fn two_chained() -> Lists {
    Lists { cores: vec![1, 1], kinds: vec![0, 1], wcets: vec![1, 1], edges: vec![edge(0, 1)] }
}

/// NEW-B-2 rises without the edge from 1 to 2: these then wait for one core.
pub fn three_joined() -> Lists {
    Lists { cores: vec![1, 1], kinds: vec![1, 0, 0], wcets: vec![1; 3], edges: vec![edge(0, 2), edge(1, 2)] }
}

fn worked_cases() -> Vec<Vec<u8>> {
    let altered = |change: &dyn Fn(&mut Lists)| {
        let mut lists = case_a();
        change(&mut lists);
        lists
    };
    let cases = [
        case_a(),
        altered(&|a| a.cores[0] = 4),
        altered(&|a| a.cores[0] = 16),
        case_d(),
        case_f(),
        altered(&|a| a.edges.push(edge(3, 0))),
        altered(&|a| a.edges.retain(|&e| e != edge(0, 2))),
        altered(&|a| a.edges.insert(0, edge(0, 1))),
        two_longest_paths(),
        type_of_one_core(),
        middle_of_no_time(),
        unused_cores(),
        cores_for_no_time(),
        two_without_an_edge(),
        source_of_no_time(),
        parallel_to_two(),
        two_sources(),
        two_cores(),
        chain_of_no_time(),
        no_time_at_the_ends(),
        no_time_beside(),
        two_chained(),
        Lists { cores: vec![2, 1], ..two_chained() },
        three_joined(),
        Lists { edges: vec![edge(0, 2)], ..three_joined() },
    ];
    cases.iter().map(|lists| file_of_records(&records_of(lists))).collect()
}

fn good_limits() -> Vec<Graph> {
    let random = &mut Random::new(0, 0);
    vec![
        exactly(random, 10, 128, 1_024),
        exactly(random, 10, 128, 127),
        exactly(random, 10, 10, 20),
        exactly(random, 1, 128, 300),
        exactly(random, 3, 46, 1_024),
        chain(128, 16, MOST_WCET),
        chain(128, 1, MOST_WCET),
        chain(2, 16, 1),
        chain(1, 16, MOST_WCET),
        chain(64, 3, 1),
        chain(65, 3, 0),
        with_edges(chain(2, 16, 1), &[]),
        with_edges(chain(128, 16, MOST_WCET), &[]),
        with_edges(chain(128, 1, MOST_WCET), &[]),
        one_behind_all(),
        with_edges(chain(128, 3, 5), &each(127, |v| (0, v + 1))),
        with_edges(chain(128, 3, 5), &each(64, |v| (v, v + 64))),
        with_edges(chain(128, 3, 5), &each(64, |v| (2 * v + 1, 2 * v))),
        with_edges(chain(128, 3, 5), &each(127, |v| (v / 2 * 2, v / 2 * 2 + 1))),
    ]
}

fn with_edges(graph: Graph, edges: &[(u8, u8)]) -> Graph {
    Graph { edges: edges.to_vec(), ..graph }
}

fn each(n: u8, edge: impl Fn(u8) -> (u8, u8)) -> Vec<(u8, u8)> {
    let mut edges: Vec<(u8, u8)> = (0..n).map(edge).collect();
    edges.dedup();
    edges
}

/// One step over each limit; the file with 10 types, 128 vertices and 1,025 edges is too long, so there it is 1.
fn broken_limits() -> Vec<Lists> {
    let random = &mut Random::new(0, 1);
    let with = |graph: Graph, change: &dyn Fn(&mut Lists)| {
        let mut lists = lists_of(&graph);
        change(&mut lists);
        lists
    };
    let add_vertex = |l: &mut Lists| {
        l.kinds.push(0);
        l.wcets.push(0);
    };
    vec![
        with(exactly(random, 10, 20, 60), &|l| l.cores.push(1)),
        with(exactly(random, 10, 20, 60), &|l| l.cores = vec![0; 11]),
        with(exactly(random, 2, 128, 127), &add_vertex),
        with(exactly(random, 10, 128, 1_024), &add_vertex),
        with(exactly(random, 10, 127, 1_024), &|l| l.edges.push(edge(126, 126))),
        with(exactly(random, 9, 128, 1_024), &|l| l.edges.push(edge(127, 127))),
        with(exactly(random, 10, 128, 1_024), &|l| l.edges.push(edge(127, 127))),
        with(exactly(random, 1, 1, 0), &|l| l.wcets[0] = MOST_WCET + 1),
        with(chain(128, 16, MOST_WCET), &|l| l.wcets[127] = MOST_WCET + 1),
        with(chain(5, 16, 1), &|l| l.cores[0] = 17),
        with(chain(5, 16, 1), &|l| l.cores[0] = 0),
        with(chain(5, 16, 1), &|l| l.edges.insert(0, edge(0, 0))),
        with(chain(5, 16, 1), &|l| l.edges.push(edge(4, 5))),
        with(chain(128, 2, 1), &|l| l.edges.push(edge(127, 0))),
        Lists::default(),
    ]
}

fn odd_lengths() -> Vec<Vec<u8>> {
    let good = file_of(&exactly(&mut Random::new(0, 2), 10, 128, 1_024));
    let longer = |extra: usize| [&good[..], &good[good.len() - 8..], &good][..].concat()[..good.len() + extra].to_vec();
    vec![
        vec![],
        vec![0; 7],
        vec![0; 8],
        vec![0x54],
        longer(1),
        longer(8),
        vec![0x54; LONGEST_FILE + 8],
        vec![0; 3 * LONGEST_FILE],
    ]
}

/// Each question about a file, where nothing is known of its graph.
fn questions_of(file: &[u8]) -> Vec<Request> {
    let n = file.chunks(8).filter(|r| r[0] == 0x56).count();
    let times = vec![0; n];
    let mut record = RunRecord::zero();
    record.n = n as u64;
    vec![
        request::read(file),
        request::bounds(file),
        request::path(file, n),
        request::path(file, n.saturating_sub(1)),
        request::start(file, &times),
        request::tick(file, &record),
        request::tick_in_place(file, &record),
        request::run(file, &times, n + 2),
        request::gains(file, n),
        request::gains(file, n.saturating_sub(1)),
        request::gains_altered(file, 0, 0, n),
        request::gains_altered(file, n as u64, MOST_WCET as u64 + 1, 0),
        request::second(file),
        request::late(file, &times, 0),
        request::late(file, &times, u32::MAX as u64),
        request::replay(file, &[], n),
        request::replay(file, &[], n.saturating_sub(1)),
        request::replay(file, &[0; 7], 0),
        request::log(file, &times, 0),
        request::log(file, &[], 0),
        request::stg_write(file, 0),
        request::stg_write(file, 6_000),
        request::mend(file, file.len().min(LARGEST_ROOM), (2 * file.len()).min(LARGEST_ROOM)),
        request::mend(file, 0, 0),
        request::enough(file, 0, 0),
        request::enough(file, 0, u32::MAX as u64),
        request::enough(file, 10, 0),
    ]
}

fn questions_of_graph(graph: &Graph) -> Vec<Request> {
    let (file, lists, n) = (file_of(graph), lists_of(graph), graph.vertices());
    let finish = spans(graph, &graph.wcets).iter().map(|s| s.end).max().unwrap_or(0);
    let middle = record_at(graph, &graph.wcets, finish / 2);
    let mut requests = questions_of(&file);
    requests.extend([-1, 0, 1].map(|more: isize| request::write(&lists, file.len().saturating_add_signed(more))));
    requests.extend([-1, 0, 1].map(|more: isize| request::run(&file, &graph.wcets, n.saturating_add_signed(more))));
    requests.extend((0..n).step_by(n / 8 + 1).map(|v| request::gains_altered(&file, v as u64, MOST_WCET as u64, n)));
    requests.extend(ends_of(graph, &graph.wcets));
    requests.extend(log_of(graph, &graph.wcets));
    requests.push(request::start(&file, &graph.wcets));
    requests.push(request::tick(&file, &middle));
    requests.push(request::tick_in_place(&file, &middle));
    requests
}

fn questions_of_lists(lists: &Lists) -> Vec<Request> {
    let file = file_of_records(&records_of(lists));
    let mut requests = questions_of(&file);
    requests.push(request::write(lists, file.len()));
    requests.push(request::write(lists, 0));
    requests
}

/// Payloads and rooms as large as a request may have, and one larger.
fn wide_requests() -> Vec<Request> {
    let file = file_of_records(&records_of(&case_a()));
    let mut requests = Vec::new();
    for room in [LARGEST_ROOM, LARGEST_ROOM + 1] {
        requests.push(request::write(&case_a(), room));
        requests.push(request::path(&file, room));
        requests.push(request::run(&file, &[4, 9, 6, 3], room));
        requests.push(request::gains(&file, room));
        requests.push(request::gains_altered(&file, 1, 3, room));
        requests.push(request::replay(&file, &written("S3@0 P3@3"), room));
        requests.push(request::replay(&file, &[0; 7], room));
        requests.push(request::log(&file, &[4, 9, 6, 3], room));
        requests.push(request::log(&file, &[4, 9, 6], room));
    }
    for room in [1 << 16, 1 << 32, (1 << 32) + 4, (1 << 63) + 64, usize::MAX] {
        requests.extend([&file[..], &[]].map(|file| request::replay(file, &[], room)));
        requests.extend([&file[..], &[]].map(|file| request::log(file, &[4, 9, 6, 3], room)));
    }
    // in 32 bits and above them, of a good file and of none
    for number in [u32::MAX as u64, 1 << 32, (1 << 32) + 1, u64::MAX] {
        for file in [&file[..], &[]] {
            requests.push(request::gains_altered(file, number, 3, 4));
            requests.push(request::gains_altered(file, 1, number, 4));
            requests.push(request::gains_altered(file, number, number, 4));
            requests.push(request::late(file, &[4, 9, 6, 3], number));
            requests.push(request::late(file, &[], number));
        }
    }
    for longer in [0, 1] {
        requests.push(request::read(&vec![0x56; LONGEST_PAYLOAD - 4 + longer]));
        requests.push(request::bounds(&vec![0x56; LONGEST_PAYLOAD - 4 + longer]));
        let times = (LONGEST_PAYLOAD - 8 - file.len()) / 4 + longer;
        requests.push(request::start(&file, &vec![0; times]));
        requests.push(request::late(&file, &vec![0; times - 2], 0));
        requests.push(request::replay(&file, &vec![0x53; LONGEST_PAYLOAD - 16 - file.len() + longer], 4));
        requests.push(request::log(&file, &vec![0; times - 2], 4));
    }
    requests.extend([Request::of(0), Request::of(b'R'), Request::of(b'?'), request::read(&[])]);
    requests
}

/// Every tick of some small runs, the one after the end too.
fn ticks_of_small_runs() -> Vec<Request> {
    let random = &mut Random::new(0, 3);
    let mut requests = Vec::new();
    for _ in 0..12 {
        let graph = exactly(random, 2, 7, 10);
        let graph = Graph { wcets: graph.wcets.iter().map(|c| c % 5).collect(), ..graph };
        let file = file_of(&graph);
        let finish = spans(&graph, &graph.wcets).iter().map(|s| s.end).max().unwrap_or(0);
        for instant in 0..=finish {
            let record = record_at(&graph, &graph.wcets, instant);
            requests.push(request::tick(&file, &record));
            requests.push(request::tick_in_place(&file, &record));
        }
    }
    requests
}

/// Instant and remainders exactly at the limit, above it, and so large that their sum would wrap.
fn instants_at_the_limit() -> Vec<Request> {
    let graph = chain(128, 16, MOST_WCET);
    let file = file_of(&graph);
    let mut requests = Vec::new();
    for (left, instant) in [
        (MOST_WCET, 0),
        (MOST_WCET, 1),
        (MOST_WCET, u64::MAX),
        (MOST_WCET, 0u64.wrapping_sub(LATEST as u64)),
        (1, LATEST as u64 - 128),
        (1, LATEST as u64 - 127),
        (1, 0u64.wrapping_sub(128)),
        (0, LATEST as u64),
        (0, LATEST as u64 + 1),
    ] {
        let record = RunRecord { n: 128, instant, remaining: [left; 128], ..RunRecord::zero() }.numbered(&graph);
        requests.push(request::tick(&file, &record));
        requests.push(request::tick_in_place(&file, &record));
    }
    requests
}

/// The runs and records of docs/orders/08.md: the starts, and the ticks around each end.
fn runs_on_paper() -> Vec<Request> {
    let mut requests = Vec::new();
    for (_, graph, times) in numbers::runs() {
        let file = file_of(&graph);
        requests.push(request::start(&file, &times));
        for record in numbers::around_ends(&graph, &times) {
            requests.extend([request::tick(&file, &record), request::tick_in_place(&file, &record)]);
        }
    }
    for (_, graph, record) in numbers::records() {
        let file = file_of(&graph);
        requests.extend([request::tick(&file, &record), request::tick_in_place(&file, &record)]);
    }
    requests
}

/// A record without its numbers, a byte shorter and longer, and others; of a good file and of none.
fn records_of_other_lengths() -> Vec<Request> {
    let graph = graph_of(&case_a());
    let (file, record) = (file_of(&graph), record_at(&graph, &graph.wcets, 4).bytes());
    let two = [&record[..], &record].concat();
    let mut requests = Vec::new();
    for length in [0, 543, 544, 545, RECORD_BYTES - 1, RECORD_BYTES, RECORD_BYTES + 1, RECORD_BYTES + 8, two.len()] {
        for file in [&file[..], &[]] {
            requests.extend([b'T', b'I'].map(|letter| Request::of(letter).list(file).list(&two[..length])));
        }
    }
    requests
}

/// Records that suit but for their numbers of unfinished predecessors, of the runs of docs/orders/08.md and of the largest
/// graph: around each end where the graph is small, and else at the start, in the middle and at the end. By value and in place
/// in turn.
fn numbers_one_step_away() -> Vec<Request> {
    let largest = exactly(&mut Random::new(0, 10), 10, MOST_VERTICES, 1_024);
    let mut runs = numbers::runs();
    runs.push(("the largest", largest.clone(), largest.wcets.clone()));
    let mut requests = Vec::new();
    for (_, graph, times) in runs {
        let file = file_of(&graph);
        let records = numbers::around_ends(&graph, &times);
        let some = [0, records.len() / 2, records.len() - 1];
        for i in (0..records.len()).filter(|i| graph.vertices() < 8 || some.contains(i)) {
            for record in numbers::one_step_away(&graph, &records, i) {
                let ask = if requests.len() % 2 == 0 { request::tick } else { request::tick_in_place };
                requests.push(ask(&file, &record));
            }
        }
    }
    requests
}

/// Every vertex, WCET and room at which the answer to an alteration may change, each with each.
fn gains_at_the_limits() -> Vec<Request> {
    let largest = exactly(&mut Random::new(0, 4), 10, 128, 1_024);
    let mut requests = Vec::new();
    for graph in [graph_of(&case_a()), largest] {
        let (file, n) = (file_of(&graph), graph.vertices());
        let rooms = [0, n - 1, n, n + 1, MOST_VERTICES];
        requests.extend(rooms.map(|room| request::gains(&file, room)));
        for vertex in [0, n as u64 - 1, n as u64, 127, 128, 255, 256, u32::MAX as u64] {
            let old = graph.wcets.get(vertex as usize).copied().unwrap_or(1);
            for wcet in [0, old, MOST_WCET, MOST_WCET + 1, u32::MAX] {
                requests.extend(rooms.map(|room| request::gains_altered(&file, vertex, wcet as u64, room)));
            }
        }
    }
    requests
}

/// A WCET above the limit in the file, with the same vertex, another or none altered to a good one: the file is refused
/// as it stands.
fn alterations_of_refused_files() -> Vec<Request> {
    let mut lists = case_a();
    lists.wcets[2] = MOST_WCET + 1;
    let file = file_of_records(&records_of(&lists));
    let mut requests = Vec::new();
    for vertex in [1, 2, 3, 4] {
        requests.extend([3, MOST_WCET + 1].map(|wcet| request::gains_altered(&file, vertex, wcet as u64, 4)));
    }
    requests
}

/// Both sides of the finish and of the bound, the middle of the run, and the ends of 32 bits.
fn ends_of(graph: &Graph, times: &[u32]) -> Vec<Request> {
    let file = file_of(graph);
    late::limits(graph, times).into_iter().map(|d| request::late(&file, times, d as u64)).collect()
}

/// Every tick up to the bound and past it, of the worked cases and of some small runs: at full times, for case E's, and where
/// nothing takes time.
fn ends_of_small_runs() -> Vec<Request> {
    let random = &mut Random::new(0, 6);
    let mut runs = vec![(graph_of(&case_d()), vec![0, 2, 2, 5, 1, 6, 0])];
    for lists in [case_a(), case_d(), case_f(), two_longest_paths(), two_sources(), two_without_an_edge()] {
        let graph = graph_of(&lists);
        runs.extend([graph.wcets.clone(), vec![0; graph.vertices()]].map(|times| (graph.clone(), times)));
    }
    for _ in 0..6 {
        let graph = exactly(random, 2, 7, 10);
        let graph = Graph { wcets: graph.wcets.iter().map(|c| c % 5).collect(), ..graph };
        runs.push((graph.clone(), graph.wcets.iter().map(|&c| random.up_to(c as u64) as u32).collect()));
    }
    let mut requests = Vec::new();
    for (graph, times) in runs {
        let file = file_of(&graph);
        let past = late::limits(&graph, &times).into_iter().filter(|&d| d < u32::MAX).max().unwrap_or(0);
        requests.extend((0..=past).map(|d| request::late(&file, &times, d as u64)));
    }
    requests
}

/// Refused whatever the tick, also where the bound alone would say yes: 13 before 14, and both after the file's own.
fn late_and_refused() -> Vec<Request> {
    let file = file_of_records(&records_of(&case_a()));
    let mut cyclic = case_a();
    cyclic.edges.push(edge(3, 0));
    let cyclic = file_of_records(&records_of(&cyclic));
    let mut requests = Vec::new();
    for d in [0, 15, 16, 19, u32::MAX as u64] {
        for times in
            [&[4, 10, 6, 3][..], &[5, 10, 7, 4], &[4, 9, 6, u32::MAX], &[4, 9, 6], &[4, 10, 6], &[4, 9, 6, 3, 0], &[]]
        {
            requests.extend([&file, &cyclic].map(|file| request::late(file, times, d)));
        }
    }
    requests
}

/// The frames of docs/orders/07.md: with just room enough, and with less.
fn frames_on_paper() -> Vec<Request> {
    let mut requests = Vec::new();
    for (_, lists, log) in frames() {
        let (file, n) = (file_of_records(&records_of(&lists)), lists.kinds.len());
        requests.extend([n, n + 1, n - 1, 0].map(|room| request::replay(&file, &log, room)));
    }
    requests
}

/// The file's own number comes first, whatever the log is, the times are and the room is.
fn logs_of_refused_files() -> Vec<Request> {
    let mut files: Vec<Vec<u8>> = broken_limits().iter().map(|lists| file_of_records(&records_of(lists))).collect();
    files.extend(odd_lengths());
    let mut cyclic = case_a();
    cyclic.edges.push(edge(3, 0));
    files.push(file_of_records(&records_of(&cyclic)));
    let mut requests = Vec::new();
    for file in files {
        for log in ["", "S3@0 P3@3", "S0@0", "T0@0 T0@0", "S0@1 P0@2"] {
            requests.extend([0, 4].map(|room| request::replay(&file, &written(log), room)));
        }
        requests.extend([0, 64].map(|room| request::log(&file, &[4, 10, 6, 3], room)));
    }
    requests
}

/// The log of the run, with both sides of the room that it needs, and its replay, with both sides of the room for the times.
fn log_of(graph: &Graph, times: &[u32]) -> Vec<Request> {
    let (file, n, log) = (file_of(graph), graph.vertices(), bytes_of(&events_of_run(graph, times)));
    let around = |room: usize| [room.saturating_sub(1), room, room + 1];
    let mut requests: Vec<Request> = around(log.len()).map(|room| request::log(&file, times, room)).to_vec();
    requests.extend(around(n).map(|room| request::replay(&file, &log, room)));
    requests
}

/// Of the worked cases and of some small runs: at full times, where every other vertex takes no time, and where none takes any.
fn logs_of_small_runs() -> Vec<Request> {
    let random = &mut Random::new(0, 7);
    let cases = [case_a(), case_d(), case_f(), two_longest_paths(), two_sources(), two_without_an_edge(), two_cores()];
    let mut graphs: Vec<Graph> = cases.iter().map(graph_of).collect();
    graphs.extend((0..12).map(|_| exactly(random, 2, 7, 10)));
    let mut requests = Vec::new();
    for graph in graphs {
        let n = graph.vertices();
        let every_other = |odd: usize| (0..n).map(|v| if v % 2 == odd { 0 } else { graph.wcets[v] }).collect();
        for times in [graph.wcets.clone(), every_other(0), every_other(1), vec![0; n]] {
            requests.extend(log_of(&graph, &times));
        }
        let file = file_of(&graph);
        let mut above = graph.wcets.clone();
        above[n - 1] += 1;
        for times in [&above[..], &graph.wcets[..n - 1], &[&graph.wcets[..], &[0]].concat()] {
            requests.extend([0, 2 * RECORD * n].map(|room| request::log(&file, times, room)));
        }
    }
    requests
}

/// Of a log that is accepted, each one that differs from it in one record: dropped, doubled, changed places with the next,
/// a tick earlier or later, of the other kind or of none, of another vertex or of none, with a spare byte set.
fn logs_one_step_away() -> Vec<Request> {
    let random = &mut Random::new(0, 8);
    let mut requests = Vec::new();
    for (lists, words) in [
        (case_a(), "S0@0 P0@4 S1@4 S2@4 P2@10 P1@13 S3@13 P3@16"),
        (two_cores(), "S0@0 S1@0 P0@1 S2@1 P1@4 S0@4 P2@5 P0@7 S3@7 P3@9"),
        (case_d(), "S1@0 S2@0 P2@2 S4@2 P1@3 P4@3 S3@3 S5@3 P3@8 P5@9"),
    ] {
        let (file, n) = (file_of_records(&records_of(&lists)), lists.kinds.len());
        let log: Vec<Record> = written(words).chunks(RECORD).map(|r| r.try_into().unwrap()).collect();
        for k in 0..log.len() {
            requests.extend(changed(&log, k, n).iter().map(|log| request::replay(&file, &log.concat(), n)));
        }
    }
    // and of the largest graph, at the begin, in the middle and at the end
    let graph = exactly(random, 10, MOST_VERTICES, 1_024);
    let events = conserving(random, &graph, &graph.wcets);
    let log: Vec<Record> = events.iter().map(|event| event.record()).collect();
    for k in [0, 1, log.len() / 2, log.len() - 2, log.len() - 1] {
        let logs = changed(&log, k, MOST_VERTICES);
        requests.extend(logs.iter().map(|log| request::replay(&file_of(&graph), &log.concat(), MOST_VERTICES)));
    }
    requests
}

fn changed(log: &[Record], k: usize, n: usize) -> Vec<Vec<Record>> {
    let mut logs = vec![[&log[..k], &log[k + 1..]].concat(), [&log[..=k], &log[k..]].concat()];
    let mut with = |change: &dyn Fn(&mut [Record])| {
        let mut other = log.to_vec();
        change(&mut other);
        logs.push(other);
    };
    let instant = u32::from_le_bytes(log[k][4..].try_into().unwrap());
    with(&|log| log.swap(k, (k + 1) % log.len()));
    for other in [instant.wrapping_sub(1), instant + 1, 128_000_000, 128_000_001, u32::MAX] {
        with(&|log| log[k][4..].copy_from_slice(&other.to_le_bytes()));
    }
    for (at, byte) in [(0, log[k][0] ^ START ^ STOP), (0, 0), (0, 0x54), (2, 1), (3, 128)] {
        with(&|log| log[k][at] = byte);
    }
    for vertex in [(log[k][1] as usize + 1) % n, n, 128, 255] {
        with(&|log| log[k][1] = vertex as u8);
    }
    logs
}

/// The longest log and longer ones; the longest run, also where it rests or stops too late.
fn logs_at_the_limits() -> Vec<Request> {
    let random = &mut Random::new(0, 9);
    let mut requests = Vec::new();
    for graph in [exactly(random, 10, MOST_VERTICES, 1_024), with_edges(chain(20, 3, 1_000), &[])] {
        let file = file_of(&graph);
        for records in [MOST_RECORDS, MOST_RECORDS + 2] {
            let events = conserving(random, &graph, &graph.wcets);
            let log = bytes_of(&cut(random, &graph, &events, records));
            let spare = [&log[..], &log[..RECORD]].concat();
            for length in [log.len() - RECORD, log.len() - 1, log.len(), log.len() + 1, log.len() + RECORD] {
                requests.push(request::replay(&file, &spare[..length], graph.vertices()));
            }
        }
    }
    let longest = chain(MOST_VERTICES, 1, MOST_WCET);
    let log = bytes_of(&events_of_run(&longest, &longest.wcets));
    for (at, later) in [(0, 0), (0, 1), (254, 1), (255, 1), (255, 0x07_FF_FF_FF), (1, 1), (128, 1)] {
        // each record from there on so much later
        let mut late: Vec<Record> = log.chunks(RECORD).map(|r| r.try_into().unwrap()).collect();
        for record in &mut late[at..] {
            let instant = u32::from_le_bytes(record[4..].try_into().unwrap()) + later;
            record[4..].copy_from_slice(&instant.to_le_bytes());
        }
        requests.push(request::replay(&file_of(&longest), &late.concat(), MOST_VERTICES));
    }
    requests
}

/// The most complete paths that get the bound and one more, what would look like few where 16, 32 or 64 bits wrap, and more
/// than anything but 128 bits holds.
pub fn numbers_of_paths() -> Vec<Graph> {
    let random = &mut Random::new(0, 5);
    let mut graphs = vec![ways::pairs(), ways::densest(random), ways::densest(random)];
    for before in [0, 54, 109] {
        graphs.extend([false, true].map(|one_more| ways::longest(random, before, one_more)));
    }
    for paths in [1, 2, 4_095, 4_096, 4_096, 4_096, 4_097, 4_097, 4_097, 4_098, 8_192] {
        graphs.push(ways::with_paths(random, paths));
    }
    for bits in [16, 32, 63, 64] {
        for more in [0, 1, 2, 4_095, 4_096, 4_097] {
            graphs.push(ways::with_paths(random, (1 << bits) + more));
        }
    }
    // three rows of 16, each vertex with edges to all of the next row: 4,096 complete paths; and a vertex beside them
    let rows: Vec<(u8, u8)> = (0..32).flat_map(|v| (0..16).map(move |w| (v, v / 16 * 16 + 16 + w))).collect();
    graphs.extend([48, 49].map(|n| with_edges(chain(n, 3, 5), &rows)));
    graphs
}

pub fn graph_of(lists: &Lists) -> Graph {
    read(&file_of_records(&records_of(lists))).expect("lists of an accepted graph")
}
