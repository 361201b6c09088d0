//! The texts of docs/orders/09.md, each with a name; and the requests about texts that are asked for every seed.

use super::catalogue::{case_a, case_d, case_f, two_without_an_edge};
use super::graphs::{chain, exactly};
use super::lists::{edge, file_of as file_of_records, records_of};
use super::random::Random;
use super::request::{self, Request, LARGEST_ROOM, LONGEST_PAYLOAD};
use super::stg::{
    around, file_length, framed, longest_text, pad, tasks_of, without_entry_or_exit, Lines, Manner, WAYS,
};
use crate::reference::graph::{Graph, LONGEST_FILE, MOST_CORES, MOST_EDGES, MOST_KINDS, MOST_WCET, RECORD};
use crate::reference::stg::{Task, LONGEST_TEXT, MOST_TASKS};
use crate::reference::writer::{file_of, Lists};

/// Three tasks between an entry and an exit, as the writer has them.
pub const THREE: [&str; 6] = ["3\n", "0 0 0\n", "1 4 1 0\n", "2 9 1 0\n", "3 6 2 1 2\n", "4 0 1 3\n"];
/// The lists that they are read with.
pub const CORES: [u8; 2] = [2, 3];
pub const KINDS: [u8; 5] = [0, 0, 1, 0, 0];

/// A line of it by its number, and what stands there instead; 6 is behind the last.
const CHANGED: [(&str, usize, &[u8]); 58] = [
    ("blanks and tabs", 4, b" \t3\t6  2 1\t \t2 \n"),
    ("the other way round", 4, b"3 6 2 2 1\n"),
    ("zeros in front", 4, b"0000000003 06 002 1 0000000002\n"),
    ("a count of ten digits", 0, b"\t0000000003 \n"),
    ("an entry of many zeros", 1, b"00 0000000000 000\n"),
    ("comments behind", 6, b"# by hand\n \t#\n#\r 5 0 0 # \xFF\n"),
    ("the largest time", 4, b"3 1000000 2 1 2\n"),
    ("a task that waits for none", 2, b"1 4 0\n"),
    ("an exit that waits for none", 5, b"4 0 0\n"),
    ("a task that waits for the exit too", 2, b"1 4 1 4\n"),
    ("an empty count", 0, b"\n"),
    ("a count of 0", 0, b"0\n"),
    ("a count of 127", 0, b"127\n"),
    ("a count of 2^32 + 3", 0, b"4294967299\n"),
    ("a count of eleven digits", 0, b"00000000003\n"),
    ("two counts", 0, b"3 3\n"),
    ("a comment first", 0, b"# by hand\n3\n"),
    ("no count", 0, b""),
    ("a count of 2", 0, b"2\n"),
    ("a count of 4", 0, b"4\n"),
    ("an entry with a time", 1, b"0 1 0\n"),
    ("an exit with a time", 5, b"4 1 1 3\n"),
    ("another number", 3, b"3 9 1 0\n"),
    ("a number and 256", 3, b"258 9 1 0\n"),
    ("two fields", 2, b"1 4\n"),
    ("a predecessor missing", 4, b"3 6 2 1\n"),
    ("one too many", 4, b"3 6 2 1 2 0\n"),
    ("a repeated one", 4, b"3 6 2 1 1\n"),
    ("a repeated one, by value", 4, b"3 6 2 1 01\n"),
    ("itself, repeated", 4, b"3 6 2 3 3\n"),
    ("predecessor 5", 4, b"3 6 2 1 5\n"),
    ("predecessor 258", 4, b"3 6 2 1 258\n"),
    ("a sign", 4, b"3 +6 2 1 2\n"),
    ("a carriage return", 4, b"3 6 2 1 2\r\n"),
    ("a form feed", 4, b"3 6\x0C2 1 2\n"),
    ("a comment at the end of a line", 4, b"3 6 2 1 2 # last\n"),
    ("a time of eleven digits", 4, b"3 00000000006 2 1 2\n"),
    ("an empty line between", 3, b"\n2 9 1 0\n"),
    ("a blank line between", 3, b" \t\n2 9 1 0\n"),
    ("a comment between", 3, b"# two\n2 9 1 0\n"),
    ("a task twice", 3, b"2 9 1 0\n2 9 1 0\n"),
    ("a task less", 3, b""),
    ("no exit", 5, b""),
    ("no line feed", 5, b"4 0 1 3"),
    ("an empty line behind", 6, b"\n"),
    ("a blank line behind", 6, b"# by hand\n \n"),
    ("task 5", 6, b"5 0 0\n"),
    ("a comment without line feed", 6, b"# by hand\n# end"),
    ("a carriage return before a comment", 6, b"\r# by hand\n"),
    ("1,000,001", 4, b"3 1000001 2 1 2\n"),
    ("2^32 + 6", 4, b"3 4294967302 2 1 2\n"),
    ("ten nines", 4, b"3 9999999999 2 1 2\n"),
    ("two above the limit", 2, b"1 1000001 1 0\n2 1000001 1 0\n"),
    ("its own predecessor", 4, b"3 6 3 1 2 3\n"),
    ("an entry that is its own", 1, b"0 0 1 0\n"),
    ("a cycle", 2, b"1 4 2 0 3\n"),
    ("an entry that waits for the exit", 1, b"0 0 1 4\n"),
    ("its own, and a cycle", 2, b"1 4 3 0 3 1\n"),
];

/// All of them: first none, then as it is, then changed.
pub fn texts() -> Vec<(&'static str, Vec<u8>)> {
    let mut all = vec![("no text", Vec::new()), ("as it is", THREE.concat().into_bytes())];
    for (name, at, instead) in CHANGED {
        let mut lines: Vec<&[u8]> = THREE.iter().map(|line| line.as_bytes()).collect();
        lines.push(b"");
        lines[at] = instead;
        if name == "two above the limit" {
            lines[at + 1] = b"";
        }
        all.push((name, lines.concat()));
    }
    all
}

/// Graphs for the writer. The first three have an entry and an exit, the others don't.
pub fn graphs() -> Vec<(&'static str, Lists)> {
    let d = case_d();
    let without = |gone: &[(u8, u8)]| {
        let gone: Vec<u16> = gone.iter().map(|&(from, to)| edge(from, to)).collect();
        Lists { edges: d.edges.iter().copied().filter(|e| !gone.contains(e)).collect(), ..case_d() }
    };
    let with_wcet = |v: usize, wcet: u32| {
        let mut lists = case_d();
        lists.wcets[v] = wcet;
        lists
    };
    let chain = |n: usize, wcets: &[u32]| Lists {
        cores: vec![1],
        kinds: vec![0; n],
        wcets: wcets.to_vec(),
        edges: (1..n as u8).map(|v| edge(v - 1, v)).collect(),
    };
    let backwards = Lists { edges: vec![edge(1, 0), edge(2, 1)], ..chain(3, &[0, 5, 0]) };
    vec![
        ("D", case_d()),
        ("one task", chain(3, &[0, 5, 0])),
        ("one task of no time", chain(3, &[0; 3])),
        ("F", case_f()),
        ("two of no time", chain(2, &[0; 2])),
        ("two without an edge", two_without_an_edge()),
        ("A", case_a()),
        ("D without 0-2", without(&[(0, 2)])),
        ("D without 5-6", without(&[(5, 6)])),
        ("D without 3-6 and 5-6", without(&[(3, 6), (5, 6)])),
        ("D, entry of 1", with_wcet(0, 1)),
        ("D, exit of 1", with_wcet(6, 1)),
        ("one task, backwards", backwards),
    ]
}

pub fn catalogue() -> Vec<Request> {
    let mut requests = Vec::new();
    for (_, text) in texts() {
        requests.extend([96, 95, 0, 112].map(|room| request::stg_read(&text, &CORES, &KINDS, room)));
        requests.push(request::stg_read(&text, &CORES, &KINDS[..4], 96));
    }
    requests.extend(lists_of_types());
    requests.extend(ways_at_each_place());
    requests.extend(one_byte_away().iter().map(|text| request::stg_read(text, &CORES, &KINDS[..3], 64)));
    requests.extend(texts_at_the_limits());
    requests.extend(wide_requests());
    for (_, lists) in graphs() {
        let file = file_of_records(&records_of(&lists));
        requests.extend([58, 57, 59, 0, 200].map(|room| request::stg_write(&file, room)));
    }
    requests.extend(texts_of_graphs());
    requests
}

/// Of good texts and of one at fault: the list of types one short and one long, types and cores that aren't right, alone and
/// together, with room and without.
fn lists_of_types() -> Vec<Request> {
    let good = THREE.concat().into_bytes();
    let late = good.clone().into_iter().chain(*b"\n").collect();
    let cores: [&[u8]; 12] =
        [&CORES, &[], &[16; 10], &[1; 11], &[0; 11], &[2, 0], &[0, 3], &[2, 17], &[17, 0], &[2, 255], &[2], &[1; 300]];
    let kinds: [&[u8]; 11] = [
        &KINDS,
        &KINDS[..4],
        &[0, 0, 1, 0, 0, 0],
        &[],
        &[0; 128],
        &[2, 0, 1, 0, 0],
        &[0, 0, 2, 0, 0],
        &[0, 0, 1, 0, 2],
        &[0, 0, 255, 0, 0],
        &[0, 10, 1, 0, 0],
        &[9; 5],
    ];
    let mut requests = Vec::new();
    for text in [good, late] {
        for cores in cores {
            requests.extend(
                kinds.map(|kinds| request::stg_read(&text, cores, kinds, (5 + 5 + cores.len().min(10)) * RECORD)),
            );
        }
        requests.push(request::stg_read(&text, &[0], &KINDS, 0));
        requests.push(request::stg_read(&text, &CORES, &[7; 5], 0));
    }
    requests
}

/// Each way to be outside the layout at each line of a small text, and at the begin, in the middle and at the end of the
/// largest, canonical and laid out anyhow.
fn ways_at_each_place() -> Vec<Request> {
    let random = &mut Random::new(0, 20);
    let mut requests = Vec::new();
    let small = exactly(random, 2, 6, 8);
    let inner = exactly(random, 3, MOST_TASKS, 800);
    let largest = around(random, &inner);
    for graph in [without_time_at_the_ends(small), largest] {
        let tasks = tasks_of(&graph);
        let last = tasks.len() + 2;
        let places: Vec<usize> =
            if last < 12 { (0..=last).collect() } else { vec![0, 1, 2, last / 2, last - 3, last - 2, last] };
        // a way that draws is tried several times, where a text costs little
        let tries = if last < 12 { 4 } else { 1 };
        for way in 0..WAYS {
            for &at in places.iter().flat_map(|at| std::iter::repeat_n(at, tries)) {
                let manner = random.pick(&[Manner::Canonical, Manner::Loose]);
                let mut text = Lines::of(random, &tasks, manner);
                text.lines.extend([b"# one\n".to_vec(), b" \t# two\n".to_vec()]);
                text.spoil(random, way, at.min(text.lines.len() - 1));
                requests.push(request::stg_read(&text.bytes(), &graph.cores, &graph.kinds, graph.file_length()));
            }
        }
    }
    requests
}

/// Of a text that is accepted, each one that differs from it in one byte: another one, one less, one more.
pub fn one_byte_away() -> Vec<Vec<u8>> {
    let text = b"1\n0 0 0\n1 5 1 0\n2 0 1 1\n#\n";
    let bytes = b" \t\n\r#01259+";
    let mut all = vec![text.to_vec()];
    for at in 0..=text.len() {
        let (before, behind) = text.split_at(at);
        let rest = &behind[1.min(behind.len())..];
        all.push([before, rest].concat());
        for &byte in bytes {
            all.push([before, &[byte], behind].concat());
            all.push([before, &[byte], rest].concat());
        }
    }
    all
}

fn without_time_at_the_ends(mut graph: Graph) -> Graph {
    let last = graph.vertices() - 1;
    (graph.wcets[0], graph.wcets[last]) = (0, 0);
    graph
}

/// The longest text and longer ones, good and at fault; the fewest tasks and the most, and one more; the most edges and one
/// more, and as many as a text can have; the largest file; lines and comments that are very long.
fn texts_at_the_limits() -> Vec<Request> {
    let random = &mut Random::new(0, 21);
    let mut requests = Vec::new();
    let three = THREE.concat().into_bytes();
    let at_fault = THREE.concat().replace("2 9", "3 9").into_bytes();
    for text in [&three, &at_fault] {
        for length in [LONGEST_TEXT - 1, LONGEST_TEXT, LONGEST_TEXT + 1, LONGEST_TEXT + 2, 2 * LONGEST_TEXT] {
            for _ in 0..2 {
                let mut text = text.clone();
                pad(random, &mut text, length);
                requests.push(request::stg_read(&text, &CORES, &KINDS, 96));
                // and without its last line feed
                text.pop();
                requests.push(request::stg_read(&text, &CORES, &KINDS, 96));
            }
        }
    }
    // blanks: in front of the count, behind it, inside of a task, behind the exit, before a comment
    for (at, line) in [(0, "@3\n"), (0, "3@\n"), (4, "3 6 2@1 2\n"), (5, "4 0 1 3@\n"), (5, "4 0 1 3\n@#\n")] {
        for more in [0, 1] {
            let mut lines = THREE;
            lines[at] = line;
            let rest = LONGEST_TEXT - lines.concat().len() + 1 + more;
            let text = lines.concat().replace('@', &random.pick(&[" ", "\t"]).repeat(rest));
            requests.push(request::stg_read(text.as_bytes(), &CORES, &KINDS, 96));
        }
    }
    // as many tasks as there may be, and one more; every line is there
    for n in [1, 2, MOST_TASKS - 1, MOST_TASKS, MOST_TASKS + 1, MOST_TASKS + 2] {
        let graph = without_time_at_the_ends(chain(n + 2, 3, 7));
        let text = Lines::of(random, &tasks_of(&graph), Manner::Canonical).bytes();
        for room in [graph.file_length(), graph.file_length() - 1, LONGEST_FILE] {
            requests.push(request::stg_read(&text, &graph.cores, &graph.kinds, room));
        }
        requests.push(request::stg_read(&text, &graph.cores, &graph.kinds[1..], LONGEST_FILE));
        requests.push(request::stg_read(&text, &graph.cores, &[&graph.kinds[..], &[0]].concat(), LONGEST_FILE));
    }
    for edges in [MOST_EDGES - 1, MOST_EDGES, MOST_EDGES + 1, MOST_EDGES + 2] {
        for n in [46, MOST_TASKS + 2] {
            let graph = without_time_at_the_ends(exactly(random, MOST_KINDS, n, edges));
            let text = Lines::of(random, &tasks_of(&graph), Manner::Loose).bytes();
            let room = graph.file_length();
            requests.extend([0, 1].map(|less| request::stg_read(&text, &graph.cores, &graph.kinds, room - less)));
        }
    }
    // everyone waits for everyone, or for everyone before it, or for everyone but itself
    for n in [3, 33, 46, MOST_TASKS + 2] {
        for kind in 0..3 {
            let all: Vec<Task> = (0..n as u8)
                .map(|v| Task {
                    time: 0,
                    predecessors: (0..n as u8).filter(|&u| kind == 0 || u < v || kind == 2 && u != v).collect(),
                })
                .collect();
            let text = Lines::of(random, &all, Manner::Canonical).bytes();
            let room = file_length(&all, 1).min(LARGEST_ROOM);
            requests.push(request::stg_read(&text, &[MOST_CORES], &vec![0; n], room));
        }
    }
    // a time at its limit and above, in each task and in the first and last of many
    for time in
        [MOST_WCET as u64, MOST_WCET as u64 + 1, 16_777_216, u32::MAX as u64, 1 << 32, (1 << 32) + 4, 9_999_999_999]
    {
        for v in [1, 2, 3] {
            let graph = without_time_at_the_ends(chain(5, 3, 7));
            let mut tasks = tasks_of(&graph);
            tasks[v].time = time;
            let text = Lines::of(random, &tasks, Manner::Canonical).bytes();
            requests.push(request::stg_read(&text, &graph.cores, &graph.kinds, graph.file_length()));
        }
    }
    requests
}

/// Payloads and rooms as large as a request may have, and larger.
fn wide_requests() -> Vec<Request> {
    let text = THREE.concat().into_bytes();
    let file = file_of_records(&records_of(&case_d()));
    let mut requests = Vec::new();
    for room in [LARGEST_ROOM, LARGEST_ROOM + 1, 1 << 16, 1 << 32, (1 << 32) + 96, (1 << 63) + 96, usize::MAX] {
        requests.extend([&text[..], &[]].map(|text| request::stg_read(text, &CORES, &KINDS, room)));
        requests.extend([&file[..], &[]].map(|file| request::stg_write(file, room)));
    }
    for longer in [0, 1] {
        requests.push(request::stg_read(&vec![b'3'; LONGEST_PAYLOAD - 20 + longer], &[], &[], 4));
        requests.push(request::stg_read(&text, &[], &vec![0; LONGEST_PAYLOAD - 20 - text.len() + longer], 4));
        requests.push(request::stg_write(&vec![0x56; LONGEST_PAYLOAD - 12 + longer], 4));
    }
    requests
}

/// The longest text that is written, the largest files, the smallest, and graphs without entry or exit for each reason, with
/// both sides of the room that a text needs.
fn texts_of_graphs() -> Vec<Request> {
    let random = &mut Random::new(0, 22);
    // the second is the largest file
    let longest = longest_text();
    let of_every_type = (0..128).map(|v| v % MOST_KINDS as u8).collect();
    let largest = Graph { cores: vec![MOST_CORES; MOST_KINDS], kinds: of_every_type, ..longest.clone() };
    let mut graphs = vec![longest, largest];
    graphs.extend([1, 2, 5, 97, 98, 99, MOST_TASKS].map(|n| without_time_at_the_ends(chain(n + 2, 16, MOST_WCET))));
    for _ in 0..60 {
        graphs.push(framed(random));
        graphs.push(without_entry_or_exit(random));
    }
    for edges in [MOST_TASKS, 500, 900] {
        let inner = exactly(random, MOST_KINDS, MOST_TASKS, edges);
        graphs.push(around(random, &inner));
    }
    let mut requests = Vec::new();
    for graph in &graphs {
        let file = file_of(graph);
        let length = Lines::of(random, &tasks_of_any(graph), Manner::Canonical).bytes().len();
        requests.extend([length - 1, length, length + 1].map(|room| request::stg_write(&file, room)));
    }
    requests
}

/// Of a graph with fewer than three vertices too, whose text is none.
fn tasks_of_any(graph: &Graph) -> Vec<Task> {
    let mut tasks = tasks_of(graph);
    tasks.resize(tasks.len().max(2), Task { time: 0, predecessors: vec![] });
    tasks
}
