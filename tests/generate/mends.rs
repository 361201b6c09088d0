//! The files of docs/orders/12.md, each with a name; and the requests to mend that are asked for every seed.

use super::catalogue::case_a;
use super::edited::{edge, leave_stray_bytes, make_odd, refused_with, slip, ODDITIES};
use super::graphs::{exactly, to_be_damaged};
use super::lists::{lists_of, records_of, Record};
use super::random::Random;
use super::request::{self, Request, LARGEST_ROOM, LONGEST_PAYLOAD};
use crate::reference::graph::{LONGEST_FILE, MOST_EDGES, MOST_KINDS, MOST_VERTICES, RECORD};
use crate::reference::mend::MENDS;
use crate::reference::reader::{EDGE, KIND, VERTEX};
use crate::reference::writer::Lists;

/// Where the edges of case A begin.
pub const FIRST_EDGE: usize = 6;

/// Case A with other edges. A word is an edge's ends; with `!` behind it byte 3 of its record is set, with `*` all that must be
/// 0.
const EDGES: [(&str, &str); 38] = [
    ("as it is", "0-1 0-2 1-3 2-3"),
    ("a stray byte", "0-1 0-2! 1-3 2-3"),
    ("five of one record", "0-1 0-2 1-3* 2-3"),
    ("stray bytes in each", "0-1! 0-2! 1-3! 2-3!"),
    ("to itself", "0-1 0-2 1-1 1-3 2-3"),
    ("to itself twice", "0-1 1-1 0-2 1-1 1-3 2-3"),
    ("to itself twice, beside", "0-1 0-2 1-3 2-2 2-2 2-3"),
    ("to itself, first", "1-1 0-1 0-2 1-3 2-3"),
    ("to itself, last", "0-1 0-2 1-3 2-3 0-0"),
    ("nothing else", "0-0 1-1 1-1 3-3"),
    ("a double beside", "0-1 0-1 0-2 1-3 2-3"),
    ("a double far away", "0-1 0-2 1-3 2-3 0-1"),
    ("three of one", "0-1 0-1 0-2 0-1 1-3 2-3"),
    ("all of them twice", "0-1 0-2 1-3 2-3 0-1 0-2 1-3 2-3"),
    ("two exchanged", "0-2 0-1 1-3 2-3"),
    ("downwards", "2-3 1-3 0-2 0-1"),
    ("three downwards", "2-3 1-3 0-2"),
    ("the first last", "0-2 1-3 2-3 0-1"),
    ("the last first", "2-3 0-1 0-2 1-3"),
    ("the ends exchanged", "2-3 0-2 1-3 0-1"),
    ("a moved one twice", "0-2 0-1 0-2 1-3 2-3"),
    ("a double in its place", "0-1 1-3 0-2 1-3 2-3"),
    ("in order but for a double", "0-1 0-2 0-1 1-3 2-3"),
    ("in order but for one to itself", "0-1 3-3 0-2 1-3 2-3"),
    ("to itself, and moved behind it", "1-1 0-2 0-1 1-3 2-3"),
    ("to itself, with stray bytes", "0-1 0-2 1-1* 1-3 2-3"),
    ("a double with stray bytes", "0-1 0-2 0-1! 1-3 2-3"),
    ("a double of one with stray bytes", "0-1! 0-2 0-1 1-3 2-3"),
    ("moved, with stray bytes", "0-2! 0-1 1-3 2-3"),
    ("all four", "0-2! 0-1 2-2* 0-2 2-3 1-3"),
    ("no edge", ""),
    ("undeclared ends", "0-1 0-2 1-3 2-3 2-9 255-254"),
    ("undeclared ends, moved", "255-0 0-1 0-2 1-3 2-3"),
    ("undeclared, to itself", "0-1 0-2 1-3 2-3 255-255"),
    ("a cycle", "0-1 0-2 1-3 2-3 3-0"),
    ("a cycle, out of order", "3-0 0-1 0-2 1-3 2-3"),
    ("there and back", "1-0 0-1 0-2 1-3 2-3"),
    ("by from, then by to", "1-0 0-255 0-2 2-1"),
];

/// Case A with one byte changed: its place, and what stands there.
const CHANGED: [(&str, usize, u8); 21] = [
    ("a type's byte 3", 3, 1),
    ("a type's byte 4", 8 + 4, 1),
    ("a type's byte 7", 8 + 7, 0x80),
    ("a vertex's byte 3", 2 * 8 + 3, 0xFF),
    ("an edge's byte 3", 6 * 8 + 3, 0x45),
    ("an edge's byte 4", 7 * 8 + 4, 1),
    ("an edge's byte 7", 9 * 8 + 7, 1),
    ("a vertex's byte 4", 3 * 8 + 4, 0xFF),
    ("a vertex's byte 7", 3 * 8 + 7, 0xFF),
    ("another type number", 8 + 1, 0),
    ("no cores", 2, 0),
    ("17 cores", 8 + 2, 17),
    ("another vertex number", 4 * 8 + 1, 255),
    ("an undeclared type", 4 * 8 + 2, 2),
    ("an undeclared end", 9 * 8 + 2, 4),
    ("an unknown kind, first", 0, 0),
    ("an unknown kind, between", 6 * 8, 0x43),
    ("an unknown kind, last", 9 * 8, 0x46),
    ("a type behind vertices", 5 * 8, 0x54),
    ("a vertex behind an edge", 8 * 8, 0x56),
    ("a type behind edges", 9 * 8, 0x54),
];

/// All of them.
pub fn files() -> Vec<(&'static str, Vec<u8>)> {
    let mut files: Vec<(&str, Vec<u8>)> = EDGES.iter().map(|&(name, words)| (name, with_edges(words))).collect();
    files.extend(CHANGED.iter().map(|&(name, at, byte)| {
        let mut file = with_edges(EDGES[0].1);
        file[at] = byte;
        (name, file)
    }));
    files
}

/// Case A's types and vertices, and the edges that these words say.
pub fn with_edges(words: &str) -> Vec<u8> {
    let mut records = records_of(&case_a());
    records.truncate(FIRST_EDGE);
    records.extend(words.split_whitespace().map(edge_of));
    records.concat()
}

fn edge_of(word: &str) -> Record {
    let (from, to) = word.trim_end_matches(['!', '*']).split_once('-').expect("two ends");
    let mut record = edge(from.parse().unwrap(), to.parse().unwrap());
    match word.as_bytes()[word.len() - 1] {
        b'!' => record[3] = 1,
        b'*' => record[3..].fill(0xFF),
        _ => {}
    }
    record
}

pub fn catalogue() -> Vec<Request> {
    let mut requests = Vec::new();
    for (_, file) in files() {
        requests.extend(around(&file));
    }
    requests.extend(three_edges().iter().map(|file| just(file)));
    requests.extend(one_byte_away().iter().map(|file| just(file)));
    requests.extend(mends_together());
    requests.extend(oddities());
    requests.extend(refusals());
    for (_, file) in largest() {
        requests.extend(around(&file));
    }
    requests.extend(wide_requests());
    requests
}

/// With just room enough.
fn just(file: &[u8]) -> Request {
    request::mend(file, file.len(), 2 * file.len())
}

/// With just room enough, with more, with a byte less for one of the two and for the other, with none.
fn around(file: &[u8]) -> Vec<Request> {
    let (room, list) = (file.len(), 2 * file.len());
    let rooms = [
        (room, list),
        (room + 5, list + 9),
        (room.saturating_sub(1), list),
        (room, list.saturating_sub(1)),
        (0, list),
        (0, 0),
    ];
    rooms.map(|(room, list)| request::mend(file, room, list)).to_vec()
}

/// Every three edges between three vertices, one after the other: all that can be done to them, and in every order.
pub fn three_edges() -> Vec<Vec<u8>> {
    let ends: Vec<Record> = (0..9).map(|i| edge(i / 3, i % 3)).collect();
    let lists = Lists { cores: vec![1], kinds: vec![0; 3], wcets: vec![1; 3], edges: vec![] };
    let heads = records_of(&lists);
    let of = |i: usize| [&heads[..], &[ends[i / 81], ends[i / 9 % 9], ends[i % 9]]].concat().concat();
    (0..729).map(of).collect()
}

/// Every file that differs in one byte from one with two records of each kind.
pub fn one_byte_away() -> Vec<Vec<u8>> {
    let mut lists = case_a();
    lists.kinds.truncate(2);
    lists.wcets.truncate(2);
    lists.edges.truncate(2);
    let file = records_of(&lists).concat();
    let mut files = Vec::new();
    for at in 0..file.len() {
        for byte in [0, 1, 2, KIND, VERTEX, EDGE, 0xFF] {
            let mut other = file.clone();
            other[at] = byte;
            files.push(other);
        }
    }
    files
}

/// Each mend alone, in pairs, in threes, and all four, on several files each; and the same where each is left twice.
fn mends_together() -> Vec<Request> {
    let random = &mut Random::new(0, 31);
    let mut requests = Vec::new();
    for set in 1..1 << MENDS.len() {
        for turn in 0..6 {
            let graph = if turn < 5 { to_be_damaged(random) } else { exactly(random, 3, 60, 300) };
            let mut records = records_of(&lists_of(&graph));
            for mend in MENDS.into_iter().filter(|&mend| set >> mend as usize & 1 == 1) {
                (0..1 + turn % 2).for_each(|_| slip(random, &mut records, mend));
            }
            requests.push(just(&records.concat()));
        }
    }
    requests
}

/// Each way to be wrong that is left as it is, alone and with something to mend.
fn oddities() -> Vec<Request> {
    let random = &mut Random::new(0, 32);
    let mut requests = Vec::new();
    for way in 0..ODDITIES {
        for turn in 0..4 {
            let mut records = records_of(&lists_of(&to_be_damaged(random)));
            make_odd(random, &mut records, way);
            if turn % 2 == 1 {
                MENDS.iter().for_each(|&mend| slip(random, &mut records, mend));
            }
            requests.push(just(&records.concat()));
        }
    }
    requests
}

/// 1, 2 and 3, alone, with something to mend, with a larger number and in no room.
fn refusals() -> Vec<Request> {
    let random = &mut Random::new(0, 33);
    let mut requests = Vec::new();
    for number in [1, 2, 3] {
        for turn in 0..12 {
            let mut records = records_of(&lists_of(&to_be_damaged(random)));
            if turn % 2 == 1 {
                MENDS.iter().for_each(|&mend| slip(random, &mut records, mend));
            }
            if turn % 3 == 2 {
                let larger = refused_with(random, records.clone(), 3);
                records = larger.chunks(RECORD).map(|r| r.try_into().unwrap()).collect();
            }
            let file = refused_with(random, records, number);
            let rooms = if turn < 9 { (file.len(), 2 * file.len()) } else { (0, 0) };
            requests.push(request::mend(&file, rooms.0, rooms.1));
        }
    }
    requests
}

/// The longest files that are mended and one longer: with as much to do as can be, and with nothing.
pub fn largest() -> Vec<(&'static str, Vec<u8>)> {
    let random = &mut Random::new(0, 34);
    let heads = MOST_KINDS + MOST_VERTICES;
    let graph = records_of(&lists_of(&exactly(random, MOST_KINDS, MOST_VERTICES, MOST_EDGES)));
    let edges = edges_alone(|i| ((i / 250) as u8, (i % 250 + 5) as u8));
    let to_themselves = edges_alone(|i| (i as u8, i as u8));
    let (first, last) = (graph[heads], graph[heads + MOST_EDGES - 1]);
    let mut files = Vec::new();
    let mut add = |name: &'static str, records: &[Record], change: &mut dyn FnMut(&mut Vec<Record>)| {
        let mut records = records.to_vec();
        change(&mut records);
        files.push((name, records.concat()));
    };
    let stray = &mut |random: &mut Random, r: &mut [Record]| r.iter_mut().for_each(|r| leave_stray_bytes(random, r));
    add("in order", &graph, &mut |_| {});
    add("1,024 downwards", &graph, &mut |r| r[heads..].reverse());
    add("1,023 downwards", &graph[..graph.len() - 1], &mut |r| r[heads..].reverse());
    add("the first last", &graph, &mut |r| r[heads..].rotate_left(1));
    add("shuffled", &graph, &mut |r| random.shuffle(&mut r[heads..]));
    add("stray bytes in each", &graph, &mut |r| stray(random, r));
    add("one double of all", &graph, &mut |r| r[heads + 1..].fill(first));
    add("the last twice", &graph, &mut |r| r[heads + MOST_EDGES - 2] = last);
    add("1,162 upwards", &edges, &mut |_| {});
    add("1,162 downwards", &edges, &mut |r| r.reverse());
    add("1,162 alike", &edges, &mut |r| r.fill(edge(200, 100)));
    add("1,162 to themselves, with stray bytes", &to_themselves, &mut |r| stray(random, r));
    add("1,162 types", &edges, &mut |r| r.fill([KIND, 0, 1, 0, 0, 0, 0, 9]));
    add("1,162 vertices", &edges, &mut |r| r.fill([VERTEX, 0, 0, 9, 1, 2, 3, 4]));
    add("one too long", &graph, &mut |r| r.push(first));
    add("one too long, out of order", &graph, &mut |r| r.insert(heads, last));
    files
}

/// As many edges as the longest file has room for, and nothing else.
fn edges_alone(ends: impl Fn(usize) -> (u8, u8)) -> Vec<Record> {
    (0..LONGEST_FILE / RECORD).map(ends).map(|(from, to)| edge(from, to)).collect()
}

/// Payloads and rooms as large as a request may have, and larger.
fn wide_requests() -> Vec<Request> {
    let file = with_edges(EDGES[0].1);
    let mut requests = Vec::new();
    for room in [LARGEST_ROOM, LARGEST_ROOM + 1, 1 << 16, 1 << 32, (1 << 32) + 80, (1 << 63) + 160, usize::MAX] {
        for file in [&file[..], &[]] {
            requests.extend([(room, 160), (80, room), (room, room)].map(|(a, b)| request::mend(file, a, b)));
        }
    }
    requests.extend([0, 1].map(|longer| request::mend(&vec![EDGE; LONGEST_PAYLOAD - 20 + longer], 4, 4)));
    requests
}
