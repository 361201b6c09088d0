//! The reference alone: which answers its own requests get, and whether every one of them occurs.

use crate::answer::{answer, answers, asked_enough, asked_late, asked_mend, asked_replay};
use crate::answer::{asked_stg_read, asked_stg_write, asked_tick};
use crate::compare::cut_input;
use crate::crosscheck;
use crate::edited::{Edited, EDITED};
use crate::enough::{bounds_asked, Limited, LIMITS};
use crate::generate::request::Request;
use crate::generate::stream::Stream;
use crate::logged::{Logged, LOGS};
use crate::numbered::{Numbered, RECORDS};
use crate::options::Options;
use crate::reference::bounds::bounds;
use crate::reference::graph::Graph;
use crate::reference::late::finish;
use crate::reference::reader::read;
use crate::reference::record::{RunRecord, CONDITIONS};
use crate::texts::{self, Asked, Laid, TEXTS, WRITTEN};
use std::collections::BTreeMap;

/// What can be answered to each letter: 12 never. `-` is any request that isn't one. A 7 of A is the file's own; the two
/// 7s of what is altered have words: `vertex` where the graph doesn't have it, `wcet` where the new one is above the limit.
const POSSIBLE: [(char, &str, &[u32]); 19] = [
    ('R', "graph", &[1, 2, 3, 4, 5, 6, 7, 8, 9, 10, 11]),
    ('W', "wrote", &[4, 5, 6, 7, 8, 9, 10, 11, 13, 15]),
    ('B', "old", &[1, 2, 3, 4, 5, 6, 7, 8, 9, 10, 11]),
    ('P', "path", &[1, 2, 3, 4, 5, 6, 7, 8, 9, 10, 11, 15]),
    ('S', "started", &[1, 2, 3, 4, 5, 6, 7, 8, 9, 10, 11, 13, 14]),
    ('T', "moved done", &[1, 2, 3, 4, 5, 6, 7, 8, 9, 10, 11, 16]),
    ('I', "moved done", &[1, 2, 3, 4, 5, 6, 7, 8, 9, 10, 11, 16]),
    ('X', "finish", &[1, 2, 3, 4, 5, 6, 7, 8, 9, 10, 11, 13, 14, 15]),
    ('G', "gains", &[1, 2, 3, 4, 5, 6, 7, 8, 9, 10, 11, 15]),
    ('A', "gains vertex wcet", &[1, 2, 3, 4, 5, 6, 7, 8, 9, 10, 11, 15]),
    ('N', "second", &[1, 2, 3, 4, 5, 6, 7, 8, 9, 10, 11, 17]),
    ('D', "yes no", &[1, 2, 3, 4, 5, 6, 7, 8, 9, 10, 11, 13, 14]),
    ('L', "replayed", &[1, 2, 3, 4, 5, 6, 7, 8, 9, 10, 11, 15, 18, 19, 20, 21, 22]),
    ('O', "log", &[1, 2, 3, 4, 5, 6, 7, 8, 9, 10, 11, 13, 14, 15]),
    ('U', "read", &[4, 5, 7, 8, 9, 11, 13, 15, 23]),
    ('V', "text", &[1, 2, 3, 4, 5, 6, 7, 8, 9, 10, 11, 15, 24]),
    ('M', "mended", &[1, 2, 3, 15]),
    ('C', "cores", &[1, 2, 3, 4, 5, 6, 7, 8, 9, 10, 11, 25, 26]),
    ('-', "bad", &[]),
];

/// The largest number that says no.
const LAST_NUMBER: u32 = 26;

/// The boards on which Mmax can be taken wrongly: each has to be asked for its bounds. A kind is idle where all vertices
/// that have it have WCET 0.
const BOARDS: [(&str, fn(&Graph) -> bool); 5] = [
    ("every type used", |g| unused(g) == 0 && g.cores.len() > 1),
    ("one unused", |g| unused(g) == 1),
    ("all but one unused", |g| unused(g) > 1 && unused(g) + 1 == g.cores.len()),
    ("the most cores unused", |g| most_cores(g, |_| true) > most_cores(g, |s| g.is_used(s))),
    ("the most cores idle", |g| (1..most_cores(g, |s| g.is_used(s))).contains(&most_cores(g, |s| is_busy(g, s)))),
];

/// The ticks by which a run can be judged wrongly, each of which has to be asked for: of the finish, NEW-B-1's whole ticks and
/// the tick itself. Where these are apart, what is played tells them apart too.
const TICKS: [(&str, fn(u64, u64, u64) -> bool); 10] = [
    ("0", |f, _, d| d == 0 && f > 0),
    ("0 of no time", |f, b, d| d == 0 && f == 0 && b > 0),
    ("before the finish", |f, b, d| d + 1 == f && f + 1 < b),
    ("the finish", |f, b, d| d == f && f + 1 < b),
    ("after the finish", |f, b, d| d == f + 1 && f + 1 < b),
    ("before the bound", |f, b, d| d + 1 == b && f + 1 < b),
    ("the bound", |f, b, d| d == b && f < b),
    ("after the bound", |f, b, d| d == b + 1 && f < b),
    ("the largest", |_, _, d| d == u32::MAX as u64),
    ("inside 128,000,000", |f, _, d| f == 128_000_000 && (1..f).contains(&d)),
];

fn is_busy(graph: &Graph, kind: usize) -> bool {
    (0..graph.vertices()).any(|v| graph.kinds[v] as usize == kind && graph.wcets[v] > 0)
}

fn unused(graph: &Graph) -> usize {
    (0..graph.cores.len()).filter(|&s| !graph.is_used(s)).count()
}

/// The most of the kinds that pass, or 0 where none does.
fn most_cores(graph: &Graph, passes: impl Fn(usize) -> bool) -> u8 {
    (0..graph.cores.len()).filter(|&s| passes(s)).map(|s| graph.cores[s]).max().unwrap_or(0)
}

pub fn own_requests(options: &Options) -> bool {
    let stream = Stream::new(options.seed);
    let mut table: BTreeMap<(char, String), u64> = BTreeMap::new();
    let mut boards = [0; BOARDS.len()];
    let mut ticks = [0; TICKS.len()];
    let mut logs = [0; LOGS.len()];
    let mut unsuited = [0; CONDITIONS.len()];
    let mut records = [0; RECORDS.len()];
    let (mut texts, mut written) = ([0; TEXTS.len()], [0; WRITTEN.len()]);
    let (mut edited, mut limits) = ([0; EDITED.len()], [0; LIMITS.len()]);
    let mut sixteen: BTreeMap<String, u64> = bounds_asked().into_iter().map(|asked| (asked, 0)).collect();
    let mut lines: BTreeMap<String, u64> = texts::faults().into_iter().map(|fault| (fault, 0)).collect();
    for place in 0..options.count {
        let request = stream.request(place);
        let cell = cell(&request);
        if cell.1 == "old" {
            let graph = read(request.first_list().unwrap()).unwrap();
            BOARDS.iter().zip(&mut boards).for_each(|((_, is), many)| *many += is(&graph) as u64);
        }
        if ["yes", "no"].contains(&&cell.1[..]) {
            let (file, times, d) = asked_late(&request).unwrap();
            let graph = read(file).unwrap();
            let (finish, bound) = (finish(&graph, &times).unwrap() as u64, bounds(&graph).ticks);
            TICKS.iter().zip(&mut ticks).for_each(|((_, is), many)| *many += is(finish, bound, d as u64) as u64);
        }
        if cell.0 == 'L' {
            let (file, log) = asked_replay(&request).unwrap();
            if let Ok(graph) = read(file) {
                let logged = Logged::of(&graph, log);
                LOGS.iter().zip(&mut logs).for_each(|((_, is), many)| *many += is(&logged) as u64);
            }
        }
        if let Some((graph, record)) = asked_tick_of_a_graph(&request, &cell) {
            let wrong = record.unmet(&graph);
            CONDITIONS.iter().zip(&mut unsuited).for_each(|((name, _), many)| *many += (wrong == [*name]) as u64);
            if let Some(numbered) = Numbered::of(&graph, &record) {
                RECORDS.iter().zip(&mut records).for_each(|((_, is), many)| *many += is(&numbered) as u64);
            }
        }
        if cell.0 == 'U' {
            let laid = Laid::of(asked_stg_read(&request).unwrap());
            TEXTS.iter().zip(&mut texts).for_each(|((_, is), many)| *many += is(&laid) as u64);
            laid.fault().into_iter().for_each(|fault| *lines.entry(fault).or_default() += 1);
        }
        if cell.0 == 'V' {
            let (file, room) = asked_stg_write(&request).unwrap();
            if let Ok(graph) = read(file) {
                let asked = Asked::of(&graph, room);
                WRITTEN.iter().zip(&mut written).for_each(|((_, is), many)| *many += is(&asked) as u64);
            }
        }
        if cell.0 == 'M' {
            let (file, room, list_room) = asked_mend(&request).unwrap();
            let asked = Edited::of(file, (room, list_room));
            EDITED.iter().zip(&mut edited).for_each(|((_, is), many)| *many += is(&asked) as u64);
        }
        if cell.0 == 'C' {
            let (file, kind, limit) = asked_enough(&request).unwrap();
            if let Ok(graph) = read(file) {
                let asked = Limited::of(&graph, kind, limit);
                LIMITS.iter().zip(&mut limits).for_each(|((_, is), many)| *many += is(&asked) as u64);
                asked.asked().into_iter().for_each(|bound| *sixteen.entry(bound).or_default() += 1);
            }
        }
        *table.entry(cell).or_default() += 1;
    }
    print_table(&table);
    let mut faults = missing_and_impossible(&table);
    faults.extend(never_asked("boards", &BOARDS.map(|(name, _)| name), &boards));
    faults.extend(never_asked("ticks", &TICKS.map(|(name, _)| name), &ticks));
    faults.extend(never_asked("logs", &LOGS.map(|(name, _)| name), &logs));
    faults.extend(never_asked("16 for one thing alone", &CONDITIONS.map(|(name, _)| name), &unsuited));
    faults.extend(never_asked("numbers of unfinished predecessors", &RECORDS.map(|(name, _)| name), &records));
    faults.extend(never_asked("texts", &TEXTS.map(|(name, _)| name), &texts));
    faults.extend(never_asked_by_name("lines at fault", &lines));
    faults.extend(never_asked("texts written", &WRITTEN.map(|(name, _)| name), &written));
    faults.extend(never_asked("files mended", &EDITED.map(|(name, _)| name), &edited));
    faults.extend(never_asked("limits", &LIMITS.map(|(name, _)| name), &limits));
    faults.extend(never_asked_by_name("limits and bounds", &sixteen));
    faults.extend(crosscheck::faults(options));
    if !(0..24).all(|place| answers(&cut_input(options.seed, place)).ends_with("bad request\n")) {
        faults.push("an input that ends inside a request must end with `bad request`".to_string());
    }
    faults.iter().for_each(|fault| eprintln!("{fault}"));
    println!("{} requests, {} faults", options.count, faults.len());
    faults.is_empty()
}

/// The graph and the record of a request for a tick, where the file is accepted.
fn asked_tick_of_a_graph(request: &Request, (letter, _): &(char, String)) -> Option<(Graph, RunRecord)> {
    let (file, record) = ['T', 'I'].contains(letter).then(|| asked_tick(request))??;
    Some((read(file).ok()?, record))
}

/// Prints how often each was asked for; those that never were.
fn never_asked(what: &str, names: &[&str], counts: &[u64]) -> Vec<String> {
    let asked: Vec<String> = names.iter().zip(counts).map(|(name, many)| format!("{name} {many}")).collect();
    println!("{what}: {}", asked.join(", "));
    let missing = names.iter().zip(counts).filter(|(_, &many)| many == 0);
    missing.map(|(name, _)| format!("{what}: {name} is never asked for")).collect()
}

fn never_asked_by_name(what: &str, asked: &BTreeMap<String, u64>) -> Vec<String> {
    let (names, counts): (Vec<&str>, Vec<u64>) = asked.iter().map(|(name, many)| (&name[..], *many)).unzip();
    never_asked(what, &names, &counts)
}

/// The letter and the answer's kind: its word, or the number of a refusal.
fn cell(request: &Request) -> (char, String) {
    let line = answer(request);
    let words: Vec<&str> = line.split(' ').collect();
    let kind = match words[0] {
        "bad" => return ('-', "bad".to_string()),
        "refused" if request.letter == b'A' && words[1] == "7" && is_accepted(request.first_list()) => match words[3] {
            "0" => "vertex",
            _ => "wcet",
        },
        "refused" => words[1],
        word => word,
    };
    (request.letter as char, kind.to_string())
}

fn is_accepted(file: Option<&[u8]>) -> bool {
    file.is_some_and(|file| read(file).is_ok())
}

fn possible() -> Vec<(char, String)> {
    let mut cells = Vec::new();
    for (letter, words, numbers) in POSSIBLE {
        cells.extend(words.split(' ').map(|word| (letter, word.to_string())));
        cells.extend(numbers.iter().map(|number| (letter, number.to_string())));
    }
    cells
}

fn missing_and_impossible(table: &BTreeMap<(char, String), u64>) -> Vec<String> {
    let possible = possible();
    let missing = possible.iter().filter(|cell| !table.contains_key(cell));
    let impossible = table.keys().filter(|cell| !possible.contains(cell));
    let missing = missing.map(|(letter, kind)| format!("{letter} is never answered with {kind}"));
    missing.chain(impossible.map(|(letter, kind)| format!("{letter} must not be answered with {kind}"))).collect()
}

fn print_table(table: &BTreeMap<(char, String), u64>) {
    let count = |letter: char, kind: &str| table.get(&(letter, kind.to_string())).copied().unwrap_or(0);
    print!("{:<3}{:>32}", "", "answered");
    (1..=LAST_NUMBER).for_each(|number| print!("{number:>6}"));
    println!();
    for (letter, words, _) in POSSIBLE {
        let answered: Vec<String> = words.split(' ').map(|word| format!("{word} {}", count(letter, word))).collect();
        print!("{letter:<3}{:>32}", answered.join(", "));
        for number in 1..=LAST_NUMBER {
            match count(letter, &number.to_string()) {
                0 => print!("{:>6}", "."),
                many => print!("{many:>6}"),
            }
        }
        println!();
    }
}
