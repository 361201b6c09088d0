//! The request of each place: first the catalogue, then random ones, each from the seed and its place alone. So nothing
//! needs to be kept, and one request can be made again by itself.

use super::altered;
use super::catalogue::catalogue;
use super::damage::damage;
use super::edited;
use super::enough;
use super::faults::{file_with, plant};
use super::graphs;
use super::late;
use super::lists::{file_of as file_of_records, lists_of, records_of};
use super::logs;
use super::malformed::spoilt;
use super::random::Random;
use super::request::{self, Request, LARGEST_ROOM};
use super::runs::{any_times, damaged, misnumbered, reached, times, unreached};
use super::stg;
use super::ways;
use crate::reference::graph::{Graph, LONGEST_FILE, MOST_VERTICES, MOST_WCET, RECORD};
use crate::reference::stg::{stg_read, stg_write};
use crate::reference::writer::{file_of, Lists};

pub struct Stream {
    seed: u64,
    catalogue: Vec<Request>,
}

impl Stream {
    pub fn new(seed: u64) -> Stream {
        Stream { seed, catalogue: catalogue() }
    }

    pub fn request(&self, place: u64) -> Request {
        match self.catalogue.get(place as usize) {
            Some(request) => request.clone(),
            None => any_request(&mut Random::new(self.seed, place)),
        }
    }
}

fn any_request(random: &mut Random) -> Request {
    let request = match random.below(62) {
        0..=3 => request::read(&any_file(random, 3).1),
        4..=5 => any_write(random),
        6..=7 => request::bounds(&any_file(random, 8).1),
        8..=9 => any_path(random),
        10..=13 => any_start(random),
        14..=21 => any_tick(random),
        22..=23 => any_run(random),
        24..=27 => any_gains(random),
        28..=31 => any_gains_altered(random),
        32..=35 => any_second(random),
        36..=39 => any_late(random),
        40..=43 => any_replay(random),
        44..=47 => any_log(random),
        48..=51 => any_stg_read(random),
        52..=55 => any_stg_write(random),
        56..=57 => any_mend(random),
        _ => any_enough(random),
    };
    if random.one_in(20) {
        spoilt(random, request)
    } else {
        request
    }
}

/// A graph and a file that is its own, but bad in about one of `good_for_bad` cases.
fn any_file(random: &mut Random, good_for_bad: usize) -> (Graph, Vec<u8>) {
    if !random.one_in(good_for_bad) {
        return with_file(graphs::any(random));
    }
    if random.one_in(3) {
        let graph = graphs::any(random);
        let mut file = file_of(&graph);
        damage(random, &mut file);
        return (graph, file);
    }
    let graph = graphs::to_be_damaged(random);
    let numbers = [random.between(1, 11) as u32, random.between(1, 11) as u32];
    let many = random.between(1, 2);
    let file = file_with(random, &lists_of(&graph), &numbers[..many]);
    (graph, file)
}

/// A room around what is needed, or far above.
fn any_room(random: &mut Random, needed: usize) -> usize {
    if random.one_in(500) {
        return LARGEST_ROOM;
    }
    let more = needed + random.below(20);
    random.pick(&[0, needed / 2, needed.saturating_sub(1), needed, needed, needed + 1, more])
}

fn any_write(random: &mut Random) -> Request {
    let mut lists;
    if random.one_in(2) {
        lists = lists_of(&graphs::any(random));
    } else {
        lists = lists_of(&graphs::to_be_damaged(random));
        let (a, b) = (random.between(3, 11) as u32, random.between(3, 11) as u32);
        plant(random, &mut lists, in_writer(a.max(b)));
        if a != b && random.one_in(2) {
            plant(random, &mut lists, in_writer(a.min(b)));
        }
    }
    if random.one_in(60) {
        lengthen(random, &mut lists);
    }
    let length = (lists.cores.len() + lists.kinds.len() + lists.edges.len()) * RECORD;
    request::write(&lists, any_room(random, length).min(LARGEST_ROOM))
}

/// The writer has no 3; 13 stands in its place there, before 4.
fn in_writer(number: u32) -> u32 {
    if number == 3 {
        13
    } else {
        number
    }
}

/// Lists far too long, with numbers and places that no byte holds.
fn lengthen(random: &mut Random, lists: &mut Lists) {
    let many = random.pick(&[255, 256, 257, 300, 1_000, 5_000]);
    match random.below(4) {
        0 => lists.cores.resize(many, 1),
        1 => lists.kinds.resize(many, 0),
        2 => lists.edges.resize(many, random.next() as u16),
        _ => {
            lists.kinds.resize(many, 0);
            lists.wcets.resize(many, 0);
        }
    }
}

fn any_path(random: &mut Random) -> Request {
    let (graph, file) = any_file(random, 8);
    request::path(&file, any_room(random, graph.vertices()))
}

fn any_start(random: &mut Random) -> Request {
    let (graph, file) = any_file(random, 8);
    request::start(&file, &any_times(random, &graph))
}

fn any_tick(random: &mut Random) -> Request {
    let (graph, file) = any_file(random, 8);
    let record = match random.below(12) {
        0..=3 => reached(random, &graph),
        4 => unreached(random, &graph),
        5 => {
            let other = graphs::any(random);
            reached(random, &other)
        }
        6..=7 => damaged(random, &graph),
        _ => misnumbered(random, &graph),
    };
    if random.one_in(2) {
        request::tick(&file, &record)
    } else {
        request::tick_in_place(&file, &record)
    }
}

fn any_run(random: &mut Random) -> Request {
    let (graph, file) = any_file(random, 8);
    request::run(&file, &any_times(random, &graph), any_room(random, graph.vertices()))
}

/// Now and then the longest run that there is: any of its ticks may be asked for.
fn any_late(random: &mut Random) -> Request {
    let (mut graph, mut file) = any_file(random, 8);
    if random.one_in(30) {
        graph = graphs::chain(MOST_VERTICES, random.between(1, 16) as u8, MOST_WCET);
        file = file_of(&graph);
    }
    let times = any_times(random, &graph);
    let mut d = late::tick(random, &graph, &times);
    if random.one_in(40) {
        d = altered::too_wide(random, d);
    }
    request::late(&file, &times, d)
}

/// Every other graph has few cores, so that vertices wait for them. Now and then the longest log, or the longest run.
fn any_replay(random: &mut Random) -> Request {
    let (graph, file) = match random.below(60) {
        0 => {
            let (graph, log) = logs::longest(random);
            return request::replay(&file_of(&graph), &log, graph.vertices());
        }
        1 => with_file(graphs::chain(MOST_VERTICES, random.between(1, 16) as u8, MOST_WCET)),
        2..=20 => with_file(graphs::fan(random)),
        21..=35 => {
            let graph = graphs::any(random);
            with_file(Graph { cores: graph.cores.iter().map(|&cores| cores.min(2)).collect(), ..graph })
        }
        _ => any_file(random, 6),
    };
    let log = logs::any(random, &graph);
    request::replay(&file, &log, altered::room(random, &graph))
}

fn with_file(graph: Graph) -> (Graph, Vec<u8>) {
    let file = file_of(&graph);
    (graph, file)
}

/// The room is about what is needed for the log of the run, where there is one.
fn any_log(random: &mut Random) -> Request {
    let (graph, file) = any_file(random, 8);
    let times = if random.one_in(3) { any_times(random, &graph) } else { times(random, &graph) };
    let needed = 2 * RECORD * times.iter().filter(|&&time| time > 0).count();
    let room = if random.one_in(3) { any_room(random, needed) } else { needed + random.pick(&[0, 0, 1, 8, 16, 50]) };
    request::log(&file, &times, room)
}

/// The room is about what the file needs, where the text has one.
fn any_stg_read(random: &mut Random) -> Request {
    let stg::Lent { text, cores, kinds } = stg::any(random);
    let needed =
        stg_read(&text, &cores, &kinds, LONGEST_FILE).map_or(RECORD * (cores.len() + kinds.len()), |file| file.len());
    let room = if random.one_in(4) { any_room(random, needed) } else { needed + random.pick(&[0, 0, 1, 8, 16, 50]) };
    request::stg_read(&text, &cores, &kinds, room.min(LARGEST_ROOM))
}

/// Half of the graphs have an entry and an exit.
fn any_stg_write(random: &mut Random) -> Request {
    let (graph, file) = match random.below(12) {
        0..=5 => with_file(stg::framed(random)),
        6..=8 => with_file(stg::without_entry_or_exit(random)),
        _ => any_file(random, 2),
    };
    let needed = stg_write(&graph, LARGEST_ROOM).map_or(20, |text| text.len());
    let room = if random.one_in(3) { any_room(random, needed) } else { needed + random.pick(&[0, 0, 1, 8, 16, 50]) };
    request::stg_write(&file, room)
}

fn any_mend(random: &mut Random) -> Request {
    let file = edited::any(random);
    let (room, list_room) = edited::rooms(random, &file);
    request::mend(&file, room.min(LARGEST_ROOM), list_room.min(LARGEST_ROOM))
}

fn any_enough(random: &mut Random) -> Request {
    let (graph, file) = any_file(random, 8);
    let mut kind = enough::kind(random, &graph);
    let mut limit = enough::limit(random, &graph, kind);
    if random.one_in(40) {
        let wide = if random.one_in(2) { &mut kind } else { &mut limit };
        *wide = altered::too_wide(random, *wide);
    }
    request::enough(&file, kind, limit)
}

/// Every other graph is made to have a number of complete paths.
fn any_second(random: &mut Random) -> Request {
    if random.one_in(2) {
        return request::second(&any_file(random, 5).1);
    }
    request::second(&file_of(&ways::any(random)))
}

/// One time in four a graph that is made to have several longest paths.
fn file_for_gains(random: &mut Random) -> (Graph, Vec<u8>) {
    if !random.one_in(4) {
        return any_file(random, 8);
    }
    with_file(graphs::twins(random))
}

fn any_gains(random: &mut Random) -> Request {
    let (graph, file) = file_for_gains(random);
    request::gains(&file, altered::room(random, &graph))
}

fn any_gains_altered(random: &mut Random) -> Request {
    let (graph, mut file) = file_for_gains(random);
    let mut vertex = altered::vertex(random, &graph);
    let old = graph.wcets.get(vertex as usize).copied();
    let mut wcet = altered::wcet(random, old.unwrap_or(0));
    if old.is_some() && random.one_in(30) {
        file = file_with_large_wcet(&graph, vertex as usize);
    }
    if random.one_in(40) {
        let wide = if random.one_in(2) { &mut vertex } else { &mut wcet };
        *wide = altered::too_wide(random, *wide);
    }
    request::gains_altered(&file, vertex, wcet, altered::room(random, &graph))
}

/// The graph's file but for one WCET, which is above the limit: to alter it doesn't mend the file.
fn file_with_large_wcet(graph: &Graph, v: usize) -> Vec<u8> {
    let mut lists = lists_of(graph);
    lists.wcets[v] = MOST_WCET + 1;
    file_of_records(&records_of(&lists))
}
