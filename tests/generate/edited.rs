//! Files as scripts and hands leave them: with each of the four faults that are mended, with others, which are left as they
//! are, and with those for which mending says no.

use super::damage::damage;
use super::graphs;
use super::lists::{lists_of, records_of, Record};
use super::random::Random;
use crate::reference::graph::{LONGEST_FILE, MOST_EDGES, MOST_KINDS, MOST_VERTICES, RECORD};
use crate::reference::mend::{Mend, MENDS};
use crate::reference::reader::{spare, EDGE, KIND, VERTEX};
use std::ops::Range;

/// One in ten is refused.
pub fn any(random: &mut Random) -> Vec<u8> {
    let mut records = match random.below(6) {
        0..=1 => drawn(random),
        _ => records_of(&lists_of(&graphs::any(random))),
    };
    if random.one_in(4) {
        let way = random.below(ODDITIES);
        make_odd(random, &mut records, way);
    }
    for _ in 0..random.pick(&[0, 1, 1, 1, 2, 2, 3, 4, 6]) {
        let mend = random.pick(&MENDS);
        slip(random, &mut records, mend);
    }
    let mut file = records.concat();
    if random.one_in(10) {
        let number = random.pick(&[1, 2, 2, 3, 3]);
        file = refused_with(random, records, number);
    } else if random.one_in(12) {
        damage(random, &mut file);
    }
    file
}

/// Few vertices and many edges between them, in any order, with doubles and from a vertex to itself.
fn drawn(random: &mut Random) -> Vec<Record> {
    let n = random.between(1, 5);
    let mut records: Vec<Record> = (0..random.below(3)).map(|s| record(KIND, s as u8, 1)).collect();
    records.extend((0..n).map(|v| record(VERTEX, v as u8, 0)));
    let many = random.between(0, 24);
    records.extend((0..many).map(|_| edge(random.below(n + 1) as u8, random.below(n + 1) as u8)));
    records
}

fn record(kind: u8, one: u8, two: u8) -> Record {
    [kind, one, two, 0, 0, 0, 0, 0]
}

pub fn edge(from: u8, to: u8) -> Record {
    record(EDGE, from, to)
}

/// Where the edges stand; behind all records where there are none.
fn edges(records: &[Record]) -> Range<usize> {
    records.iter().position(|r| r[0] == EDGE).unwrap_or(records.len())..records.len()
}

/// Leaves a fault that is mended so.
pub fn slip(random: &mut Random, records: &mut Vec<Record>, mend: Mend) {
    let all = edges(records);
    match mend {
        Mend::Clear if !records.is_empty() => {
            let k = random.below(records.len());
            leave_stray_bytes(random, &mut records[k]);
        }
        Mend::DropLoop => {
            let v = random.pick(&[0, 0, 1, 2, 3, 127, 128, 255]);
            for _ in 0..random.pick(&[1, 1, 2]) {
                records.insert(random.between(all.start, records.len()), edge(v, v));
            }
        }
        Mend::DropDouble if !all.is_empty() => {
            let k = random.between(all.start, all.end - 1);
            let double = edge(records[k][1], records[k][2]);
            for _ in 0..random.pick(&[1, 1, 2]) {
                let anywhere = random.between(all.start, records.len());
                let at = random.pick(&[k + 1, anywhere, anywhere, records.len()]);
                records.insert(at, double);
            }
        }
        Mend::Move if all.len() > 1 => put_out_of_order(random, &mut records[all]),
        _ => {}
    }
}

/// One of the bytes that must be 0, or several.
pub fn leave_stray_bytes(random: &mut Random, record: &mut Record) {
    let bytes = spare(&record[..]).unwrap_or(3..RECORD);
    let any = random.between(bytes.start, bytes.end - 1);
    let one = |at: usize| at..at + 1;
    let chosen = [one(bytes.start), one(bytes.end - 1), one(any), bytes][random.below(4)].clone();
    record[chosen].iter_mut().for_each(|byte| *byte = random.pick(&[1, 1, 0x45, 0x80, 0xFF]));
}

fn put_out_of_order(random: &mut Random, edges: &mut [Record]) {
    let (a, b) = (random.below(edges.len()), random.below(edges.len()));
    match random.below(6) {
        0 => edges.swap(a, b),
        1 => edges.reverse(),
        2 => random.shuffle(edges),
        3 => edges[a.min(b)..=a.max(b)].rotate_left(1),
        4 => edges[a.min(b)..=a.max(b)].rotate_right(1),
        _ => edges.swap(a, (a + 1) % edges.len()),
    }
}

/// How many ways there are in which a file can be wrong and is left as it is.
pub const ODDITIES: usize = 12;

pub fn make_odd(random: &mut Random, records: &mut Vec<Record>, way: usize) {
    let [kinds, vertices, edges_at] =
        [KIND, VERTEX, EDGE].map(|kind| (0..records.len()).filter(|&k| records[k][0] == kind).collect::<Vec<usize>>());
    let first_edge = kinds.len() + vertices.len();
    let n = vertices.len();
    let any_of = |random: &mut Random, places: &[usize]| (!places.is_empty()).then(|| random.pick(places));
    match way {
        // a number, the cores or the type
        0 | 1 => {
            if let Some(k) = any_of(random, &kinds) {
                records[k][1 + way] = random.pick(&[0, 17, 45, 255]);
            }
        }
        2 | 3 => {
            if let Some(k) = any_of(random, &vertices) {
                records[k][way - 1] = random.pick(&[0, 10, 200, 255]);
            }
        }
        // a WCET that is too large has bytes where other records must have none
        4 => {
            if let Some(k) = any_of(random, &vertices) {
                records[k][4..]
                    .copy_from_slice(&random.pick(&[1_000_001u32, 1 << 24, 1 << 31, u32::MAX]).to_le_bytes());
            }
        }
        5 | 6 => {
            if let Some(k) = any_of(random, &edges_at) {
                records[k][way - 4] = random.pick(&[n.min(255) as u8, 128, 254, 255]);
            }
        }
        // a cycle of two
        7 => {
            if let Some(k) = any_of(random, &edges_at) {
                let back = edge(records[k][2], records[k][1]);
                let at = first_edge + records[first_edge..].partition_point(|r| r[1..3] < back[1..3]);
                records.insert(at, back);
            }
        }
        8 => {
            let more = MOST_KINDS + 1 - kinds.len().min(MOST_KINDS) + random.below(3);
            records.splice(0..0, std::iter::repeat_n(record(KIND, 0, 1), more));
        }
        9 => {
            let more = MOST_VERTICES + 1 - n.min(MOST_VERTICES) + random.below(3);
            records.splice(kinds.len()..kinds.len(), std::iter::repeat_n(record(VERTEX, 7, 0), more));
        }
        10 => records.retain(|r| r[0] == EDGE),
        // more edges than a graph can have, between more vertices
        _ => {
            records.retain(|r| r[0] != EDGE);
            let many = (LONGEST_FILE / RECORD).saturating_sub(records.len()).min(MOST_EDGES + 1 + random.below(3));
            records.extend((0..many).map(|i| edge((i / 250) as u8, (i % 250 + 5) as u8)));
        }
    }
}

/// The file of the records with a fault for which mending says no: 1, 2 or 3.
pub fn refused_with(random: &mut Random, mut records: Vec<Record>, number: u32) -> Vec<u8> {
    let last = records.len().saturating_sub(1);
    let any = random.between(0, last);
    match number {
        2 if records.is_empty() => records.push([0; RECORD]),
        2 => {
            records[random.pick(&[0, any, any, last])][0] = random.pick(&[0, 0x43, 0x44, 0x46, 0x53, 0x55, 0x57, 0xFF])
        }
        3 => {
            let late = random.pick(&[record(KIND, 0, 1), record(VERTEX, 0, 0)]);
            let behind = records.iter().position(|r| r[0] == EDGE).unwrap_or(records.len());
            records.insert(behind, edge(0, 1));
            records.insert(random.between(behind + 1, records.len()), late);
        }
        _ => {
            let mut file = records.concat();
            let odd = file.len() + random.between(1, RECORD - 1);
            file.resize(random.pick(&[odd, odd, LONGEST_FILE + RECORD]), 0);
            return file;
        }
    }
    records.concat()
}

/// Both rooms: enough for the most part, just enough for the half of them.
pub fn rooms(random: &mut Random, file: &[u8]) -> (usize, usize) {
    let (file, list) = (file.len(), 2 * file.len());
    let more = random.pick(&[0, 0, 1, 8, 50]);
    if random.one_in(6) {
        let fewer = random.between(0, file);
        return random.pick(&[
            (file.saturating_sub(1), list),
            (file, list.saturating_sub(1)),
            (file.saturating_sub(RECORD), list + more),
            (file + more, list.saturating_sub(RECORD)),
            (fewer, list),
            (file, fewer),
            (0, 0),
        ]);
    }
    random.pick(&[(file, list), (file, list), (file + more, list + more), (file, list + more), (file + more, list)])
}
