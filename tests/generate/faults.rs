//! A fault for each number that says no, planted so that this number applies. Several planted in one file try the order
//! of the numbers: plant the larger number first, as the smaller one may take away what the larger one needs.

use super::lists::{edge, file_of, records_of, Record};
use super::random::Random;
use crate::reference::graph::{LONGEST_FILE, MOST_EDGES, MOST_VERTICES, MOST_WCET, RECORD};
use crate::reference::reader::{EDGE, KIND, VERTEX};
use crate::reference::writer::Lists;

/// The file of the lists after each of the numbers, 1 to 11, has got its fault.
pub fn file_with(random: &mut Random, lists: &Lists, numbers: &[u32]) -> Vec<u8> {
    let mut numbers = numbers.to_vec();
    numbers.sort_unstable();
    numbers.dedup();
    let mut lists = lists.clone();
    let mut in_number_byte = Vec::new();
    for &number in numbers.iter().rev().filter(|&&number| number >= 4) {
        if [5, 7].contains(&number) && random.one_in(3) {
            in_number_byte.push(if number == 5 { KIND } else { VERTEX });
        } else {
            plant(random, &mut lists, number);
        }
    }
    let mut records = records_of(&lists);
    in_number_byte.iter().for_each(|&kind| misnumber(random, &mut records, kind));
    if numbers.contains(&3) {
        plant_late_record(random, &mut records);
    }
    if numbers.contains(&2) {
        plant_stray_byte(random, &mut records);
    }
    let mut file = file_of(&records);
    if numbers.contains(&1) {
        plant_wrong_length(random, &mut file);
    }
    file
}

/// Numbers 4 to 11 and 13, in lists of a graph with at least three vertices and an edge.
pub fn plant(random: &mut Random, lists: &mut Lists, number: u32) {
    match number {
        4 if random.one_in(2) => lists.cores.clear(),
        4 => lists.cores.resize(random.between(11, 14), 2),
        5 => match lists.cores.len() {
            0 => lists.cores.push(0),
            k => lists.cores[random.below(k)] = random.pick(&[0, 17, 18, 255]),
        },
        6 if random.one_in(2) => resize_vertices(lists, 0),
        6 => resize_vertices(lists, random.between(129, 132)),
        7 => plant_wrong_vertex(random, lists),
        8 => plant_many_edges(random, lists),
        9 => plant_wrong_edge(random, lists),
        10 => plant_disorder(random, lists),
        11 => plant_cycle(random, lists),
        13 if random.one_in(2) => lists.wcets.push(0),
        13 => lists.kinds.push(0),
        _ => panic!("no fault for number {number}"),
    }
}

fn resize_vertices(lists: &mut Lists, n: usize) {
    lists.kinds.resize(n, 0);
    lists.wcets.resize(n, 0);
}

fn plant_wrong_vertex(random: &mut Random, lists: &mut Lists) {
    if lists.kinds.is_empty() {
        resize_vertices(lists, 1);
    }
    let v = random.below(lists.kinds.len());
    if random.one_in(2) {
        lists.kinds[v] = random.pick(&[lists.cores.len() as u8, 255]);
    } else {
        lists.wcets[v] = random.pick(&[MOST_WCET + 1, 1 << 24, 1 << 31, u32::MAX]);
    }
}

/// Good edges where the graph has room for so many, doubles of its own where it hasn't.
fn plant_many_edges(random: &mut Random, lists: &mut Lists) {
    let n = lists.kinds.len();
    let wanted = MOST_EDGES + random.pick(&[1, 1, 2]);
    let mut all: Vec<u16> = (0..n).flat_map(|u| (u + 1..n).map(move |v| edge(u as u8, v as u8))).take(wanted).collect();
    if all.len() < wanted {
        all = lists.edges.clone();
    }
    while all.len() < wanted {
        all.push(all.last().copied().unwrap_or(edge(0, 1)));
    }
    lists.edges = all;
}

fn plant_wrong_edge(random: &mut Random, lists: &mut Lists) {
    if lists.edges.is_empty() {
        lists.edges.push(edge(0, 1));
    }
    let n = lists.kinds.len().min(255) as u8;
    let beyond = random.pick(&[n, 255]);
    let e = random.below(lists.edges.len());
    let (from, to) = ((lists.edges[e] >> 8) as u8, lists.edges[e] as u8);
    lists.edges[e] = random.pick(&[edge(beyond, to), edge(from, beyond), edge(from, from)]);
}

fn plant_disorder(random: &mut Random, lists: &mut Lists) {
    let e = random.below(lists.edges.len());
    if e > 0 && random.one_in(2) {
        lists.edges.swap(e - 1, e);
    } else {
        let again = random.between(e, lists.edges.len());
        lists.edges.insert(again, lists.edges[e]);
    }
}

/// A way back along some edges, or a ring of its own that no source reaches.
fn plant_cycle(random: &mut Random, lists: &mut Lists) {
    let n = lists.kinds.len();
    if random.one_in(3) && n + 3 <= MOST_VERTICES {
        let ring = random.between(2, 3);
        resize_vertices(lists, n + ring);
        let member = |i: usize| (n + i % ring) as u8;
        lists.edges.extend((0..ring).map(|i| edge(member(i), member(i + 1))));
        if random.one_in(2) {
            lists.edges.push(edge(member(0), random.below(n) as u8));
        }
    } else {
        let first = lists.edges[random.below(lists.edges.len())];
        let (begin, mut end) = ((first >> 8) as u8, first as u8);
        for _ in 0..random.pick(&[0, 1, 3, 128]) {
            let onward: Vec<u16> = lists.edges.iter().copied().filter(|e| (e >> 8) as u8 == end).collect();
            if !onward.is_empty() {
                end = random.pick(&onward) as u8;
            }
        }
        lists.edges.push(edge(end, begin));
    }
    lists.edges.sort_unstable();
}

fn misnumber(random: &mut Random, records: &mut [Record], kind: u8) {
    let of_kind: Vec<usize> = (0..records.len()).filter(|&k| records[k][0] == kind).collect();
    if !of_kind.is_empty() {
        let k = random.pick(&of_kind);
        records[k][1] = records[k][1].wrapping_add(random.pick(&[1, 255, 128]));
    }
}

/// A type or vertex record taken out and put back behind one that it must not follow, or a new type record at the end.
fn plant_late_record(random: &mut Random, records: &mut Vec<Record>) {
    let rank = |r: &Record| [KIND, VERTEX, EDGE].iter().position(|&kind| kind == r[0]);
    let k = random.below(records.len().max(1));
    let last_higher = records.iter().rposition(|r| rank(r) > rank(&records[k]));
    match last_higher {
        Some(last) if last > k => {
            let first_higher = records.iter().position(|r| rank(r) > rank(&records[k])).unwrap_or(last);
            let record = records.remove(k);
            records.insert(random.between(first_higher, last), record);
        }
        _ => {
            if !records.iter().any(|r| r[0] != KIND) {
                records.push([EDGE, 0, 1, 0, 0, 0, 0, 0]);
            }
            records.push([KIND, records.len() as u8, 1, 0, 0, 0, 0, 0]);
        }
    }
}

fn plant_stray_byte(random: &mut Random, records: &mut Vec<Record>) {
    if records.is_empty() {
        records.push([0; RECORD]);
        return;
    }
    let k = random.below(records.len());
    let spare = if records[k][0] == VERTEX { 3 } else { random.between(3, 7) };
    let at = random.pick(&[0, spare]);
    records[k][at] = if at == 0 { random.pick(&[0, 0x44, 0x53, 0x55, 0xFF]) } else { random.pick(&[1, 0x80, 0xFF]) };
}

fn plant_wrong_length(random: &mut Random, file: &mut Vec<u8>) {
    if random.one_in(4) {
        // one record too many, made of whole records
        let last = file.len().saturating_sub(RECORD);
        let record = if file.is_empty() { vec![0; RECORD] } else { file[last..].to_vec() };
        while file.len() <= LONGEST_FILE {
            file.extend(&record);
        }
    } else {
        let extra = random.between(1, RECORD - 1);
        file.extend((0..extra).map(|_| random.byte()));
    }
}
