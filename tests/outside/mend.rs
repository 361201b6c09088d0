//! Mending by second ways: counted as the order's sentences have it, made again from the list, mended again, every four edges
//! between three vertices, what was planted, and worked on paper.

use crate::compare::hex;
use crate::generate::catalogue::case_a;
use crate::generate::edited;
use crate::generate::graphs::to_be_damaged;
use crate::generate::lists::{lists_of, records_of};
use crate::generate::mends::{files, largest, with_edges, FIRST_EDGE};
use crate::generate::random::Random;
use crate::options::Options;
use crate::reference::graph::RECORD;
use crate::reference::mend::{mend, Mend, Mended, MENDS};
use crate::reference::reader::read;
use crate::reference::refusal::Refusal;
use crate::reference::writer::file_of;
use std::collections::BTreeSet;

pub fn faults(options: &Options) -> Vec<String> {
    let mut faults = on_paper();
    let files = (0..3_000).map(|place| edited::any(&mut Random::new(options.seed ^ 0x3E4D, place)));
    faults.extend(files.chain(four_edges()).chain(largest().into_iter().map(|(_, file)| file)).filter_map(disagrees));
    faults.extend((0..2_000).filter_map(|place| planted(options.seed, place)));
    faults
}

/// A file is mended as it is by counting; the list and the file alone make the mended one; mended again nothing is done; one that
/// the reader accepts comes back as it is. A byte less of either room is 15.
fn disagrees(file: Vec<u8>) -> Option<String> {
    let (room, list_room) = (file.len(), 2 * file.len());
    let outcome = mend(&file, room, list_room);
    let tight = [(room.wrapping_sub(1), list_room), (room, list_room.wrapping_sub(1)), (0, 0)];
    let agrees = match &outcome {
        Err(refusal) => read(&file).is_err_and(|by_reader| by_reader.number <= refusal.number),
        Ok(mended) => {
            let again = mend(&mended.file, mended.file.len(), 2 * mended.file.len());
            *mended == by_counting(&file)
                && mended.file == made_again(&file, &mended.list)
                && again == Ok(Mended { file: mended.file.clone(), list: vec![] })
                && (read(&file).is_err() || *mended == Mended { file: file.clone(), list: vec![] })
        }
    };
    let says_15 = |&(room, list_room): &(usize, usize)| match &outcome {
        Ok(_) if !file.is_empty() => mend(&file, room, list_room) == refused(15, 0),
        _ => mend(&file, room, list_room) == outcome,
    };
    (!agrees || !tight.iter().all(says_15)).then(|| format!("two ways to mend {} differ", hex(&file)))
}

/// Of each record what is done to it and where it goes, each counted over all the others.
fn by_counting(file: &[u8]) -> Mended {
    let records: Vec<&[u8]> = file.chunks(RECORD).collect();
    let n = records.len();
    let is_edge = |k: usize| records[k][0] == b'E';
    let ends = |k: usize| records[k][1] as u32 * 256 + records[k][2] as u32;
    let is_loop = |k: usize| is_edge(k) && records[k][1] == records[k][2];
    let is_double = |k: usize| is_edge(k) && !is_loop(k) && (0..k).any(|j| is_edge(j) && ends(j) == ends(k));
    let is_dropped: Vec<bool> = (0..n).map(|k| is_loop(k) || is_double(k)).collect();
    let kept: Vec<usize> = (0..n).filter(|&k| is_edge(k) && !is_dropped[k]).collect();
    let others = (0..n).filter(|&k| !is_edge(k)).count();
    let must_be_zero = |k: usize, at: usize| at == 3 || at > 3 && records[k][0] != b'V';
    let mut mended = vec![None; others + kept.len()];
    let mut list = Vec::new();
    for k in 0..n {
        let seat = kept.iter().filter(|&&j| j < k).count();
        let rank = kept.iter().filter(|&&j| ends(j) < ends(k)).count();
        let is_stray = (0..RECORD).any(|at| must_be_zero(k, at) && records[k][at] != 0);
        let is_moved = is_edge(k) && !is_dropped[k] && seat != rank;
        for (letter, is_done) in [(b'C', is_stray), (b'D', is_loop(k)), (b'X', is_double(k)), (b'M', is_moved)] {
            if is_done {
                list.extend([letter, (k % 256) as u8, (k / 256) as u8, 0, 0, 0, 0, 0]);
            }
        }
        if !is_dropped[k] {
            let place = if is_edge(k) { others + rank } else { k };
            let byte = |at: usize| if must_be_zero(k, at) { 0 } else { records[k][at] };
            mended[place] = Some((0..RECORD).map(byte).collect::<Vec<u8>>());
        }
    }
    Mended { file: mended.into_iter().flat_map(|record| record.expect("a record at each place")).collect(), list }
}

/// The file made from the other one and the list alone: no byte is cleared, no record dropped and no edge moved but what is
/// listed. The edges that are listed as moved go, in order, where the others leave room.
fn made_again(file: &[u8], list: &[u8]) -> Vec<u8> {
    let listed = |letter: u8| -> BTreeSet<usize> {
        let entries = list.chunks(RECORD).filter(|entry| entry[0] == letter && entry[3..] == [0; 5]);
        entries.map(|entry| u16::from_le_bytes([entry[1], entry[2]]) as usize).collect()
    };
    let [cleared, to_itself, doubles, moved] = [b'C', b'D', b'X', b'M'].map(listed);
    let mut stays: Vec<(usize, Vec<u8>)> = file.chunks(RECORD).map(<[u8]>::to_vec).enumerate().collect();
    stays.retain(|(k, _)| !to_itself.contains(k) && !doubles.contains(k));
    for (k, record) in &mut stays {
        if cleared.contains(k) {
            let last = if record[0] == b'V' { 3 } else { 7 };
            record[3..=last].fill(0);
        }
    }
    let is_moved = |(k, record): &(usize, Vec<u8>)| moved.contains(k) && record[0] == b'E';
    let mut in_order: Vec<Vec<u8>> =
        stays.iter().filter(|stay| is_moved(stay)).map(|(_, record)| record.clone()).collect();
    in_order.sort_by(|a, b| b[1..3].cmp(&a[1..3]));
    let put = |stay: &(usize, Vec<u8>)| if is_moved(stay) { in_order.pop().unwrap() } else { stay.1.clone() };
    stays.iter().map(put).collect::<Vec<Vec<u8>>>().concat()
}

/// Every four edges between three vertices, one after the other.
fn four_edges() -> impl Iterator<Item = Vec<u8>> {
    let ends: Vec<String> = (0..9).map(|i| format!("{}-{}", i / 3, i % 3)).collect();
    (0..9usize.pow(4)).map(move |i| {
        let words: Vec<&str> = [i / 729, i / 81 % 9, i / 9 % 9, i % 9].map(|e| &ends[e][..]).to_vec();
        with_edges(&words.join(" "))
    })
}

/// A graph's file in which only such faults were left as are mended is mended to that file, and the reader accepts it. Each
/// fault is in the list, but for a disorder, which another one can undo; and a double of an edge from a vertex to itself is one
/// of those.
fn planted(seed: u64, place: u64) -> Option<String> {
    let random = &mut Random::new(seed ^ 0x12_3E4D, place);
    let graph = to_be_damaged(random);
    let mut records = records_of(&lists_of(&graph));
    let mut left: BTreeSet<Mend> = BTreeSet::new();
    for _ in 0..random.pick(&[0, 1, 1, 2, 3, 5]) {
        let mend = random.pick(&MENDS);
        edited::slip(random, &mut records, mend);
        left.insert(mend);
    }
    let file = records.concat();
    let mended = mend(&file, file.len(), 2 * file.len());
    let is_right = mended.is_ok_and(|mended| {
        let is_listed = |mend: Mend| mended.list.chunks(RECORD).any(|entry| entry[0] == mend.letter());
        let told = left.iter().all(|&mend| match mend {
            Mend::Move => true,
            Mend::DropDouble => is_listed(mend) || is_listed(Mend::DropLoop),
            _ => is_listed(mend),
        });
        mended.file == file_of(&graph) && read(&mended.file).as_ref() == Ok(&graph) && told
    });
    (!is_right).then(|| format!("what was left in {} is not mended", hex(&file)))
}

fn refused<T>(number: u32, place: usize) -> Result<T, Refusal> {
    Err(Refusal { number, place })
}

/// docs/orders/12.md works these out: the edges and the list, or the number and the place.
fn on_paper() -> Vec<String> {
    let plain = "0-1 0-2 1-3 2-3";
    let worked: [(&str, Result<(&str, &str), (u32, usize)>); 59] = [
        ("as it is", Ok((plain, ""))),
        ("a stray byte", Ok((plain, "C7"))),
        ("five of one record", Ok((plain, "C8"))),
        ("stray bytes in each", Ok((plain, "C6 C7 C8 C9"))),
        ("to itself", Ok((plain, "D8"))),
        ("to itself twice", Ok((plain, "D7 D9"))),
        ("to itself twice, beside", Ok((plain, "D9 D10"))),
        ("to itself, first", Ok((plain, "D6"))),
        ("to itself, last", Ok((plain, "D10"))),
        ("nothing else", Ok(("", "D6 D7 D8 D9"))),
        ("a double beside", Ok((plain, "X7"))),
        ("a double far away", Ok((plain, "X10"))),
        ("three of one", Ok((plain, "X7 X9"))),
        ("all of them twice", Ok((plain, "X10 X11 X12 X13"))),
        ("two exchanged", Ok((plain, "M6 M7"))),
        ("downwards", Ok((plain, "M6 M7 M8 M9"))),
        ("three downwards", Ok(("0-2 1-3 2-3", "M6 M8"))),
        ("the first last", Ok((plain, "M6 M7 M8 M9"))),
        ("the last first", Ok((plain, "M6 M7 M8 M9"))),
        ("the ends exchanged", Ok((plain, "M6 M9"))),
        ("a moved one twice", Ok((plain, "M6 M7 X8"))),
        ("a double in its place", Ok((plain, "M7 M8 X9"))),
        ("in order but for a double", Ok((plain, "X8"))),
        ("in order but for one to itself", Ok((plain, "D7"))),
        ("to itself, and moved behind it", Ok((plain, "D6 M7 M8"))),
        ("to itself, with stray bytes", Ok((plain, "C8 D8"))),
        ("a double with stray bytes", Ok((plain, "C8 X8"))),
        ("a double of one with stray bytes", Ok((plain, "C6 X8"))),
        ("moved, with stray bytes", Ok((plain, "C6 M6 M7"))),
        ("all four", Ok((plain, "C6 M6 M7 C8 D8 X9 M10 M11"))),
        ("no edge", Ok(("", ""))),
        ("undeclared ends", Ok(("0-1 0-2 1-3 2-3 2-9 255-254", ""))),
        ("undeclared ends, moved", Ok(("0-1 0-2 1-3 2-3 255-0", "M6 M7 M8 M9 M10"))),
        ("undeclared, to itself", Ok((plain, "D10"))),
        ("a cycle", Ok(("0-1 0-2 1-3 2-3 3-0", ""))),
        ("a cycle, out of order", Ok(("0-1 0-2 1-3 2-3 3-0", "M6 M7 M8 M9 M10"))),
        ("there and back", Ok(("0-1 0-2 1-0 1-3 2-3", "M6 M7 M8"))),
        ("by from, then by to", Ok(("0-2 0-255 1-0 2-1", "M6 M8"))),
        ("a type's byte 3", Ok((plain, "C0"))),
        ("a type's byte 4", Ok((plain, "C1"))),
        ("a type's byte 7", Ok((plain, "C1"))),
        ("a vertex's byte 3", Ok((plain, "C2"))),
        ("an edge's byte 3", Ok((plain, "C6"))),
        ("an edge's byte 4", Ok((plain, "C7"))),
        ("an edge's byte 7", Ok((plain, "C9"))),
        ("a vertex's byte 4", Ok((plain, ""))),
        ("a vertex's byte 7", Ok((plain, ""))),
        ("another type number", Ok((plain, ""))),
        ("no cores", Ok((plain, ""))),
        ("17 cores", Ok((plain, ""))),
        ("another vertex number", Ok((plain, ""))),
        ("an undeclared type", Ok((plain, ""))),
        ("an undeclared end", Ok(("0-1 0-2 1-3 2-4", ""))),
        ("an unknown kind, first", Err((2, 0))),
        ("an unknown kind, between", Err((2, 6))),
        ("an unknown kind, last", Err((2, 9))),
        ("a type behind vertices", Err((3, 5))),
        ("a vertex behind an edge", Err((3, 8))),
        ("a type behind edges", Err((3, 9))),
    ];
    let mut faults = Vec::new();
    let files = files();
    for ((name, file), (same, outcome)) in files.iter().zip(&worked) {
        let want = match outcome {
            Err((number, place)) => refused(*number, *place),
            Ok((edges, list)) => {
                // types and vertices are case A's where they were cleared, and else what they were
                let clears_heads = list_of(list).chunks(RECORD).any(|entry| (entry[1] as usize) < FIRST_EDGE);
                let heads = if clears_heads { records_of(&case_a()).concat() } else { file.clone() };
                let edges = with_edges(edges).split_off(FIRST_EDGE * RECORD);
                Ok(Mended { file: [&heads[..FIRST_EDGE * RECORD], &edges].concat(), list: list_of(list) })
            }
        };
        if name != same || mend(file, file.len(), 2 * file.len()) != want {
            faults.push(format!("the file '{name}' has another outcome than on paper"));
        }
    }
    let mut expect = |name: &str, holds: bool| {
        if !holds {
            faults.push(format!("{name} is not as on paper"));
        }
    };
    // what the reader says of it then
    for (name, number, place) in [
        ("as it is", 0, 0),
        ("a double beside", 0, 0),
        ("all four", 0, 0),
        ("no edge", 0, 0),
        ("undeclared ends", 9, 10),
        ("undeclared ends, moved", 9, 10),
        ("undeclared, to itself", 0, 0),
        ("a cycle", 11, 0),
        ("a cycle, out of order", 11, 0),
        ("there and back", 11, 0),
        ("another type number", 5, 1),
        ("no cores", 5, 0),
        ("17 cores", 5, 1),
        ("another vertex number", 7, 4),
        ("an undeclared type", 7, 4),
        ("an undeclared end", 9, 9),
        ("a vertex's byte 4", 0, 0),
        ("a vertex's byte 7", 7, 3),
    ] {
        let (_, file) = files.iter().find(|(other, _)| *other == name).expect("a file of this name");
        let said = mend(file, file.len(), 2 * file.len()).and_then(|mended| read(&mended.file));
        expect(name, said.map_or_else(|r| (r.number, r.place), |_| (0, 0)) == (number, place));
    }
    expect("a file of every name", files.len() == worked.len());
    let a = with_edges(plain);
    expect("80 bytes and 160", mend(&a, 80, 160).is_ok());
    expect("79 bytes", mend(&a, 79, 160) == refused(15, 0));
    expect("159 bytes", mend(&a, 80, 159) == refused(15, 0));
    expect("an empty file", mend(&[], 0, 0) == Ok(Mended::default()));
    expect("seven bytes", mend(&a[..7], 0, 0) == refused(1, 0));
    expect("eight zero bytes", mend(&[0; 8], 0, 0) == refused(2, 0));
    expect("9,304 bytes", mend(&[0x45; 9_304], 9_304, 18_608) == refused(1, 0));
    // stray bytes are no 2; an unknown kind behind a late record is
    let with = |changes: &[(usize, u8)]| {
        let mut file = a.clone();
        changes.iter().for_each(|&(at, byte)| file[at] = byte);
        mend(&file, 0, 0)
    };
    expect("a stray byte, then an unknown kind", with(&[(3, 1), (9 * 8, 0)]) == refused(2, 9));
    expect("a late record, then an unknown kind", with(&[(5 * 8, b'T'), (9 * 8, 0)]) == refused(2, 9));
    expect("a late record, and no room", with(&[(5 * 8, b'T')]) == refused(3, 5));
    expect("no room for stray bytes", with(&[(3, 1)]) == refused(15, 0));
    // the file that crates/mends works out by its definitions
    let heads = b"T\0\x02\0\0\0\0\0V\0\0\x07\x04\0\0\0V\x01\0\0\x09\0\0\0V\x02\0\0\x06\0\0\0V\x03\0\0\x01\0\0\0";
    let edges = with_edges("1-2 0-1* 1-1! 1-2 0-2 2-3").split_off(FIRST_EDGE * RECORD);
    let tangled = mend(&[&heads[..], &edges].concat(), 88, 176);
    let mut clean = [&heads[..], &with_edges("0-1 0-2 1-2 2-3")[FIRST_EDGE * RECORD..]].concat();
    clean[RECORD + 3] = 0;
    expect("tangled", tangled == Ok(Mended { file: clean, list: list_of("C1 M5 C6 M6 C7 D7 X8 M9") }));
    let of = |name: &str| {
        let (_, file) = largest().into_iter().find(|(other, _)| *other == name).expect("a file of this name");
        mend(&file, file.len(), 2 * file.len()).map(|mended| (mended.file.len(), mended.list.len()))
    };
    expect("in order", of("in order") == Ok((9_296, 0)));
    expect("1,024 downwards", of("1,024 downwards") == Ok((9_296, 8 * 1_024)));
    expect("1,023 downwards", of("1,023 downwards") == Ok((9_288, 8 * 1_022)));
    expect("the first last", of("the first last") == Ok((9_296, 8 * 1_024)));
    expect("stray bytes in each", of("stray bytes in each") == Ok((9_296, 8 * 1_162)));
    expect("1,162 upwards", of("1,162 upwards") == Ok((9_296, 0)));
    expect("1,162 downwards", of("1,162 downwards") == Ok((9_296, 8 * 1_162)));
    expect("1,162 alike", of("1,162 alike") == Ok((8, 8 * 1_161)));
    expect("1,162 to themselves", of("1,162 to themselves, with stray bytes") == Ok((0, 16 * 1_162)));
    expect("one too long", of("one too long") == refused(1, 0));
    expect("the entry of record 1,161", Mend::Move.entry(1_161) == [0x4D, 0x89, 0x04, 0, 0, 0, 0, 0]);
    faults
}

/// The list that these words say: a letter and a record each.
fn list_of(words: &str) -> Vec<u8> {
    let entry = |word: &str| [word.as_bytes()[0], word[1..].parse().unwrap(), 0, 0, 0, 0, 0, 0];
    words.split_whitespace().flat_map(entry).collect()
}
