//! Texts by second ways: byte by byte, there and back, one byte away from one that is accepted, worked on paper, and those
//! of tests/stg with what is kept beside them.

use crate::by_bytes;
use crate::generate::lists::{file_of as file_of_records, records_of};
use crate::generate::random::Random;
use crate::generate::stg;
use crate::generate::texts;
use crate::options::Options;
use crate::reference::graph::LONGEST_FILE;
use crate::reference::reader::read;
use crate::reference::refusal::Refusal;
use crate::reference::sheet::sheet;
use crate::reference::stg::{stg_read, stg_write, text_of};
use crate::reference::writer::{file_of, Lists};

/// What tests/stg has: a text, the cores and the types that it is read with, its file, that file's sheet and text.
struct Kept {
    text: &'static [u8],
    cores: &'static [u8],
    kinds: &'static [u8],
    file: &'static [u8],
    sheet: &'static str,
    written: &'static [u8],
}

const KEPT: [Kept; 3] = [
    Kept {
        text: include_bytes!("../stg/one-type.stg"),
        cores: &[2],
        kinds: &[0; 9],
        file: include_bytes!("../stg/one-type.graph"),
        sheet: include_str!("../stg/one-type.sheet"),
        written: include_bytes!("../stg/one-type.written"),
    },
    Kept {
        text: include_bytes!("../stg/two-types.stg"),
        cores: &[2, 3],
        kinds: &[0, 0, 0, 1, 1, 1, 0, 1, 1, 0, 0, 0, 0, 0],
        file: include_bytes!("../stg/two-types.graph"),
        sheet: include_str!("../stg/two-types.sheet"),
        written: include_bytes!("../stg/two-types.written"),
    },
    Kept {
        text: include_bytes!("../stg/fifty.stg"),
        cores: &[4],
        kinds: &[0; 52],
        file: include_bytes!("../stg/fifty.graph"),
        sheet: include_str!("../stg/fifty.sheet"),
        written: include_bytes!("../stg/fifty.written"),
    },
];

pub fn faults(options: &Options) -> Vec<String> {
    let mut faults = texts_on_paper();
    faults.extend(KEPT.iter().filter_map(kept_otherwise));
    faults.extend(texts_one_byte_away());
    faults.extend((0..4_000).filter_map(|place| text_agrees(options.seed, place)));
    faults
}

/// Any text is judged as it is byte by byte. What is written of a graph that has an entry and an exit reads back, with its own
/// lists, as its file; and the canonical text of any graph whose ends take no time is read as its file, and written, where it is
/// written, as the same bytes.
fn text_agrees(seed: u64, place: u64) -> Option<String> {
    let random = &mut Random::new(seed ^ 0x57E6, place);
    let stg::Lent { text, cores, kinds } = stg::any(random);
    let room = random.pick(&[0, 64, 200, LONGEST_FILE]);
    let outcome = stg_read(&text, &cores, &kinds, room);
    if outcome != by_bytes::judged(&text, &cores, &kinds, room) {
        return Some(format!("two readers of texts differ on {:?} with {cores:?} and {kinds:?}", text.escape_ascii()));
    }
    let framed = stg::framed(random);
    let mut graphs = vec![framed.clone(), stg::without_entry_or_exit(random)];
    graphs.extend(outcome.ok().map(|file| read(&file).unwrap()));
    for graph in &graphs {
        let n = graph.vertices();
        let ends_take_no_time = n >= 3 && graph.wcets[0] == 0 && graph.wcets[n - 1] == 0;
        let canonical = if n >= 2 { text_of(graph).into_bytes() } else { vec![] };
        let back = stg_read(&canonical, &graph.cores, &graph.kinds, LONGEST_FILE);
        let written = stg_write(graph, canonical.len());
        let is_good = match written {
            Ok(text) => text == canonical && back.as_ref() == Ok(&file_of(graph)),
            Err(refusal) => refusal == Refusal { number: 24, place: 0 } && graph != &framed,
        };
        let short = canonical.len().saturating_sub(1);
        let is_short = !stg_write(graph, canonical.len()).is_ok_and(|_| stg_write(graph, short) != refused(15, 0));
        if !is_good || !is_short || back.is_ok() != ends_take_no_time {
            return Some(format!("a text and back is another graph than {graph:?}"));
        }
    }
    None
}

/// Each text that differs in a byte from one that is accepted is judged as it is byte by byte.
fn texts_one_byte_away() -> Vec<String> {
    let all = texts::one_byte_away();
    let outcome = |text: &[u8]| stg_read(text, &texts::CORES, &texts::KINDS[..3], 64);
    let differs =
        all.iter().filter(|text| outcome(text) != by_bytes::judged(text, &texts::CORES, &texts::KINDS[..3], 64));
    let mut faults: Vec<String> =
        differs.map(|text| format!("two readers of texts differ on {:?}", text.escape_ascii())).collect();
    let accepted = all.iter().filter(|text| outcome(text).is_ok()).count();
    if !(20..all.len() / 2).contains(&accepted) {
        faults.push(format!("{accepted} texts are accepted that differ in a byte"));
    }
    faults
}

/// docs/orders/09.md works these out: the file as it is, or with other records; or the number and the place.
fn texts_on_paper() -> Vec<String> {
    let (same, refused_at) = (Ok(&[][..]), |number: u32, place: usize| Err(Refusal { number, place }));
    let at_line = |line: usize| refused_at(23, line);
    // the records that change, by their places; one with no bytes is gone
    let largest: &[(usize, &[u8])] = &[(5, b"V\x03\0\0\x40\x42\x0F\0")];
    let waits_for_none: &[(usize, &[u8])] = &[(7, b"")];
    let exit_alone: &[(usize, &[u8])] = &[(11, b"")];
    let outcomes: Vec<(&str, Result<&[(usize, &[u8])], Refusal>)> = vec![
        ("no text", at_line(0)),
        ("as it is", same),
        ("blanks and tabs", same),
        ("the other way round", same),
        ("zeros in front", same),
        ("a count of ten digits", same),
        ("an entry of many zeros", same),
        ("comments behind", same),
        ("the largest time", Ok(largest)),
        ("a task that waits for none", Ok(waits_for_none)),
        ("an exit that waits for none", Ok(exit_alone)),
        ("a task that waits for the exit too", refused_at(11, 0)),
        ("an empty count", at_line(0)),
        ("a count of 0", at_line(0)),
        ("a count of 127", at_line(0)),
        ("a count of 2^32 + 3", at_line(0)),
        ("a count of eleven digits", at_line(0)),
        ("two counts", at_line(0)),
        ("a comment first", at_line(0)),
        ("no count", at_line(0)),
        ("a count of 2", at_line(4)),
        ("a count of 4", at_line(6)),
        ("an entry with a time", at_line(1)),
        ("an exit with a time", at_line(5)),
        ("another number", at_line(3)),
        ("a number and 256", at_line(3)),
        ("two fields", at_line(2)),
        ("a predecessor missing", at_line(4)),
        ("one too many", at_line(4)),
        ("a repeated one", at_line(4)),
        ("a repeated one, by value", at_line(4)),
        ("itself, repeated", at_line(4)),
        ("predecessor 5", at_line(4)),
        ("predecessor 258", at_line(4)),
        ("a sign", at_line(4)),
        ("a carriage return", at_line(4)),
        ("a form feed", at_line(4)),
        ("a comment at the end of a line", at_line(4)),
        ("a time of eleven digits", at_line(4)),
        ("an empty line between", at_line(3)),
        ("a blank line between", at_line(3)),
        ("a comment between", at_line(3)),
        ("a task twice", at_line(4)),
        ("a task less", at_line(3)),
        ("no exit", at_line(5)),
        ("no line feed", at_line(5)),
        ("an empty line behind", at_line(6)),
        ("a blank line behind", at_line(7)),
        ("task 5", at_line(6)),
        ("a comment without line feed", at_line(7)),
        ("a carriage return before a comment", at_line(6)),
        ("1,000,001", refused_at(7, 5)),
        ("2^32 + 6", refused_at(7, 5)),
        ("ten nines", refused_at(7, 5)),
        ("two above the limit", refused_at(7, 3)),
        ("its own predecessor", refused_at(9, 11)),
        ("an entry that is its own", refused_at(9, 7)),
        ("a cycle", refused_at(11, 0)),
        ("an entry that waits for the exit", refused_at(11, 0)),
        ("its own, and a cycle", refused_at(9, 9)),
    ];
    let (cores, kinds) = (&texts::CORES, &texts::KINDS);
    let plain: Vec<[u8; 8]> = [
        *b"T\0\x02\0\0\0\0\0",
        *b"T\x01\x03\0\0\0\0\0",
        *b"V\0\0\0\0\0\0\0",
        *b"V\x01\0\0\x04\0\0\0",
        *b"V\x02\x01\0\x09\0\0\0",
        *b"V\x03\0\0\x06\0\0\0",
        *b"V\x04\0\0\0\0\0\0",
        *b"E\0\x01\0\0\0\0\0",
        *b"E\0\x02\0\0\0\0\0",
        *b"E\x01\x03\0\0\0\0\0",
        *b"E\x02\x03\0\0\0\0\0",
        *b"E\x03\x04\0\0\0\0\0",
    ]
    .to_vec();
    let with = |changes: &[(usize, &[u8])]| {
        let mut records: Vec<&[u8]> = plain.iter().map(|record| &record[..]).collect();
        changes.iter().for_each(|&(place, record)| records[place] = record);
        records.concat()
    };
    let mut faults = Vec::new();
    let all = texts::texts();
    for ((name, text), (as_worked, outcome)) in all.iter().zip(&outcomes) {
        let want = |room: usize| match outcome {
            Err(refusal) => Err(*refusal),
            Ok(changes) if room < with(changes).len() => refused(15, 0),
            Ok(changes) => Ok(with(changes)),
        };
        let differs = |room: &usize| stg_read(text, cores, kinds, *room) != want(*room);
        if name != as_worked || [0, 87, 88, 95, 96, 97].iter().any(differs) {
            faults.push(format!("the text '{name}' has another outcome than on paper"));
        }
    }
    let mut expect = |name: &str, holds: bool| {
        if !holds {
            faults.push(format!("{name} is not as on paper"));
        }
    };
    expect("a text of every name", all.len() == outcomes.len());
    let three = texts::THREE.concat();
    let read_with = |cores: &[u8], kinds: &[u8]| stg_read(three.as_bytes(), cores, kinds, 0);
    expect("the list one short", read_with(cores, &kinds[..4]) == refused(13, 0));
    expect("the list one long", read_with(&[], &[0; 6]) == refused(13, 0));
    expect("no cores", read_with(&[], kinds) == refused(4, 0));
    expect("eleven types", read_with(&[0; 11], kinds) == refused(4, 0));
    expect("17 cores", read_with(&[2, 17], kinds) == refused(5, 1));
    expect("type 2", read_with(cores, &[0, 0, 2, 0, 0]) == refused(7, 4));
    expect("type 2 of the entry", read_with(cores, &[2, 0, 1, 0, 2]) == refused(7, 2));
    let padded = |text: &str, length: usize| {
        let mut text = text.as_bytes().to_vec();
        stg::pad(&mut Random::new(0, 0), &mut text, length);
        stg_read(&text, cores, kinds, 96)
    };
    expect("65,536 bytes", padded(&three, 65_536) == Ok(with(&[])));
    expect("65,537 bytes", padded(&three, 65_537) == refused(23, 0));
    let wrong = three.replace("2 9", "3 9");
    expect("a line at fault in 65,536", padded(&wrong, 65_536) == refused(23, 3));
    expect("a line at fault in 65,537", padded(&wrong, 65_537) == refused(23, 0));

    let graph = |lists: &Lists| read(&file_of_records(&records_of(lists))).unwrap();
    let written: [Option<&str>; 13] = [
        Some("5\n0 0 0\n1 3 1 0\n2 2 1 0\n3 5 1 1\n4 1 1 2\n5 6 1 4\n6 0 2 3 5\n"),
        Some("1\n0 0 0\n1 5 1 0\n2 0 1 1\n"),
        Some("1\n0 0 0\n1 0 1 0\n2 0 1 1\n"),
        None,
        None,
        None,
        None,
        None,
        None,
        None,
        None,
        None,
        None,
    ];
    let graphs = texts::graphs();
    expect("a text of every graph", graphs.len() == written.len());
    for ((name, lists), text) in graphs.iter().zip(written) {
        let outcome = |room: usize| stg_write(&graph(lists), room);
        let holds = match text {
            None => [0, 6_000].iter().all(|&room| outcome(room) == refused(24, 0)),
            Some(text) => outcome(text.len()) == Ok(text.into()) && outcome(text.len() - 1) == refused(15, 0),
        };
        expect(name, holds);
    }
    let back = read(&with(&[])).unwrap();
    expect("three tasks, written", stg_write(&back, 100) == Ok(three.clone().into()));
    expect("three tasks, without an exit", stg_write(&read(&with(exit_alone)).unwrap(), 100) == refused(24, 0));
    expect("the longest text", stg_write(&stg::longest_text(), 5_759).map(|text| text.len()) == Ok(5_759));
    faults
}

/// Read, planned, written and read again, both readers: what is kept beside the text.
fn kept_otherwise(kept: &Kept) -> Option<String> {
    let length = kept.file.len();
    let is_read = [kept.text, kept.written].iter().all(|text| {
        let file = stg_read(text, kept.cores, kept.kinds, length);
        file.as_deref() == Ok(kept.file) && by_bytes::judged(text, kept.cores, kept.kinds, length) == file
    });
    let written = read(kept.file).and_then(|graph| stg_write(&graph, kept.written.len()));
    let is_kept = is_read && sheet(kept.file) == kept.sheet && written.as_deref() == Ok(kept.written);
    (!is_kept).then(|| format!("a text of tests/stg comes to something else:\n{}", kept.text.escape_ascii()))
}

fn refused<T>(number: u32, place: usize) -> Result<T, Refusal> {
    Err(Refusal { number, place })
}
