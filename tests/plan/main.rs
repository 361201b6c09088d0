//! Board texts through `plan graph`, against what docs/BOARD.md says of them; and those that are accepted through `plan sheet`, `plan gains`,
//! `plan enough`, `plan json`, `plan dot`, with times and logs `plan chart`, with an altered graph `plan compare` and with edited records
//! `plan mend`, against the planner's reference.
//!
//!   boards COUNT SEED COMMAND..     the command is the program `plan`, with its loader
mod board;
mod chart;
mod compare;
mod dot;
mod enough;
mod gains;
mod generate;
mod json;
mod mend;
#[allow(dead_code)]
#[path = "../reference/mod.rs"]
mod reference;
#[allow(dead_code)]
#[path = "../generate/mod.rs"]
mod requests;
mod shown;
mod xml;

use board::{given, Given};
use gains::{altered, some_stage, some_wcet};
use generate::{board, damaged, large, Random};
use std::collections::BTreeMap;
use std::ffi::OsStr;
use std::io::{Read, Write};
use std::os::unix::ffi::OsStrExt;
use std::process::{exit, Command, Stdio};

/// What the program wrote to standard output, and its status digit, which comes by descriptor 3. It reads standard input, and is given more words.
fn asked_more(command: &[String], word: &str, more: &[&[u8]], input: &[u8]) -> (Vec<u8>, Vec<u8>) {
    let mut child = Command::new("/bin/sh")
        .args(["-c", "exec \"$@\" 3>&2 2>/dev/null", "sh"])
        .args(command)
        .args([word, "-"])
        .args(more.iter().map(|w| OsStr::from_bytes(w)))
        .stdin(Stdio::piped())
        .stdout(Stdio::piped())
        .stderr(Stdio::piped())
        .spawn()
        .expect("the program starts");
    // the program reads no more than it needs of a long text
    let _ = child.stdin.take().unwrap().write_all(input);
    let (mut out, mut status) = (vec![], vec![]);
    child.stdout.take().unwrap().read_to_end(&mut out).unwrap();
    child.stderr.take().unwrap().read_to_end(&mut status).unwrap();
    child.wait().unwrap();
    (out, status)
}

fn asked(command: &[String], word: &str, input: &[u8]) -> (Vec<u8>, Vec<u8>) {
    asked_more(command, word, &[], input)
}

fn text_of(r: &mut Random) -> Vec<u8> {
    match r.below(10) {
        0..=3 => board(r),
        4..=7 => {
            let mut text = board(r);
            for _ in 0..1 + r.below(3) {
                text = damaged(r, text);
            }
            text
        }
        _ => large(r),
    }
}

/// An accepted text and its file through `plan sheet` and `plan gains`. The row of what is answered.
fn planned(r: &mut Random, command: &[String], i: usize, text: &[u8], file: &[u8], names: &[Vec<u8>]) -> &'static str {
    let sheet = reference::sheet::sheet(file).into_bytes();
    if r.below(8) == 0 {
        // a text's sheet goes on with the path by names
        let (mut out, _) = asked(command, "sheet", text);
        out.truncate(sheet.len());
        if out != sheet {
            differs(i, text, "another sheet", &out, &sheet);
        }
    }
    let graph = reference::reader::read(file).expect("the graph was accepted");
    let (input, names) = if r.below(3) == 0 { (file, &[][..]) } else { (text, names) };
    let (answer, words) = if r.below(4) == 0 {
        (gains::gains(&graph, names), vec![])
    } else {
        let (stage, wcet) = (some_stage(r, graph.vertices(), names), some_wcet(r));
        (altered(&graph, names, &stage, &wcet), vec![stage, wcet])
    };
    let more: Vec<&[u8]> = words.iter().map(|w| &w[..]).collect();
    let (out, status) = asked_more(command, "gains", &more, input);
    if out != answer.said {
        differs(i, text, "other gains", &out, &answer.said);
    }
    if status != answer.digit {
        differs(i, text, "another status of gains", &status, answer.digit);
    }
    answer.row
}

/// An accepted text or its file, and an altered graph, through `plan compare`. Where nothing is worse, what may be compared has not risen.
fn beside(r: &mut Random, command: &[String], i: usize, text: &[u8], file: &[u8], names: &[Vec<u8>]) -> &'static str {
    let graph = reference::reader::read(file).expect("the graph was accepted");
    let after = compare::altered(r, &graph);
    let other = std::env::temp_dir().join(format!("board-{}.graph", std::process::id()));
    std::fs::write(&other, reference::writer::file_of(&after)).expect("the other file is written");
    let (input, names) = if r.below(2) == 0 { (file, &[][..]) } else { (text, names) };
    let (row, said) = compare::compared(&graph, &after, names);
    let (mut out, status) = asked_more(command, "compare", &[other.as_os_str().as_bytes()], input);
    let _ = std::fs::remove_file(&other);
    if !said.ends_with(b"\n") {
        out.truncate(said.len());
    }
    if out != said {
        differs(i, text, "another comparison", &out, &said);
    }
    if status != b"0" {
        differs(i, text, "another status of compare", &status, b"0");
    }
    row
}

/// An accepted text or its file through `plan enough`.
fn with_enough(r: &mut Random, command: &[String], i: usize, text: &[u8], file: &[u8], types: &[Vec<u8>]) -> &'static str {
    let graph = reference::reader::read(file).expect("the graph was accepted");
    let (input, types) = if r.below(3) == 0 { (file, &[][..]) } else { (text, types) };
    let (kind, ticks) = (enough::some_type(r, &graph, types), enough::some_ticks(r, &graph));
    let answer = enough::enough(&graph, types, &kind, &ticks);
    let (mut out, status) = asked_more(command, "enough", &[&kind, &ticks], input);
    if !answer.said.ends_with(b"\n") {
        out.truncate(answer.said.len());
    }
    if out != answer.said {
        differs(i, text, "another number of cores", &out, &answer.said);
    }
    if status != answer.digit {
        differs(i, text, "another status of enough", &status, answer.digit);
    }
    answer.row
}

/// An accepted text or its file through `plan json`.
fn as_json(r: &mut Random, command: &[String], i: usize, text: &[u8], file: &[u8], [names, types]: [&[Vec<u8>]; 2]) -> &'static str {
    let graph = reference::reader::read(file).expect("the graph was accepted");
    let (input, [names, types]) = if r.below(3) == 0 { (file, [&[][..]; 2]) } else { (text, [names, types]) };
    let (out, status) = asked(command, "json", input);
    let should = json::answer(&graph, names, types);
    if json::read(&out).as_ref() != Some(&should) {
        differs(i, text, "another answer as JSON", &out, format!("{should:?}").as_bytes());
    }
    if status != b"0" {
        differs(i, text, "another status of json", &status, b"0");
    }
    let names_are = names.iter().chain(types).all(|name| std::str::from_utf8(name).is_ok());
    if names.is_empty() {
        "json without names"
    } else if names_are {
        "json"
    } else {
        "json of other bytes"
    }
}

/// A text that is refused or at fault, where other words say so in these lines.
fn no_json(command: &[String], i: usize, text: &[u8], said: &[u8]) -> &'static str {
    let (out, status) = asked(command, "json", text);
    if status != b"1" {
        differs(i, text, "another status of json", &status, b"1");
    }
    let (row, should) = match json::refused(said) {
        Some(refusal) => ("json refused", refusal),
        None => ("json fault", json::fault(said).expect("a line that says a fault")),
    };
    if json::read(&out).as_ref() != Some(&should) {
        differs(i, text, "another refusal or fault as JSON", &out, format!("{should:?}").as_bytes());
    }
    row
}

/// The times of a run as a text of times, for the stages of a text by their names.
fn times_as_text(names: &[Vec<u8>], times: &[u32]) -> Vec<u8> {
    let mut text = vec![];
    for (v, time) in times.iter().enumerate() {
        text.extend(names.get(v).into_iter().flatten());
        text.extend(format!(" {time}\n").bytes());
    }
    text
}

/// An accepted text or its file through `plan chart`: a run of full length, one with times, or a recorded frame.
fn as_chart(r: &mut Random, command: &[String], i: usize, text: &[u8], file: &[u8], [names, types]: [&[Vec<u8>]; 2]) -> &'static str {
    let graph = reference::reader::read(file).expect("the graph was accepted");
    let (input, [names, types]) = if r.below(4) == 0 { (file, [&[][..]; 2]) } else { (text, [names, types]) };
    let mut random = requests::random::Random::new(r.below(usize::MAX) as u64, i as u64);
    let of_run = |times: &[u32]| reference::log::bytes_of(&reference::log::events_of_run(&graph, times));
    let (row, called, log, given) = match r.below(6) {
        0 => ("chart", "A run, each stage at its WCET", of_run(&graph.wcets), None),
        1 => {
            let times = requests::runs::times(&mut random, &graph);
            ("chart of times", "A run at the times given", of_run(&times), Some(times_as_text(names, &times)))
        }
        _ => {
            let log = if r.below(3) == 0 {
                let times = requests::runs::times(&mut random, &graph);
                requests::logs::with(&mut random, &graph, &times, &[19 + r.below(4) as u32])
            } else {
                requests::logs::any(&mut random, &graph)
            };
            // bytes without a 0 are a text of times
            if !log.contains(&0) {
                return "no picture";
            }
            ("chart of a frame", "A recorded frame", log.clone(), Some(log))
        }
    };
    let second = std::env::temp_dir().join(format!("chart-{}", std::process::id()));
    std::fs::write(&second, given.as_deref().unwrap_or_default()).expect("the second file is written");
    let more: Vec<&[u8]> = given.iter().map(|_| second.as_os_str().as_bytes()).collect();
    let (out, status) = asked_more(command, "chart", &more, input);
    let judged = reference::replay::replay(&graph, &log, graph.vertices());
    let row = match judged {
        Err(refusal) if refusal.number == 18 => {
            let (said, _) = asked_more(command, "replay", &more, input);
            if out != said || status != b"1" {
                differs(i, text, "another refusal of a log", &out, &said);
            }
            "chart 18"
        }
        Err(refusal) => ["chart 19", "chart 20", "chart 21", "chart 22"][refusal.number as usize - 19],
        Ok(_) => row,
    };
    if row != "chart 18" {
        let drawn = chart::Drawn { graph: &graph, names, types, called, log: &log };
        match chart::check(&out, &drawn) {
            Err(why) => differs(i, text, &format!("another chart ({row}, {}): {why}", second.display()), &out, b""),
            Ok(digit) if status != digit => differs(i, text, "another status of chart", &status, digit),
            Ok(_) => {}
        }
    }
    let _ = std::fs::remove_file(&second);
    row
}

/// An accepted text or its file through `plan dot`.
fn as_dot(r: &mut Random, command: &[String], i: usize, text: &[u8], file: &[u8], [names, types]: [&[Vec<u8>]; 2]) -> &'static str {
    let graph = reference::reader::read(file).expect("the graph was accepted");
    let (input, [names, types]) = if r.below(4) == 0 { (file, [&[][..]; 2]) } else { (text, [names, types]) };
    let (out, status) = asked(command, "dot", input);
    if let Err(why) = dot::check(&out, &graph, names, types) {
        differs(i, text, &format!("another graph for graphviz: {why}"), &out, b"");
    }
    if status != b"0" {
        differs(i, text, "another status of dot", &status, b"0");
    }
    if names.is_empty() {
        "dot without names"
    } else {
        "dot"
    }
}

/// The file with some records edited through `plan mend`: what it says and what it writes, which is nothing where it is refused.
fn mended(r: &mut Random, command: &[String], i: usize, text: &[u8], file: &[u8]) -> &'static str {
    let edited = mend::edited(r, file);
    let (answer, should) = mend::mended(&edited);
    let written = std::env::temp_dir().join(format!("mended-{}.graph", std::process::id()));
    let _ = std::fs::remove_file(&written);
    let (mut out, status) = asked_more(command, "mend", &[written.as_os_str().as_bytes()], &edited);
    let is = std::fs::read(&written).ok();
    let _ = std::fs::remove_file(&written);
    if !answer.said.ends_with(b"\n") {
        out.truncate(answer.said.len());
    }
    if out != answer.said {
        differs(i, text, "another mend", &out, &answer.said);
    }
    if status != answer.digit {
        differs(i, text, "another status of mend", &status, answer.digit);
    }
    if is != should {
        differs(i, text, "another mended file", &is.unwrap_or_default(), &should.unwrap_or_default());
    }
    answer.row
}

fn differs(i: usize, text: &[u8], what: &str, is: &[u8], should: &[u8]) -> ! {
    let kept = std::env::temp_dir().join("board.txt");
    let _ = std::fs::write(&kept, text);
    eprintln!("text {i} ({}): {what}", kept.display());
    eprintln!("  is     {:?}", String::from_utf8_lossy(is));
    eprintln!("  should {:?}", String::from_utf8_lossy(should));
    exit(1);
}

fn main() {
    let words: Vec<String> = std::env::args().skip(1).collect();
    let count: usize = words[0].parse().expect("a number of texts");
    let mut r = Random(words[1].parse().expect("a seed"));
    let command = &words[2..];
    assert!(xml::is_strict(), "the reader of XML takes what is none");
    let mut rows: BTreeMap<&str, usize> = BTreeMap::new();
    for sample in ["samples/case-a.txt", "samples/board.txt"] {
        let text = std::fs::read(sample).expect("the sample is there");
        let Given::File { bytes, names, types } = given("-", &text) else {
            panic!("{sample} is not accepted");
        };
        for i in 0..20 {
            planned(&mut r, command, i, &text, &bytes, &names);
            beside(&mut r, command, i, &text, &bytes, &names);
            with_enough(&mut r, command, i, &text, &bytes, &types);
            as_json(&mut r, command, i, &text, &bytes, [&names, &types]);
            as_chart(&mut r, command, i, &text, &bytes, [&names, &types]);
            as_dot(&mut r, command, i, &text, &bytes, [&names, &types]);
            mended(&mut r, command, i, &text, &bytes);
        }
    }
    for i in 0..count {
        let text = text_of(&mut r);
        // a text has no byte 0: with one the bytes are a graph file
        if text.contains(&0) {
            continue;
        }
        let (out, status) = asked(command, "graph", &text);
        let (row, should, [names, types], digit): (&str, Vec<u8>, [Vec<Vec<u8>>; 2], &[u8]) = match given("-", &text) {
            Given::File { bytes, names, types } => ("accepted", bytes, [names, types], b"0"),
            Given::No { row, said } => (row, said.chars().map(|c| c as u8).collect(), [vec![], vec![]], b"1"),
        };
        *rows.entry(row).or_default() += 1;
        if out != should {
            differs(i, &text, "another answer", &out, &should);
        }
        if status != digit {
            differs(i, &text, "another status", &status, digit);
        }
        if digit == b"0" {
            *rows.entry(planned(&mut r, command, i, &text, &out, &names)).or_default() += 1;
            *rows.entry(beside(&mut r, command, i, &text, &out, &names)).or_default() += 1;
            // each of these for every third text
            let row = match r.below(3) {
                0 => with_enough(&mut r, command, i, &text, &out, &types),
                1 => as_json(&mut r, command, i, &text, &out, [&names, &types]),
                _ => mended(&mut r, command, i, &text, &out),
            };
            *rows.entry(row).or_default() += 1;
            let row = match r.below(5) {
                0..=1 => as_chart(&mut r, command, i, &text, &out, [&names, &types]),
                2 => as_dot(&mut r, command, i, &text, &out, [&names, &types]),
                _ => "no picture",
            };
            *rows.entry(row).or_default() += 1;
        } else if r.below(3) == 0 {
            *rows.entry(no_json(command, i, &text, &out)).or_default() += 1;
        }
        // the file's text, and the text's own: both give the file again
        if digit == b"0" && i % 8 == 0 {
            for from in [&out, &text] {
                let (again, _) = asked(command, "text", from);
                let (back, _) = asked(command, "graph", &again);
                if back != out {
                    differs(i, &text, "text and back", &back, &out);
                }
            }
        }
    }
    let seen: Vec<String> = rows.iter().map(|(row, n)| format!("{row} {n}")).collect();
    eprintln!("{count} board texts, no difference: {}", seen.join(", "));
    let wanted = [
        "11", "25", "26", "4", "5", "6", "7", "7 WCET", "7 stage", "9", "STAGE large", "STAGE no number", "TICKS large", "TICKS no number",
        "TYPE large", "TYPE no number", "WCET large", "WCET no number", "a larger WCET", "a new edge", "accepted", "altered", "another type", "byte", "chart", "chart 18", "chart 19", "chart 20", "chart 21", "chart 22", "chart of a frame", "chart of times", "dot", "dot without names", "enough", "extra", "fewer cores", "fewer edges", "gains", "json", "json fault", "json of other bytes", "json refused", "json without names", "large", "long line", "long name", "long text", "many",
        "many waits", "mend 1", "mend 2", "mend 3", "mended", "missing", "no number", "no second", "no stage", "no type", "nothing to mend", "other stages", "other types", "promise", "twice", "waits twice",
    ];
    // few texts need not reach everything
    for row in wanted {
        if count >= 2000 && !rows.contains_key(row) {
            eprintln!("no text reached: {row}");
            exit(1);
        }
    }
}
