//! What `plan gains` answers for an accepted graph: its gains from the planner's reference, the rest from docs/BOARD.md.
use crate::generate::Random;
use crate::reference::gains::{gains_altered, gains_of, ranking};
use crate::reference::graph::{Graph, PARTS_IN_A_TICK};

/// What is printed, the status digit, and which row of docs/BOARD.md it is.
pub struct Answer {
    pub row: &'static str,
    pub said: Vec<u8>,
    pub digit: &'static [u8],
}

pub fn no(row: &'static str, said: Vec<u8>) -> Answer {
    Answer { row, said, digit: b"1" }
}

/// A line for each stage. A graph file has no names: its stages are called by their numbers.
fn lines(row: &'static str, names: &[Vec<u8>], gains: &[u64]) -> Answer {
    let mut said = vec![];
    for v in ranking(gains) {
        let number = v.to_string().into_bytes();
        said.extend(names.get(v).unwrap_or(&number));
        said.extend(format!(" {} {}\n", gains[v], gains[v] / PARTS_IN_A_TICK).bytes());
    }
    Answer { row, said, digit: b"0" }
}

pub fn gains(graph: &Graph, names: &[Vec<u8>]) -> Answer {
    lines("gains", names, &gains_of(graph))
}

pub enum Number {
    Of(u32),
    Large,
    None,
}

pub fn number(word: &[u8]) -> Number {
    if word.is_empty() || !word.iter().all(u8::is_ascii_digit) {
        return Number::None;
    }
    std::str::from_utf8(word).unwrap().parse().map_or(Number::Large, Number::Of)
}

pub fn quoted(before: &str, word: &[u8], after: &str) -> Vec<u8> {
    [before.as_bytes(), b"\"", word, b"\"", after.as_bytes(), b"\n"].concat()
}

pub const NO_NUMBER: &str = " is no number";
pub const LARGE: &str = " is too large a number";

/// The gains with the WCET of one stage altered, by what both arguments say.
pub fn altered(graph: &Graph, names: &[Vec<u8>], stage: &[u8], wcet: &[u8]) -> Answer {
    let vertex = match (names.iter().position(|name| name == stage), number(stage)) {
        (Some(v), _) => v as u32,
        (None, Number::Of(v)) => v,
        (None, Number::Large) => return no("STAGE large", quoted("STAGE: ", stage, LARGE)),
        (None, Number::None) if names.is_empty() => return no("STAGE no number", quoted("STAGE: ", stage, NO_NUMBER)),
        // a name, and no stage's
        (None, Number::None) => u32::MAX,
    };
    let time = match number(wcet) {
        Number::Of(time) => time,
        Number::Large => return no("WCET large", quoted("WCET: ", wcet, LARGE)),
        Number::None => return no("WCET no number", quoted("WCET: ", wcet, NO_NUMBER)),
    };
    let refusal = match gains_altered(graph, vertex, time, graph.vertices()) {
        Ok(gains) => return lines("altered", names, &gains),
        Err(refusal) => refusal,
    };
    let (row, why) = match refusal.place {
        0 => ("7 stage", quoted("STAGE: the graph has no stage ", stage, "")),
        _ => ("7 WCET", quoted("WCET: stage ", stage, " has a WCET above 1000000")),
    };
    let first = format!("refused {} at {}\n", refusal.number, refusal.place);
    no(row, [first.as_bytes(), &why].concat())
}

/// A stage to alter: more often than not one that the graph has, by name or by number.
pub fn some_stage(r: &mut Random, n: usize, names: &[Vec<u8>]) -> Vec<u8> {
    let name = if names.is_empty() { r.below(n).to_string().into_bytes() } else { r.one(names).clone() };
    match r.below(12) {
        0..=4 => name,
        5..=6 => format!("{}{}", r.one(&["", "", "0", "000000000000"]), r.below(n)).into_bytes(),
        7 => (n + r.below(3)).to_string().into_bytes(),
        8 => r.one(&["4294967295", "4294967296", "99999999999", "18446744073709551616"]).as_bytes().to_vec(),
        9 => r.one(&["", "x", "-1", "1e3", "+1", " ", "#", "\u{e9}", "0x1"]).as_bytes().to_vec(),
        10 => [&name[..], r.one::<&str>(&[" ", " x", "#", "\t", "\n", "x"]).as_bytes()].concat(),
        _ => [r.one::<&str>(&[" ", "\n", "#"]).as_bytes(), &name].concat(),
    }
}

/// A WCET: more often than not one that a stage may have.
pub fn some_wcet(r: &mut Random) -> Vec<u8> {
    let word = match r.below(12) {
        0..=3 => r.below(1_000_001).to_string(),
        4..=6 => r.one(&["0", "1", "999999", "1000000", "007", "00000000000005"]).to_string(),
        7 => (1_000_001 + r.below(5)).to_string(),
        8 => r.one(&["1000001", "4294967295", "2147483648"]).to_string(),
        9 => r.one(&["4294967296", "4294967297", "99999999999999999999999", "18446744073709551616"]).to_string(),
        _ => r.one(&["", "x", "-1", "1e3", "+1", "3.5", " 5", "5 ", "5#", "5\n", "0x10", "five"]).to_string(),
    };
    word.into_bytes()
}
