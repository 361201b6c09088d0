//! What `plan enough` answers for an accepted graph: the number of cores from the planner's reference, the rest as docs/BOARD.md has it for a
//! stage and a tick.
use crate::gains::{no, number, quoted, Answer, Number, LARGE, NO_NUMBER};
use crate::generate::Random;
use crate::reference;
use crate::reference::enough::ticks_with;
use crate::reference::graph::{Graph, MOST_CORES};

/// The smallest number of cores, by what both arguments say. Of a type that there is not only the first line is said here.
pub fn enough(graph: &Graph, names: &[Vec<u8>], kind: &[u8], ticks: &[u8]) -> Answer {
    let s = match (names.iter().position(|name| name == kind), number(kind)) {
        (Some(s), _) => s as u32,
        (None, Number::Of(s)) => s,
        (None, Number::Large) => return no("TYPE large", quoted("TYPE: ", kind, LARGE)),
        (None, Number::None) if names.is_empty() => return no("TYPE no number", quoted("TYPE: ", kind, NO_NUMBER)),
        // a name, and no type's
        (None, Number::None) => u32::MAX,
    };
    let limit = match number(ticks) {
        Number::Of(limit) => limit,
        Number::Large => return no("TICKS large", quoted("TICKS: ", ticks, LARGE)),
        Number::None => return no("TICKS no number", quoted("TICKS: ", ticks, NO_NUMBER)),
    };
    match reference::enough::enough(graph, s, limit) {
        Ok(cores) => Answer { row: "enough", said: format!("cores {cores}\n").into_bytes(), digit: b"0" },
        Err(refusal) if refusal.number == 25 => no("25", b"refused 25 at 0".to_vec()),
        Err(_) => no("26", [b"refused 26 at 0\nTICKS: 16 cores of type \"", kind, b"\" are too few\n"].concat()),
    }
}

/// A type: more often than not one that the graph has, by name or by number.
pub fn some_type(r: &mut Random, graph: &Graph, names: &[Vec<u8>]) -> Vec<u8> {
    let k = graph.cores.len();
    let name = if names.is_empty() { r.below(k).to_string().into_bytes() } else { r.one(names).clone() };
    match r.below(12) {
        0..=5 => name,
        6..=7 => format!("{}{}", r.one(&["", "", "0", "000000000000"]), r.below(k)).into_bytes(),
        8 => (k + r.below(3)).to_string().into_bytes(),
        9 => r.one(&["10", "255", "256", "4294967295", "4294967296", "99999999999"]).as_bytes().to_vec(),
        10 => r.one(&["", "x", "-1", "1e3", "+1", " ", "#", "\u{e9}", "0x1"]).as_bytes().to_vec(),
        _ => [&name[..], r.one::<&str>(&[" ", " x", "#", "\t", "\n", "x"]).as_bytes()].concat(),
    }
}

/// A limit: more often than not around the bound of some number of cores.
pub fn some_ticks(r: &mut Random, graph: &Graph) -> Vec<u8> {
    let cores = 1 + r.below(MOST_CORES as usize) as u8;
    let ticks = ticks_with(graph, r.below(graph.cores.len()), cores);
    let word = match r.below(12) {
        0..=3 => ticks.to_string(),
        4..=5 => ticks.saturating_sub(1).to_string(),
        6 => format!("000{}", ticks + 1),
        7 => r.below(ticks as usize + 2).to_string(),
        8 => r.one(&["0", "1", "4294967295"]).to_string(),
        9 => r.one(&["4294967296", "4294967297", "99999999999999999999999", "18446744073709551616"]).to_string(),
        _ => r.one(&["", "x", "-1", "1e3", "+1", "3.5", " 5", "5 ", "5#", "5\n", "0x10", "five"]).to_string(),
    };
    word.into_bytes()
}
