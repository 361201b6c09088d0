//! From the file's bytes to a graph: numbers 1 to 3 here, 4 to 11 by the judge.

use super::graph::{Graph, LONGEST_FILE, RECORD};
use super::judge::{judge, Declared, DeclaredKind, DeclaredVertex};
use super::refusal::{refuse_first, refuse_if, Refusal};
use std::ops::Range;

pub const KIND: u8 = 0x54;
pub const VERTEX: u8 = 0x56;
pub const EDGE: u8 = 0x45;

pub fn read(file: &[u8]) -> Result<Graph, Refusal> {
    let records = records_of(file)?;
    refuse_first(2, 0, records.iter().map(|r| spare(r).is_none_or(|bytes| r[bytes].iter().any(|&b| b != 0))))?;
    judge_order(&records)?;
    judge(&declared(&records))
}

/// Number 1.
pub fn records_of(file: &[u8]) -> Result<Vec<&[u8]>, Refusal> {
    refuse_if(1, file.len() % RECORD != 0 || file.len() > LONGEST_FILE)?;
    Ok(file.chunks(RECORD).collect())
}

/// The bytes of a record that must be 0; none where byte 0 is of no known kind.
pub fn spare(record: &[u8]) -> Option<Range<usize>> {
    match record[0] {
        KIND | EDGE => Some(3..8),
        VERTEX => Some(3..4),
        _ => None,
    }
}

/// Number 3.
pub fn judge_order(records: &[&[u8]]) -> Result<(), Refusal> {
    refuse_first(3, 0, (0..records.len()).map(|k| is_late(records, k)))
}

/// A type after any vertex or edge, or a vertex after any edge.
fn is_late(records: &[&[u8]], k: usize) -> bool {
    let stands_before = |kind: u8| records[..k].iter().any(|r| r[0] == kind);
    match records[k][0] {
        KIND => stands_before(VERTEX) || stands_before(EDGE),
        VERTEX => stands_before(EDGE),
        _ => false,
    }
}

fn declared(records: &[&[u8]]) -> Declared {
    let mut all = Declared::default();
    for r in records {
        match r[0] {
            KIND => all.kinds.push(DeclaredKind { number: r[1] as usize, cores: r[2] }),
            VERTEX => all.vertices.push(DeclaredVertex {
                number: r[1] as usize,
                kind: r[2],
                wcet: u32::from_le_bytes([r[4], r[5], r[6], r[7]]),
            }),
            _ => all.edges.push((r[1], r[2])),
        }
    }
    all
}
