//! A hand-edited file, mended: what must be 0 is cleared, edges from a vertex to itself and later doubles are dropped, and the
//! kept edges are put in order. Nothing else is judged: wrong numbers, undeclared ends and cycles are left as they are.

use super::graph::RECORD;
use super::reader::{judge_order, records_of, spare, EDGE};
use super::refusal::{refuse_first, refuse_if, Refusal};
use std::collections::BTreeMap;

/// What is done to a record, in the order in which the list has it.
#[derive(Clone, Copy, Debug, PartialEq, Eq, PartialOrd, Ord)]
pub enum Mend {
    Clear,
    DropLoop,
    DropDouble,
    Move,
}

pub const MENDS: [Mend; 4] = [Mend::Clear, Mend::DropLoop, Mend::DropDouble, Mend::Move];

impl Mend {
    pub fn letter(self) -> u8 {
        match self {
            Mend::Clear => 0x43,
            Mend::DropLoop => 0x44,
            Mend::DropDouble => 0x58,
            Mend::Move => 0x4D,
        }
    }

    /// The list's record for this mend of record k of the file.
    pub fn entry(self, k: usize) -> [u8; RECORD] {
        let [low, high] = (k as u16).to_le_bytes();
        [self.letter(), low, high, 0, 0, 0, 0, 0]
    }
}

#[derive(Clone, Debug, Default, PartialEq, Eq)]
pub struct Mended {
    pub file: Vec<u8>,
    pub list: Vec<u8>,
}

/// The mended file and the list, for lent buffers of so many bytes.
pub fn mend(file: &[u8], room: usize, list_room: usize) -> Result<Mended, Refusal> {
    let records = records_of(file)?;
    refuse_first(2, 0, records.iter().map(|r| spare(r).is_none()))?;
    judge_order(&records)?;
    refuse_if(15, room < file.len() || list_room < 2 * RECORD * records.len())?;
    let (mut done, kept) = edges_of(&records);
    done.extend((0..records.len()).filter(|&k| cleared(records[k]) != records[k]).map(|k| (k, Mend::Clear)));
    done.sort_unstable();
    let others = (0..records.len()).filter(|&k| records[k][0] != EDGE);
    Ok(Mended {
        file: others.chain(kept).flat_map(|k| cleared(records[k])).collect(),
        list: done.into_iter().flat_map(|(k, mend)| mend.entry(k)).collect(),
    })
}

/// What is done to the edges but that they are cleared, each with its record; and the records of the kept ones, put in order.
fn edges_of(records: &[&[u8]]) -> (Vec<(usize, Mend)>, Vec<usize>) {
    let mut done = Vec::new();
    let mut first_with: BTreeMap<&[u8], usize> = BTreeMap::new();
    for (k, record) in records.iter().enumerate().filter(|(_, record)| record[0] == EDGE) {
        let ends = &record[1..3];
        if ends[0] == ends[1] {
            done.push((k, Mend::DropLoop));
        } else if first_with.contains_key(ends) {
            done.push((k, Mend::DropDouble));
        } else {
            first_with.insert(ends, k);
        }
    }
    let after: Vec<usize> = first_with.into_values().collect();
    let mut before = after.clone();
    before.sort_unstable();
    // a place that has another edge than before: the one that stood there has moved
    done.extend(before.iter().zip(&after).filter(|(old, new)| old != new).map(|(&old, _)| (old, Mend::Move)));
    (done, after)
}

/// The record with 0 where it must be.
fn cleared(record: &[u8]) -> Vec<u8> {
    let mut record = record.to_vec();
    let bytes = spare(&record).expect("a record of a known kind");
    record[bytes].fill(0);
    record
}
