//! What `plan mend` prints and writes for a graph file with some of its records edited: the mended file and the list from the planner's
//! reference, the lines from docs/orders/12.md.
use crate::gains::{no, Answer};
use crate::generate::Random;
use crate::reference::graph::RECORD;
use crate::reference::mend::mend;

type Record = [u8; RECORD];

/// The same, or edited as scripts and hands do it, and now and then so that it is refused.
pub fn edited(r: &mut Random, file: &[u8]) -> Vec<u8> {
    let mut records: Vec<Record> = file.chunks(RECORD).map(|record| record.try_into().unwrap()).collect();
    let first = records.iter().position(|record| record[0] == b'E').unwrap_or(records.len());
    for _ in 0..r.below(5) {
        let any = r.below(records.len());
        let at = first + r.below(records.len() + 1 - first);
        match r.below(12) {
            0..=2 => records[any][3] = 1 + r.below(255) as u8,
            3..=4 => records.insert(at, loop_of(r.below(256) as u8)),
            5..=6 if first < records.len() => records.insert(at, *r.one(&records[first..])),
            7..=9 if first < records.len() => {
                let other = first + r.below(records.len() - first);
                records.swap(at.min(other), other);
            }
            10 if r.below(4) == 0 => records[any][0] = b'A',
            11 if r.below(4) == 0 => records.push([b'T', 0, 1, 0, 0, 0, 0, 0]),
            _ => {}
        }
    }
    let mut file = records.concat();
    if r.below(20) == 0 {
        file.pop();
    }
    file
}

fn loop_of(v: u8) -> Record {
    [b'E', v, v, 0, 0, 0, 0, 0]
}

/// What is said, and the mended file, where there is one. Of a refusal only the first line is said here.
pub fn mended(file: &[u8]) -> (Answer, Option<Vec<u8>>) {
    let mended = match mend(file, file.len(), 2 * file.len()) {
        Ok(mended) => mended,
        Err(refusal) => {
            let row = match refusal.number {
                1 => "mend 1",
                2 => "mend 2",
                _ => "mend 3",
            };
            return (no(row, format!("refused {} at {}", refusal.number, refusal.place).into_bytes()), None);
        }
    };
    let lines = mended.list.chunks(RECORD).map(|entry| line(file, &mended.file, entry));
    let (row, said) = match mended.list.len() {
        0 => ("nothing to mend", "nothing to mend\n".to_string()),
        _ => ("mended", lines.collect()),
    };
    (Answer { row, said: said.into_bytes(), digit: b"0" }, Some(mended.file))
}

fn line(file: &[u8], mended: &[u8], entry: &[u8]) -> String {
    let k = u16::from_le_bytes([entry[1], entry[2]]) as usize;
    let edge = &file[k * RECORD..][..RECORD];
    let (from, to) = (edge[1], edge[2]);
    let what = match entry[0] {
        b'C' => "what must be 0 was cleared".to_string(),
        b'D' => format!("the edge from {from} to itself was dropped"),
        b'X' => format!("the edge from {from} to {to} was dropped: it stands there before"),
        _ => {
            let place = mended.chunks(RECORD).position(|record| record[..3] == edge[..3]).expect("a kept edge");
            format!("the edge from {from} to {to} was moved to record {place}")
        }
    };
    format!("record {k}: {what}\n")
}
