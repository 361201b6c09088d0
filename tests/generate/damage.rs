//! Blind damage to a file, as a bad editor or a bad disk does it.

use super::lists::Record;
use super::random::Random;
use crate::reference::graph::RECORD;

pub fn damage(random: &mut Random, file: &mut Vec<u8>) {
    for _ in 0..random.pick(&[1, 1, 1, 2, 3]) {
        match random.below(10) {
            0 => file.truncate(random.between(0, file.len())),
            1 => {
                let extra = random.between(1, 3 * RECORD);
                file.extend((0..extra).map(|_| random.pick(&[0, 0, 1, 0x45, 0x54, 0x56, 0xFF])));
            }
            2..=4 => change_byte(random, file),
            _ => change_records(random, file),
        }
    }
}

fn change_byte(random: &mut Random, file: &mut [u8]) {
    if !file.is_empty() {
        let at = random.below(file.len());
        file[at] = match random.below(4) {
            0 => random.byte(),
            1 => file[at].wrapping_add(1),
            2 => file[at].wrapping_sub(1),
            _ => file[at] ^ (1 << random.below(8)),
        };
    }
}

/// A record swapped with another, doubled, dropped, moved, or its two numbers exchanged; bytes left over at the end stay.
fn change_records(random: &mut Random, file: &mut Vec<u8>) {
    let whole = file.len() / RECORD * RECORD;
    let rest = file.split_off(whole);
    let mut records: Vec<Record> = file.chunks(RECORD).map(|r| r.try_into().unwrap()).collect();
    if !records.is_empty() {
        let last = records.len() - 1;
        let (a, b) = (random.between(0, last), random.between(0, last));
        match random.below(6) {
            0 => records.swap(a, b),
            1 => records.swap(a, (a + 1).min(last)),
            2 => records.insert(b, records[a]),
            3 => drop(records.remove(a)),
            4 => {
                let moved = records.remove(a);
                records.insert(b, moved);
            }
            _ => records[a].swap(1, 2),
        }
    }
    *file = [records.concat(), rest].concat();
}
