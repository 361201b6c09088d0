//! Requests that are none: each gets `bad request`, and the next one is answered.

use super::random::Random;
use super::request::{Request, LARGEST_ROOM, LONGEST_PAYLOAD};

/// A good request made bad, or, now and then, left good by chance.
pub fn spoilt(random: &mut Random, mut request: Request) -> Request {
    match random.below(9) {
        0 => request.letter = random.pick(b"EQZrwbpstixgandlouvmc\0\n\xFF"),
        1 => request.payload.truncate(random.between(0, request.payload.len())),
        2 => drop(request.payload.pop()),
        3 => request.payload.push(random.byte()),
        4 => change_list_length(random, &mut request.payload),
        5 => request.letter = random.pick(b"RWBPSTIXGANDLOUVMC"),
        6 => set_room(random, &mut request),
        7 => request = odd_list(random),
        _ => lengthen(random, &mut request.payload),
    }
    request
}

/// A list longer than the payload, by little or by so much that a sum of places would wrap.
fn change_list_length(random: &mut Random, payload: &mut [u8]) {
    if payload.len() >= 4 {
        let length = u32::from_le_bytes([payload[0], payload[1], payload[2], payload[3]]);
        let rest = payload.len() as u32 - 4;
        let wrong = random.pick(&[length.wrapping_add(1), length.wrapping_sub(1), rest + 1, 1 << 31, u32::MAX]);
        payload[..4].copy_from_slice(&wrong.to_le_bytes());
    }
}

/// The last 8 bytes are the room in W, P, X, G, A, L, O, U and V, the tick in D and the limit in C. In M they are the second of
/// two rooms; those before them are the first, and the type in C.
fn set_room(random: &mut Random, request: &mut Request) {
    let before = if b"MC".contains(&request.letter) { random.pick(&[8, 16]) } else { 8 };
    if let Some(at) = request.payload.len().checked_sub(before) {
        let most = LARGEST_ROOM as u64;
        let room = random.pick(&[most, most + 1, 1 << 32, (1 << 32) + most, 1 << 63, u64::MAX]);
        request.payload[at..at + 8].copy_from_slice(&room.to_le_bytes());
    }
}

/// Lists whose bytes don't make whole elements, and records of another length.
fn odd_list(random: &mut Random) -> Request {
    let odd = random.pick(&[1, 2, 3, 5, 6, 7]);
    let bytes = vec![0; odd];
    match random.below(7) {
        0 => Request::of(b'W').list(&[1]).list(&[0]).list(&bytes).list(&[]).number(64),
        1 => Request::of(b'W').list(&[1]).list(&[0]).list(&[0; 4]).list(&bytes).number(64),
        2 => Request::of(b'S').list(&[]).list(&bytes),
        3 => Request::of(b'X').list(&[]).list(&bytes).number(4),
        4 => Request::of(b'D').list(&[]).list(&bytes).number(4),
        5 => Request::of(b'O').list(&[]).list(&bytes).number(4),
        _ => {
            let length = random.pick(&[0, 16, 544, 671, 673, 672 + 4, 2 * 672]);
            Request::of(random.pick(b"TI")).list(&[]).list(&vec![0; length])
        }
    }
}

/// Bytes left over, sometimes more than a payload may have.
fn lengthen(random: &mut Random, payload: &mut Vec<u8>) {
    if random.one_in(10) {
        payload.resize(LONGEST_PAYLOAD + random.pick(&[0, 1, 2, 5_000]), 0);
    } else {
        let extra = random.between(1, 20);
        payload.extend((0..extra).map(|_| random.byte()));
    }
}
