//! Random recordings that are damaged.

use super::recordings::recording;
use crate::recording::{header, starts};
use crate::replay::HEADER;
use crate::rng::Rng;

/// A recording that is bad or cut somewhere, or has other bytes than were recorded.
pub fn damaged(rng: &mut Rng) -> Vec<u8> {
    let mut bytes = recording(rng);
    match rng.below(8) {
        0 | 1 => {
            let kind = 1 + rng.below(5) as u16;
            let header = header(bad_length(rng, kind), kind);
            break_in(rng, &mut bytes, header);
        }
        2 => {
            let header = bad_kind(rng);
            break_in(rng, &mut bytes, header);
        }
        3 => cut_in_header(rng, &mut bytes),
        4 => bytes.truncate(rng.below(bytes.len() as u64 + 1) as usize),
        5 => flip(rng, &mut bytes),
        6 => move_bytes(rng, &mut bytes),
        _ => add_noise(rng, &mut bytes),
    }
    bytes
}

/// A length that is wrong for the kind: one off, huge, with a bit too many, or any.
fn bad_length(rng: &mut Rng, kind: u16) -> u32 {
    let (least, most) = match kind {
        2 => (9, 4104),
        3 => (8, 8),
        _ => (40, 40),
    };
    match rng.below(8) {
        0 | 1 => least - 1,
        2 | 3 => most + 1,
        4 => rng.pick(&[u32::MAX, 1 << 31, u32::MAX - 5]),
        5 => least | 1 << rng.pick(&[13, 16, 24, 31]),
        6 => 0,
        _ => rng.bits() as u32 | 0x1_0000,
    }
}

/// A header with an unknown kind and a length that some kind has.
fn bad_kind(rng: &mut Rng) -> [u8; HEADER] {
    let good = 1 + rng.below(5) as u16;
    let kind = rng.pick(&[0, 6, 7, 0x0101, 0x0100 + good, good << 8, u16::MAX]);
    header(rng.pick(&[40, 40, 8, 9, 4104, 0]), kind)
}

/// Where some record begins, or the end.
fn some_start(rng: &mut Rng, bytes: &[u8]) -> usize {
    let mut starts = starts(bytes);
    starts.push(bytes.len());
    rng.pick(&starts)
}

/// Puts a header between two records, or at the end; sometimes something follows it.
fn break_in(rng: &mut Rng, bytes: &mut Vec<u8>, header: [u8; HEADER]) {
    let at = some_start(rng, bytes);
    if rng.one_in(2) {
        bytes.truncate(at);
    }
    bytes.splice(at..at, header);
}

/// Ends the recording in a header, right before it or right after it.
fn cut_in_header(rng: &mut Rng, bytes: &mut Vec<u8>) {
    let end = some_start(rng, bytes) + rng.below(HEADER as u64 + 2) as usize;
    bytes.truncate(end);
}

/// Flips some bits, more often in a header than elsewhere.
fn flip(rng: &mut Rng, bytes: &mut [u8]) {
    let starts = starts(bytes);
    if starts.is_empty() {
        return;
    }
    for _ in 0..1 + rng.below(4) {
        let at = match rng.below(2) {
            0 => rng.pick(&starts) + rng.below(HEADER as u64) as usize,
            _ => rng.below(bytes.len() as u64) as usize,
        };
        bytes[at] ^= 1 << rng.below(8);
    }
}

/// Takes a byte away or puts one in, so that all after it moves.
fn move_bytes(rng: &mut Rng, bytes: &mut Vec<u8>) {
    let at = rng.below(bytes.len() as u64 + 1) as usize;
    if rng.one_in(2) || at == bytes.len() {
        bytes.insert(at, rng.bits() as u8);
    } else {
        bytes.remove(at);
    }
}

/// Appends bytes that mean nothing.
fn add_noise(rng: &mut Rng, bytes: &mut Vec<u8>) {
    for _ in 0..rng.below(20) {
        let noise = rng.bits() as u8;
        bytes.push(if rng.one_in(2) { noise & 7 } else { noise });
    }
}
