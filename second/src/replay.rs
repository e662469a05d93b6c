//! Replay of a recording of width 64 that arrives in parts, cut anywhere. Each record gives a line:
//! its number, its kind, the code, the steps, and the slots that fences removed; then, for each
//! register write with dropped bits, the register and the bits.

mod apply;
mod whole;

pub use whole::{replayed, replayed_from, replayed_state};

use crate::fence::SLOT_WORDS;
use crate::hart::Hart;
use crate::state::{Memory, State};
use crate::xlen::Xlen;
use apply::{apply, Outcome};

/// The bytes of a record's header: four for the length of the body, two for the kind.
pub const HEADER: usize = 6;

/// The physical address of the first byte of memory.
pub const BASE: u64 = 0x8000_0000;

/// The slots of the table.
pub const SLOTS: usize = 64;

/// The bytes of the longest record: a write of 4,096 bytes.
const LONGEST: usize = HEADER + 8 + 4096;

/// What a replay begins with: a fresh hart with all features, memory of 12,288 zero bytes, and
/// empty slots.
pub fn start() -> State {
    State {
        hart: Hart::fresh(15),
        memory: Memory { base: BASE, bytes: vec![0; Xlen::X64.page_size()] },
        table: vec![0; SLOTS * SLOT_WORDS],
    }
}

/// The kinds of record, with their numbers.
#[derive(Clone, Copy, PartialEq, Eq, Debug)]
enum Kind {
    Call = 1,
    Write = 2,
    Lines = 3,
    Slot = 4,
    Trap = 5,
}

/// Judges a header: gives the kind and the length of the body, or none if the record is bad.
fn judge(header: &[u8; HEADER]) -> Option<(Kind, usize)> {
    let [l0, l1, l2, l3, k0, k1] = *header;
    let length = u32::from_le_bytes([l0, l1, l2, l3]);
    let kind = match (u16::from_le_bytes([k0, k1]), length) {
        (1, 40) => Kind::Call,
        (2, 9..=4104) => Kind::Write,
        (3, 8) => Kind::Lines,
        (4, 40) => Kind::Slot,
        (5, 40) => Kind::Trap,
        _ => return None,
    };
    Some((kind, length as usize))
}

/// How far a replay has come.
#[derive(Clone, Copy, PartialEq, Eq, Debug)]
enum Stage {
    Reading,
    Bad,
    Finished,
}

/// A replay that is fed with parts of a recording.
#[derive(Clone, Debug)]
pub struct Replay {
    state: State,
    finished: u64,
    rest: Vec<u8>,
    stage: Stage,
}

impl Default for Replay {
    fn default() -> Replay {
        Replay::new()
    }
}

impl Replay {
    /// A replay that has seen nothing.
    pub fn new() -> Replay {
        let rest = Vec::with_capacity(LONGEST);
        Replay { state: start(), finished: 0, rest, stage: Stage::Reading }
    }

    /// The record, memory and table after the records that are finished.
    pub fn state(&self) -> &State {
        &self.state
    }

    /// How many records are finished, each with its line.
    pub fn finished(&self) -> u64 {
        self.finished
    }

    /// The bytes of the record that is not whole yet; none after a bad record.
    pub fn rest(&self) -> &[u8] {
        &self.rest
    }

    /// Whether a bad record has ended the replay.
    pub fn is_bad(&self) -> bool {
        self.stage == Stage::Bad
    }

    /// Takes the next part, and appends the lines that become known. After a bad record and after
    /// the end nothing is taken.
    pub fn feed(&mut self, part: &[u8], out: &mut Vec<u8>) {
        if self.stage != Stage::Reading {
            return;
        }
        let mut left = part;
        if !self.rest.is_empty() {
            left = self.complete(left, out);
        }
        while let Some(header) = left.first_chunk() {
            let Some((kind, length)) = judge(header) else {
                return self.end_bad(out);
            };
            let Some((record, after)) = left.split_at_checked(HEADER + length) else {
                break;
            };
            let outcome = apply(&mut self.state, kind, &record[HEADER..]);
            self.tell(kind, outcome, out);
            left = after;
        }
        self.rest.extend_from_slice(left);
    }

    /// Is told the end of the recording: appends the line of a cut record, if there is one. The
    /// state and the rest stay.
    pub fn finish(&mut self, out: &mut Vec<u8>) {
        if self.stage != Stage::Reading {
            return;
        }
        self.stage = Stage::Finished;
        if !self.rest.is_empty() {
            push_number(out, self.finished + 1);
            out.extend_from_slice(b" cut\n");
        }
    }

    /// Goes on with the record in the rest, as far as the part has its bytes; gives the bytes of
    /// the part after it.
    fn complete<'a>(&mut self, part: &'a [u8], out: &mut Vec<u8>) -> &'a [u8] {
        let part = self.fill(HEADER, part);
        let Some(header) = self.rest.first_chunk() else {
            return part;
        };
        let Some((kind, length)) = judge(header) else {
            self.end_bad(out);
            return &[];
        };
        let part = self.fill(HEADER + length, part);
        if self.rest.len() == HEADER + length {
            let outcome = apply(&mut self.state, kind, &self.rest[HEADER..]);
            self.tell(kind, outcome, out);
            self.rest.clear();
        }
        part
    }

    /// Moves bytes from the part to the rest until it has so many; gives those that are left.
    fn fill<'a>(&mut self, length: usize, part: &'a [u8]) -> &'a [u8] {
        let missing = length.saturating_sub(self.rest.len());
        let (moved, left) = part.split_at(missing.min(part.len()));
        self.rest.extend_from_slice(moved);
        left
    }

    /// Appends the line of a record that was applied.
    fn tell(&mut self, kind: Kind, outcome: Outcome, out: &mut Vec<u8>) {
        self.finished += 1;
        push_number(out, self.finished);
        out.push(b' ');
        push_number(out, kind as u64);
        out.extend_from_slice(if outcome.code < 0 { b" -" } else { b" " });
        push_number(out, outcome.code.unsigned_abs());
        out.push(b' ');
        push_number(out, outcome.steps);
        out.push(b' ');
        push_number(out, outcome.removed);
        for report in outcome.reports {
            out.push(b' ');
            push_hex(out, report.csr, 3);
            out.push(b' ');
            push_hex(out, report.bits, 16);
        }
        out.push(b'\n');
    }

    /// Appends the line of a bad record, which ends the replay.
    fn end_bad(&mut self, out: &mut Vec<u8>) {
        self.stage = Stage::Bad;
        self.rest.clear();
        push_number(out, self.finished + 1);
        out.extend_from_slice(b" bad\n");
    }
}

/// Appends a number in decimal.
fn push_number(out: &mut Vec<u8>, number: u64) {
    let mut digits = [0; 20];
    let mut first = digits.len();
    let mut left = number;
    loop {
        first -= 1;
        digits[first] = b'0' + (left % 10) as u8;
        left /= 10;
        if left == 0 {
            break;
        }
    }
    out.extend_from_slice(&digits[first..]);
}

/// Appends so many low digits of a number in hex.
fn push_hex(out: &mut Vec<u8>, number: u64, digits: u32) {
    for place in (0..digits).rev() {
        out.push(b"0123456789abcdef"[(number >> (4 * place) & 0xF) as usize]);
    }
}
