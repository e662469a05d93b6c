//! Replay of a recording that is there as a whole, record by record, by code of its own.

use std::fmt::Write;

use crate::calls::{self, Answer, ALL, EID, SYNC_CSR, SYNC_FENCE, SYNC_SRET};
use crate::calls::{INVALID_ADDRESS, SUCCESS};
use crate::dropped::Report;
use crate::lines;
use crate::state::State;
use crate::steps::{self, Step};
use crate::trap::{self, Trap};

/// The lines of a whole recording.
pub fn replayed(bytes: &[u8]) -> Vec<u8> {
    replayed_state(bytes).0
}

/// The lines of a whole recording, and the state at its end.
pub fn replayed_state(bytes: &[u8]) -> (Vec<u8>, State) {
    replayed_from(super::start(), 1, bytes)
}

/// The lines of a recording that begins with any state, and with this number for its first record;
/// and the state at its end. After the last number comes 0.
pub fn replayed_from(mut state: State, first: u64, bytes: &[u8]) -> (Vec<u8>, State) {
    let mut text = String::new();
    let mut left = bytes;
    let mut number = first;
    while !left.is_empty() {
        let (record, length) = match Record::read(left) {
            Ok(found) => found,
            Err(word) => {
                let _ = writeln!(text, "{number} {word}");
                break;
            }
        };
        let (answer, steps, removed) = record.apply(&mut state);
        let _ = write!(text, "{number} {} {} {steps} {removed}", record.kind(), answer.code);
        for Report { csr, bits } in answer.reports {
            let _ = write!(text, " {csr:03x} {bits:016x}");
        }
        text.push('\n');
        left = &left[length..];
        number = number.wrapping_add(1);
    }
    (text.into_bytes(), state)
}

/// A record with its numbers.
enum Record<'a> {
    Call { eid: u64, fid: u64, args: [u64; 3] },
    Write { offset: u64, bytes: &'a [u8] },
    Lines(u64),
    Slot { index: u64, words: [u64; 4] },
    Trap(Trap),
}

impl Record<'_> {
    /// The first record of these bytes and its length; or the word that tells why there is none.
    fn read(bytes: &[u8]) -> Result<(Record<'_>, usize), &'static str> {
        if bytes.len() < 6 {
            return Err("cut");
        }
        let (length, kind) = (number(&bytes[..4]), number(&bytes[4..6]));
        let is_good = match kind {
            1 | 4 | 5 => length == 5 * 8,
            2 => 8 < length && length <= 8 + 4096,
            3 => length == 8,
            _ => false,
        };
        if !is_good {
            return Err("bad");
        }
        let end = 6 + length as usize;
        if bytes.len() < end {
            return Err("cut");
        }
        Ok((Record::decode(kind, &bytes[6..end]), end))
    }

    /// The record of this kind with this body, both good.
    fn decode(kind: u64, body: &[u8]) -> Record<'_> {
        let at = |place: usize| number(&body[8 * place..][..8]);
        match kind {
            1 => Record::Call { eid: at(0), fid: at(1), args: [at(2), at(3), at(4)] },
            2 => Record::Write { offset: at(0), bytes: &body[8..] },
            3 => Record::Lines(at(0)),
            4 => Record::Slot { index: at(0), words: [at(1), at(2), at(3), at(4)] },
            _ => Record::Trap(Trap {
                cause: at(0),
                tval: at(1),
                htval: at(2),
                htinst: at(3),
                gva: at(4) & 1,
            }),
        }
    }

    /// The number of the record's kind.
    fn kind(&self) -> u64 {
        match self {
            Record::Call { .. } => 1,
            Record::Write { .. } => 2,
            Record::Lines(_) => 3,
            Record::Slot { .. } => 4,
            Record::Trap(_) => 5,
        }
    }

    /// Applies the record; gives the answer, the steps and the slots removed.
    fn apply(&self, state: &mut State) -> (Answer, usize, usize) {
        match *self {
            Record::Call { eid, fid, args } => {
                let (steps, removed) = planned(state, eid, fid, args[0]);
                (calls::call(state, eid, fid, args), steps, removed)
            }
            Record::Write { offset, bytes } => (plain(write(state, offset, bytes)), 0, 0),
            Record::Lines(lines) => (lines::change(state, lines), 0, 0),
            Record::Slot { index, words } => (plain(place(state, index, words)), 0, 0),
            Record::Trap(trap) => (trap::back(state, trap), 0, 0),
        }
    }
}

/// The answer with this code and nothing else.
fn plain(code: i64) -> Answer {
    Answer::plain(code, 0)
}

/// The number that these bytes hold, the lowest first.
fn number(bytes: &[u8]) -> u64 {
    bytes.iter().rev().fold(0, |sum, &byte| sum * 256 + u64::from(byte))
}

/// The steps that a call's line tells, and the slots that it removes, both told beforehand. The
/// registers that SRET synchronizes first leave the entries and the slots alone.
fn planned(state: &State, eid: u64, fid: u64, a0: u64) -> (usize, usize) {
    let plan = match fid {
        SYNC_CSR | SYNC_FENCE => steps::plan(state, eid, fid, a0),
        SYNC_SRET if eid == EID => steps::plan(state, EID, SYNC_FENCE, ALL),
        _ => return (0, 0),
    };
    let plan = plan.unwrap_or_default();
    let removed = plan.iter().filter(|step| matches!(step, Step::RemoveSlot(_))).count();
    (if fid == SYNC_SRET { 0 } else { plan.len() }, removed)
}

/// Writes bytes to memory, all of them or none.
fn write(state: &mut State, offset: u64, bytes: &[u8]) -> i64 {
    let end = u128::from(offset) + bytes.len() as u128;
    if end > 12_288 {
        return INVALID_ADDRESS;
    }
    for (place, &byte) in (offset as usize..).zip(bytes) {
        state.memory.bytes[place] = byte;
    }
    SUCCESS
}

/// Places a slot.
fn place(state: &mut State, index: u64, words: [u64; 4]) -> i64 {
    match state.table.chunks_exact_mut(4).zip(0..).find(|(_, number)| *number == index) {
        Some((slot, _)) => {
            slot.copy_from_slice(&words);
            SUCCESS
        }
        None => INVALID_ADDRESS,
    }
}
