//! What each kind of record does to the state.

use super::{Kind, SLOTS};
use crate::calls::{self, Answer, INVALID_ADDRESS, SUCCESS, SYNC_CSR, SYNC_FENCE, SYNC_SRET};
use crate::dropped::Report;
use crate::fence::SLOT_WORDS;
use crate::lines;
use crate::page;
use crate::state::State;
use crate::steps;
use crate::trap::{self, Trap};
use crate::xlen::Xlen;

/// What a record's line tells of it.
#[derive(Clone, PartialEq, Eq, Debug)]
pub struct Outcome {
    pub code: i64,
    pub steps: u64,
    pub removed: u64,
    pub reports: Vec<Report>,
}

impl Outcome {
    /// A code with no steps, no slots removed and no reports.
    fn plain(code: i64) -> Outcome {
        Outcome { code, steps: 0, removed: 0, reports: Vec::new() }
    }

    /// What an answer tells, with no steps and no slots removed.
    fn of(answer: Answer) -> Outcome {
        Outcome { reports: answer.reports, ..Outcome::plain(answer.code) }
    }
}

/// The words of a body.
fn words<const N: usize>(body: &[u8]) -> [u64; N] {
    std::array::from_fn(|i| page::word(Xlen::X64, body, 8 * i))
}

/// Applies a record that is whole.
pub fn apply(state: &mut State, kind: Kind, body: &[u8]) -> Outcome {
    match kind {
        Kind::Call => make_call(state, words(body)),
        Kind::Write => Outcome::plain(write(state, body)),
        Kind::Lines => {
            let [lines] = words(body);
            Outcome::plain(lines::change(state, lines).code)
        }
        Kind::Slot => Outcome::plain(place_slot(state, words(body))),
        Kind::Trap => {
            let [cause, tval, htval, htinst, gva] = words(body);
            Outcome::of(trap::back(state, Trap { cause, tval, htval, htinst, gva }))
        }
    }
}

/// A call. Register and fence calls have steps; fence and SRET calls can remove slots.
fn make_call(state: &mut State, [eid, fid, a0, a1, a2]: [u64; 5]) -> Outcome {
    if fid == SYNC_CSR {
        let run = steps::run(state, eid, fid, a0, u64::MAX);
        return Outcome { code: run.code, steps: run.steps, removed: 0, reports: run.reports };
    }
    if !matches!(fid, SYNC_FENCE | SYNC_SRET) {
        return Outcome::of(calls::call(state, eid, fid, [a0, a1, a2]));
    }
    let (slots, entries) = (used_slots(state), pending_entries(state));
    let answer = calls::call(state, eid, fid, [a0, a1, a2]);
    let removed = slots - used_slots(state);
    // Each step of a fence call removes a slot or clears a Pending.
    let steps = if fid == SYNC_FENCE { removed + entries - pending_entries(state) } else { 0 };
    Outcome { steps, removed, ..Outcome::of(answer) }
}

/// How many slots of the table are used.
fn used_slots(state: &State) -> u64 {
    state.table.iter().step_by(SLOT_WORDS).map(|head| head >> 63).sum()
}

/// How many entries of the page are pending.
fn pending_entries(state: &State) -> u64 {
    let Some(page) = state.page() else {
        return 0;
    };
    let config = |entry| page::word(Xlen::X64, page, page::entry_offset(Xlen::X64, entry));
    (0..Xlen::X64.entry_count()).map(|entry| config(entry) >> 63).sum()
}

/// Writes the bytes after the offset to memory, if all of them lie in it.
fn write(state: &mut State, body: &[u8]) -> i64 {
    let [offset] = words(body);
    let bytes = &body[8..];
    let memory = &mut state.memory.bytes;
    if offset > (memory.len() - bytes.len()) as u64 {
        return INVALID_ADDRESS;
    }
    memory[offset as usize..][..bytes.len()].copy_from_slice(bytes);
    SUCCESS
}

/// Stores the four words in the slot with this index, if there is one.
fn place_slot(state: &mut State, [index, slot @ ..]: [u64; 1 + SLOT_WORDS]) -> i64 {
    if index >= SLOTS as u64 {
        return INVALID_ADDRESS;
    }
    state.table[SLOT_WORDS * index as usize..][..SLOT_WORDS].copy_from_slice(&slot);
    SUCCESS
}
