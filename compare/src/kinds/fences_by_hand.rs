//! Lists of fences by hand, with the slots that each leaves.

use nathiroeng::REPLAY_MEMORY_BYTES;
use second::calls::{ALL, EID, SYNC_FENCE};
use second::fence::{self, Entry};
use second::page::entry_offset;
use second::state::State;

use super::fences::serve;
use super::tickets::fact;
use super::{fences_named, Result};
use crate::case::Case;
use crate::input::{Action, Input};
use crate::scene::*;

/// The lists.
pub const ROWS: [fn(&mut Case) -> Result; 14] = [
    none_pending,
    at_the_ends,
    each_its_own,
    all_the_same,
    fences_named::none_named,
    fences_named::ends_of_ranges,
    fences_named::up_to_the_last_page,
    fences_named::great_orders,
    fences_named::global,
    fences_named::ids,
    fences_named::unreadable,
    fences_named::used_bit,
    lengths,
    order_of_steps,
];

/// The slots of a replay.
pub const SLOTS: usize = 64;

/// All entries, served in each way, leave these slots and remove the others; of memory they clear each
/// Pending, the uppermost bit of Config, and nothing else.
pub fn leaves(case: &mut Case, state: &State, left: &[bool]) -> Result {
    let end = serve(case, state)?;
    let (mut table, mut memory) = (state.table.clone(), state.memory.bytes.clone());
    for (slot, is_left) in table.chunks_mut(4).zip(left) {
        if !is_left {
            slot.fill(0);
        }
    }
    for number in 0..case.xlen.entry_count() {
        memory[entry_offset(case.xlen, number) + case.xlen.bytes() - 1] &= 0x7F;
    }
    fact(case, end.table == table, "the slots that are left")?;
    fact(case, end.memory == memory, "the bytes that are left")
}

/// A small state with these slots, in memory as long as a replay's.
pub fn listed(case: &Case, slots: &[[u64; 4]]) -> State {
    let mut state = small(case.xlen, slots);
    state.memory.bytes.resize(REPLAY_MEMORY_BYTES, 0);
    state
}

/// The same with every entry pending and these fields.
pub fn full(case: &Case, slots: &[[u64; 4]], fields: Fields) -> State {
    let mut state = listed(case, slots);
    (0..case.xlen.entry_count()).for_each(|number| put(&mut state, number, fields));
    state
}

/// So many slots of VMID 5 and ASID 5, each with its own number for a page.
pub fn numbered(slots: u64) -> Vec<[u64; 4]> {
    (0..slots).map(|page| slot(false, 5, 5, page, page)).collect()
}

/// Stores an entry with these fields that is not pending.
fn put_done(state: &mut State, number: usize, fields: Fields) {
    put(state, number, fields);
    fence::clear_pending(state.hart.xlen, &mut state.memory.bytes, number);
}

/// A list with no entry pending, though each would remove every slot.
fn none_pending(case: &mut Case) -> Result {
    for kind in [1, 9] {
        let mut state = listed(case, &[slot(false, 1, 1, 1, 1); SLOTS]);
        (0..case.xlen.entry_count()).for_each(|number| put_done(&mut state, number, [kind; 6]));
        leaves(case, &state, &[true; SLOTS])?;
    }
    Ok(())
}

/// Only the first entry is pending, only the last, or both, among others that would remove every slot.
fn at_the_ends(case: &mut Case) -> Result {
    let last = case.xlen.entry_count() - 1;
    for (first_waits, last_waits) in [(true, false), (false, true), (true, true)] {
        let mut state = listed(case, &numbered(64));
        (0..=last).for_each(|number| put_done(&mut state, number, [1, 0, 0, 0, 0, 0]));
        let mut left = [true; SLOTS];
        for (number, waits, place) in [(0, first_waits, 0), (last, last_waits, 63)] {
            if waits {
                put(&mut state, number, [2, 0, 5, 0, place, 1]);
                left[place as usize] = false;
            }
        }
        leaves(case, &state, &left)?;
    }
    Ok(())
}

/// Each entry names a slot of its own, in every order of types; slots that none names stay.
fn each_its_own(case: &mut Case) -> Result {
    let count = case.xlen.entry_count();
    for (slots, shift) in [(SLOTS, 0), (256, 1), (256, 2), (256, 3)] {
        // Slot s belongs to VMID and ASID s+1 and to page 100+s.
        let own = |s: u64| slot(false, s + 1, s + 1, 100 + s, 100 + s);
        let mut state = listed(case, &(0..slots as u64).map(own).collect::<Vec<_>>());
        for number in 0..count {
            let (kind, s) = ([0, 2, 3, 4, 5, 6, 7][(number + shift) % 7], number as u64);
            put(&mut state, count - 1 - number, [kind, 0, s + 1, s + 1, 100 + s, 1]);
        }
        let left: Vec<bool> = (0..slots).map(|s| s >= count).collect();
        leaves(case, &state, &left)?;
    }
    Ok(())
}

/// All entries name the same slot, the first, one in the middle or the last.
fn all_the_same(case: &mut Case) -> Result {
    for place in [0, 31, 63] {
        let mut slots = [slot(false, 6, 5, 9, 9); SLOTS];
        slots[place] = slot(false, 5, 5, 3, 3);
        let mut state = listed(case, &slots);
        for number in 0..case.xlen.entry_count() {
            let kind = [0, 2, 3, 4, 5, 6, 7][number % 7];
            put(&mut state, number, [kind, 0, 5, 5, 3, 1]);
        }
        let left: Vec<bool> = (0..SLOTS).map(|s| s != place).collect();
        leaves(case, &state, &left)?;
    }
    Ok(())
}

/// Tables of every length around the ends, of which the first slot and the last are named, or all.
fn lengths(case: &mut Case) -> Result {
    let last = case.xlen.entry_count() - 1;
    for slots in [0, 1, 2, 3, 63, 65, 128, 254, 255, 256] {
        let mut state = full(case, &numbered(slots), [6, 0, 5, 5, 0, 1]);
        put(&mut state, last, [4, 0, 5, 5, slots.wrapping_sub(1), 1]);
        let left: Vec<bool> = (0..slots).map(|s| s != 0 && s + 1 != slots).collect();
        leaves(case, &state, &left)?;
        put(&mut state, last, [1, 0, 0, 0, 0, 0]);
        leaves(case, &state, &vec![false; slots as usize])?;
    }
    Ok(())
}

/// The steps of three entries, one by one: the slots of each, ascending, and then its Pending. The second
/// also names a slot that the first has removed, and the third names none.
fn order_of_steps(case: &mut Case) -> Result {
    let last = case.xlen.entry_count() - 1;
    let slots =
        [(6, 9), (5, 1), (6, 9), (5, 2)].map(|(vmid, page)| slot(false, vmid, 5, page, page));
    let mut state = listed(case, &slots);
    put(&mut state, 0, [3, 0, 5, 0, 0, 0]);
    put(&mut state, 7, [0, 0, 0, 0, 2, 9]);
    put(&mut state, last, [5, 0, 7, 0, 0, 0]);
    let (mut left, mut waits) = ([true; 4], [true; 3]);
    for limit in 0..8 {
        match limit {
            1 => left[1] = false,
            2 => left[3] = false,
            3 => waits[0] = false,
            4 => left[0] = false,
            5 => left[2] = false,
            6 => waits[1] = false,
            7 => waits[2] = false,
            _ => {}
        }
        let action = Action::Stoppable { eid: EID, fid: SYNC_FENCE, a0: ALL, limit };
        let end = case.expect(&Input::new(&state, action), 0)?;
        let page = &end.memory[..case.xlen.page_size()];
        let pending = [0, 7, last].map(|number| Entry::load(case.xlen, page, number).is_pending());
        fact(case, used(&end.table) == left && pending == waits, "the steps one by one")?;
        fact(case, end.answer[2..4] == [limit, u64::from(limit == 7)], "steps and finished")?;
    }
    leaves(case, &state, &[false; 4])
}
