//! Set: by hand, and in chains with marks that earlier runs of a hypervisor have left in memory.

use second::calls::{ALL, EID, SET, SYNC_CSR, SYNC_FENCE};
use second::csr::{self, Csr};
use second::gen;
use second::hart::{Hart, Mode};
use second::page;
use second::rng::Rng;
use second::state::{Memory, State};
use second::xlen::Xlen;

use super::stops::widened;
use super::tickets::{at, call, fact};
use super::{calls, Result};
use crate::case::Case;
use crate::input::{Action, Input, Outcome};
use crate::record;
use crate::scene::*;

/// What memory holds before a set by hand.
const OLD: u8 = 0xFF;

/// The small state, in memory that has so many bytes and is full of marks.
fn old(xlen: Xlen, bytes: usize) -> State {
    let mut state = small(xlen, &[slot(false, 5, 0, 1, 1)]);
    state.memory.bytes = vec![OLD; bytes];
    state
}

/// Whether all these bytes are the same as this one.
fn are_all(bytes: &[u8], byte: u8) -> bool {
    bytes.iter().all(|&other| other == byte)
}

/// A fresh hart's page is zero, but for the words of hstatus and vsstatus at width 64. Then the
/// readings that come from other registers: hip, vsie and vsip, whatever the features.
pub fn blank(case: &mut Case) -> Result {
    let size = case.xlen.page_size();
    let mut expected = vec![0; size];
    expected[0x1804] = at(case, 0, 2);
    expected[0x1004] = at(case, 0, 2);
    for features in 0..16 {
        let mut state = old(case.xlen, size);
        state.hart.features = features;
        let end = call(case, &state, SET, [BASE, 0, 0], 0)?;
        fact(case, end.memory == expected, "a fresh hart's page")?;
        state.hart.hstatus |= 3 << 12;
        state.hart.lines = 8;
        (state.hart.hgeie, state.hart.hvip) = (8, 0x44);
        (state.hart.hie, state.hart.hideleg) = (0x1004, 4);
        let end = call(case, &state, SET, [BASE, 0, 0], 0)?;
        let words = [Csr::Hgeip, Csr::Hvip, Csr::Hip, Csr::Vsie, Csr::Vsip]
            .map(|csr| csr_word(&end.memory, csr));
        fact(case, words == [8, 0x44, 0x1444, 2, 2], "the readings")?;
        fact(case, are_all(&end.memory[..0x1000], 0), "nothing is marked")?;
    }
    Ok(())
}

/// The same address again: the marks of the run before are gone, and nothing is carried out.
pub fn again(case: &mut Case) -> Result {
    let mut state = small(case.xlen, &[slot(false, 5, 0, 16, 16)]);
    mark(&mut state, Csr::Hvip, 0x444);
    mark(&mut state, Csr::Vsscratch, 0x1234);
    put(&mut state, 2, [1, 0, 0, 0, 0, 0]);
    let mut input = Input::new(&state, Action::Lines { lines: 0 });
    for (fid, a0) in [(SET, BASE), (SYNC_CSR, ALL), (SYNC_FENCE, ALL)] {
        input.action = Action::Call { eid: EID, fid, args: [a0, 0, 0] };
        let end = case.expect(&input, 0)?;
        fact(case, end.words == input.words, "the record stays")?;
        fact(case, used(&end.table) == [true], "the slot stays")?;
        fact(case, are_all(&end.memory[..0x1000], 0), "nothing is marked")?;
        input = input.after(&end, input.action);
    }
    Ok(())
}

/// A page that is set over the old one, before it or after it: only its own bytes change.
pub fn overlapping(case: &mut Case) -> Result {
    let size = case.xlen.page_size();
    for start in (0..=2 * size).step_by(4096) {
        let mut state = old(case.xlen, 3 * size + 1);
        state.hart.page = Some(BASE + size as u64);
        let end = call(case, &state, SET, [BASE + start as u64, 0, 0], 0)?;
        let (before, rest) = end.memory.split_at(start);
        let (page, after) = rest.split_at(size);
        fact(case, are_all(before, OLD) && are_all(after, OLD), "the bytes beside the page")?;
        fact(case, are_all(&page[..0x1000], 0), "nothing is marked")?;
        fact(case, used(&end.table) == [true], "the slot stays")?;
    }
    Ok(())
}

/// A drop writes nothing; nor does a set in memory that is one byte short.
pub fn unwritten(case: &mut Case) -> Result {
    let size = case.xlen.page_size();
    let state = old(case.xlen, 2 * size - 1);
    let end = call(case, &state, SET, [ALL, ALL, 0], 0)?;
    fact(case, are_all(&end.memory, OLD) && end.words[20] == 0, "a drop")?;
    let end = call(case, &state, SET, [BASE + size as u64, 0, 0], -5)?;
    fact(case, are_all(&end.memory, OLD) && end.words[21] == BASE, "one byte short")
}

/// A hart with these features, its page anywhere or not set, and memory of one page and up to four
/// times 4,096 bytes more, now and then one byte short of that.
fn start(rng: &mut Rng, xlen: Xlen, features: u64) -> State {
    let mut hart = Hart { features, page: None, ..gen::hart(rng, xlen) };
    let last = xlen.ones() & !0xFFF;
    let base = rng.pick(&[0, 8, BASE, BASE, BASE, BASE + 4095, last - 0x3000]);
    let length = xlen.page_size() as u64 + 4096 * rng.below(5) - u64::from(rng.one_in(4));
    let bytes = (0..length).map(|_| rng.bits() as u8).collect();
    let memory = Memory { base, bytes };
    if rng.one_in(2) {
        hart.page = Some(gen::page_address(rng, xlen, &memory));
    }
    State { hart, memory, table: gen::table(rng, xlen) }
}

/// An aligned address: the page's own, one near it, or any from the beginning of memory on.
fn address(rng: &mut Rng, state: &State) -> u64 {
    let first = state.memory.base.wrapping_add(4095) & !0xFFF;
    let any = first.wrapping_add(4096 * rng.below(6));
    let own = state.hart.page.unwrap_or(first);
    let near = own.wrapping_add(4096 * rng.below(7)).wrapping_sub(3 * 4096);
    state.hart.xlen.cut(rng.pick(&[own, own, near, any, any]))
}

/// Leaves marks in a place of memory, whether it is the hart's page or not.
fn leave_marks(rng: &mut Rng, state: &mut State) {
    let xlen = state.hart.xlen;
    let address = address(rng, state);
    if let Some(start) = state.memory.find_page(xlen, address) {
        let page = &mut state.memory.bytes[start..][..xlen.page_size()];
        if rng.one_in(4) {
            page.fill(0xFF);
        } else {
            gen::fill_page(rng, xlen, page);
        }
    }
}

/// Mostly a set that names an address, else a drop, another call or a line change.
fn action(rng: &mut Rng, state: &State) -> Action {
    let xlen = state.hart.xlen;
    let lo = address(rng, state);
    let odd = [lo, rng.pick(&[0, 1, xlen.ones()]), rng.pick(&[0, 1, 1 << 31])];
    let (fid, args) = match rng.below(12) {
        0 => return Action::Lines { lines: rng.bits() & 0xFE },
        1 => {
            let (fid, limit) = (2 + rng.below(2), rng.below(40));
            return Action::Stoppable { eid: EID, fid, a0: ALL, limit };
        }
        2 | 3 => (2 + rng.below(3), [ALL, 0, 0]),
        4 => (SET, [ALL, ALL, 0]),
        5 => (SET, odd),
        _ => (SET, [lo, 0, 0]),
    };
    let [eid, fid] = [EID, fid].map(|number| widened(rng, xlen, number));
    Action::Call { eid, fid, args: args.map(|arg| widened(rng, xlen, arg)) }
}

/// An accepted set that names an address changes its own page's bytes only and leaves nothing there
/// but readings; a drop changes no byte. Neither changes a slot.
fn check_set(case: &Case, input: &Input, end: &Outcome) -> Result {
    let is_set = |fid| case.xlen.cut(fid) == SET && end.code == 0;
    if !matches!(input.action, Action::Call { fid, .. } if is_set(fid)) {
        return Ok(());
    }
    fact(case, end.table == input.table, "set changes no slot")?;
    let Some(hart) = record::hart(&end.words) else {
        return fact(case, false, "set leaves a record");
    };
    let mut expected = input.memory.clone();
    if let Some(address) = hart.page {
        let page = &mut expected[(address - input.base) as usize..][..case.xlen.page_size()];
        page.fill(0);
        for &csr in csr::turn_order(case.xlen) {
            page::set_csr_word(case.xlen, page, csr, csr::read(&hart, csr));
        }
    }
    fact(case, end.memory == expected, "the bytes after set")
}

/// Twelve actions of a hart with the case's features, mostly sets, each on what the one before
/// left; between them marks are left in memory.
pub fn chain(case: &mut Case) -> Result {
    let mut state = start(&mut case.rng, case.xlen, case.index % 16);
    for _ in 0..12 {
        let rng = &mut case.rng;
        leave_marks(rng, &mut state);
        let mut input = Input::new(&state, action(rng, &state));
        input.route = calls::route(rng);
        let end = case.check(&input)?;
        check_set(case, &input, &end)?;
        if let Some(hart) = record::hart(&end.words) {
            state.hart = hart;
        }
        state.memory.bytes = end.memory;
        state.table = end.table;
        (state.hart.virt, state.hart.mode) = (false, Mode::S);
    }
    Ok(())
}
