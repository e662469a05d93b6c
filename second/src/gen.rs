//! Random states and calls of a width, for tests and comparisons.

mod damages;
mod fences;
pub mod recordings;
mod records;
mod requests;
mod traps;

pub use fences::{entry, slot, table};
pub use records::{damaged_hart, guest_hart, hart};
pub use requests::{fence, good_fence, good_request, request, request_page};
pub use traps::{good_trap_state, trap, trap_state};

use crate::calls::{EID, SYNC_FENCE};
use crate::csr;
use crate::page;
use crate::rng::Rng;
use crate::state::{Memory, State};
use crate::xlen::Xlen;

/// One call: its numbers and its three arguments, at width 32 not cut yet.
#[derive(Clone, Copy, PartialEq, Eq, Debug)]
pub struct Call {
    pub eid: u64,
    pub fid: u64,
    pub args: [u64; 3],
}

/// A word of some usual shape: zero, ones, a single bit, few bits, small or any.
pub fn word(rng: &mut Rng, xlen: Xlen) -> u64 {
    let bits = u64::from(xlen.bits());
    xlen.cut(match rng.below(8) {
        0 => 0,
        1 => u64::MAX,
        2 => 1 << rng.below(bits),
        3 => rng.bits() & rng.bits() & rng.bits(),
        4 => rng.bits() & 0x1FFF,
        5 => !(1 << rng.below(bits)),
        _ => rng.bits(),
    })
}

/// The number, at width 32 sometimes with bits above 31.
fn widened(rng: &mut Rng, xlen: Xlen, number: u64) -> u64 {
    if xlen == Xlen::X32 && rng.one_in(8) {
        number ^ (word(rng, xlen) << 32)
    } else {
        number
    }
}

/// A first address: near 0, in the usual place, near the end of what a word can name, or
/// anywhere; mostly page-aligned, and at width 32 now and then above that end.
fn base(rng: &mut Rng, xlen: Xlen) -> u64 {
    let near = match rng.below(4) {
        0 => 0x1000 * rng.below(4),
        1 => 0x8000_0000,
        2 => 0u64.wrapping_sub(0x1000 * (1 + rng.below(6))),
        _ => rng.bits() & !0xFFF,
    };
    let aligned = widened(rng, xlen, xlen.cut(near));
    if rng.one_in(4) {
        aligned.saturating_add(1 + rng.below(4095))
    } else {
        aligned
    }
}

/// A number of bytes: too few for a page, exactly enough, or more.
fn length(rng: &mut Rng, xlen: Xlen) -> usize {
    let size = xlen.page_size();
    let short = rng.below(size as u64) as usize;
    let more = rng.below(9000) as usize;
    match rng.below(8) {
        0 => rng.pick(&[0, 1, size - 1]),
        1 => short,
        2 | 3 => size,
        4 => size + rng.pick(&[1, 4095, 4096, 8192]),
        _ => size + more,
    }
}

/// Memory of some base and length, filled with zeros, ones or noise.
pub fn memory(rng: &mut Rng, xlen: Xlen) -> Memory {
    let mut memory = Memory { base: base(rng, xlen), bytes: vec![0; length(rng, xlen)] };
    match rng.below(4) {
        0 => {}
        1 => memory.bytes.fill(0xFF),
        _ => memory.bytes.iter_mut().for_each(|byte| *byte = rng.bits() as u8),
    }
    memory
}

/// A page-aligned address: often in memory, else near one of its ends or anywhere.
pub fn page_address(rng: &mut Rng, xlen: Xlen, memory: &Memory) -> u64 {
    let size = xlen.page_size() as u64;
    let first = memory.base.wrapping_add(4095) & !0xFFF;
    let end = memory.base.wrapping_add(memory.bytes.len() as u64);
    xlen.cut(match rng.below(8) {
        0 => rng.bits() & !0xFFF,
        1 => first.wrapping_sub(4096),
        2 => end.wrapping_sub(size - 1) & !0xFFF,
        3 => end & !0xFFF,
        _ => first.wrapping_add(rng.below(3) * 4096 * rng.below(2)),
    })
}

/// Fills a page of the width with dirty registers and fence entries, few or many of each.
pub fn fill_page(rng: &mut Rng, xlen: Xlen, page: &mut [u8]) {
    let dirty = rng.pick(&[0, 2, 8, 15, 16]);
    for &csr in csr::turn_order(xlen) {
        if rng.below(16) < dirty {
            page::set_dirty(page, csr);
        } else {
            page::clear_dirty(page, csr);
        }
        if rng.one_in(2) {
            page::set_csr_word(xlen, page, csr, word(rng, xlen));
        }
    }
    let pending = rng.pick(&[0, 1, 4, 15, 16]);
    for number in 0..xlen.entry_count() {
        let is_pending = rng.below(16) < pending;
        entry(rng, xlen, is_pending).store(page, number);
    }
    page::set_word(xlen, page, page::AUTOSWAP_FLAGS, word(rng, xlen));
    page::set_word(xlen, page, page::hstatus_swap(xlen), word(rng, xlen));
}

/// A state in which every call of the extension is accepted.
pub fn good_state(rng: &mut Rng, xlen: Xlen) -> State {
    let mut hart = hart(rng, xlen);
    hart.features = 15;
    loop {
        let memory = memory(rng, xlen);
        hart.page = Some(page_address(rng, xlen, &memory));
        let mut state = State { hart: hart.clone(), memory, table: Vec::new() };
        if let Some(parts) = state.parts() {
            fill_page(rng, xlen, parts.page);
            state.table = table(rng, xlen);
            return state;
        }
    }
}

/// Any state: often good, else with some of its parts damaged or missing.
pub fn state(rng: &mut Rng, xlen: Xlen) -> State {
    let mut state = good_state(rng, xlen);
    if rng.one_in(2) {
        return state;
    }
    match rng.below(6) {
        0 => state.hart = damaged_hart(rng, xlen),
        1 => state.hart = guest_hart(rng, xlen),
        2 => state.hart.features = rng.below(16),
        3 => state.table.resize(rng.pick(&[1, 2, 3, 5, 1021, 1025, 1028, 2048]), 1 << 63),
        4 => state.memory = memory(rng, xlen),
        _ => state.hart.page = None,
    }
    if rng.one_in(2) && state.hart.page.is_some() && state.hart.is_well_made() {
        state.hart.page = Some(page_address(rng, xlen, &state.memory));
    }
    state
}

/// Any call, mostly one that fits the state.
pub fn call(rng: &mut Rng, state: &State) -> Call {
    let xlen = state.hart.xlen;
    let eid = if rng.one_in(16) { rng.pick(&[0, 0x4E41_434D, EID | 1 << 32]) } else { EID };
    let fid = if rng.one_in(16) { rng.pick(&[5, 1 << 32, u64::MAX]) } else { rng.below(5) };
    let args = match fid {
        0 => [rng.below(6) | (rng.below(2) << 32), word(rng, xlen), word(rng, xlen)],
        1 => {
            let lo = match rng.below(8) {
                0 => xlen.ones(),
                1 => word(rng, xlen),
                _ => page_address(rng, xlen, &state.memory),
            };
            [lo, rng.pick(&[0, 0, 0, xlen.ones(), 1]), rng.pick(&[0, 0, 0, 0, 1, 1 << 63])]
        }
        _ => [sync_argument(rng, xlen, fid), word(rng, xlen), word(rng, xlen)],
    };
    Call {
        eid: widened(rng, xlen, eid),
        fid: widened(rng, xlen, fid),
        args: args.map(|arg| widened(rng, xlen, arg)),
    }
}

/// The first argument of a register or fence call, mostly a good one.
pub fn sync_argument(rng: &mut Rng, xlen: Xlen, fid: u64) -> u64 {
    let argument = match rng.below(8) {
        0 => word(rng, xlen),
        1 | 2 => xlen.ones(),
        _ if fid == SYNC_FENCE => rng.below(xlen.entry_count() as u64 + 2),
        3 => 0x1000 + rng.pick(csr::turn_order(xlen)).number(),
        4 => rng.below(0x1000),
        _ => rng.pick(csr::turn_order(xlen)).number(),
    };
    widened(rng, xlen, argument)
}
