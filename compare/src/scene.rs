//! Small states, built by hand.

use second::csr::Csr;
use second::fence::{Config, Entry};
use second::hart::Hart;
use second::page;
use second::state::{Memory, State};
use second::xlen::Xlen;

/// Where a small state's memory and its page begin.
pub const BASE: u64 = 0x8000_0000;

/// A fresh hart with all features, one page of zero bytes that is set, and these slots.
pub fn small(xlen: Xlen, slots: &[[u64; 4]]) -> State {
    let mut hart = Hart::fresh_at(xlen, 15);
    hart.page = Some(BASE);
    let memory = Memory { base: BASE, bytes: vec![0; xlen.page_size()] };
    State { hart, memory, table: slots.concat() }
}

/// Writes a register's word and marks it dirty, as the hypervisor does.
pub fn mark(state: &mut State, csr: Csr, value: u64) {
    page::set_csr_word(state.hart.xlen, &mut state.memory.bytes, csr, value);
    page::set_dirty(&mut state.memory.bytes, csr);
}

/// A register's word in a page, whose length tells its width.
pub fn csr_word(memory: &[u8], csr: Csr) -> u64 {
    Xlen::of_page_size(memory.len()).map_or(0, |xlen| page::csr_word(xlen, memory, csr))
}

/// The fields of a fence entry: Type, Order, VMID, ASID, Page_Number and Page_Count.
pub type Fields = [u64; 6];

/// A pending entry with these fields.
pub fn pending(xlen: Xlen, [kind, order, vmid, asid, first, count]: Fields) -> Entry {
    let config = Config::at(xlen).word(kind, order, vmid, asid);
    Entry { xlen, config, page_number: first, reserved: 0, page_count: count }.pending()
}

/// Stores a pending entry with these fields.
pub fn put(state: &mut State, number: usize, fields: Fields) {
    pending(state.hart.xlen, fields).store(&mut state.memory.bytes, number);
}

/// A used slot with these fields.
pub fn slot(global: bool, vmid: u64, asid: u64, virtual_page: u64, physical_page: u64) -> [u64; 4] {
    let head = (1 << 63) | (u64::from(global) << 62) | (vmid << 16) | asid;
    [head, virtual_page, physical_page, 77]
}

/// Which slots of a table are used.
pub fn used(table: &[u64]) -> Vec<bool> {
    table.chunks(4).map(|slot| slot[0] >> 63 == 1).collect()
}
