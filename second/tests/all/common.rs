//! Small states and functions that several tests share.

use second::calls::{self, Answer, EID};
use second::csr::{self, Csr};
use second::dropped::Report;
use second::fence::Entry;
use second::hart::Hart;
use second::hypervisor::{self, Fence, Request};
use second::page;
use second::state::{Memory, State};
use second::trap::Trap;
use second::xlen::Xlen;

/// Where the small state's memory and its page begin.
pub const BASE: u64 = 0x8000_0000;

/// A fresh hart with all features, one page of zero bytes that is set, and no slots.
pub fn small_state_at(xlen: Xlen) -> State {
    let mut hart = Hart::fresh_at(xlen, 15);
    hart.page = Some(BASE);
    let memory = Memory { base: BASE, bytes: vec![0; xlen.page_size()] };
    State { hart, memory, table: Vec::new() }
}

/// The small state of width 64.
pub fn small_state() -> State {
    small_state_at(Xlen::X64)
}

/// The small state with a table of these slots.
pub fn state_with_slots_at(xlen: Xlen, slots: &[[u64; 4]]) -> State {
    let mut state = small_state_at(xlen);
    state.table = slots.concat();
    state
}

/// The small state of width 64 with a table of these slots.
pub fn state_with_slots(slots: &[[u64; 4]]) -> State {
    state_with_slots_at(Xlen::X64, slots)
}

/// The small state in the guest.
pub fn guest_at(xlen: Xlen) -> State {
    let mut state = small_state_at(xlen);
    state.hart.virt = true;
    state
}

/// A trap with these words: cause, tval, htval and htinst, and GVA.
pub fn trap_of([cause, tval, htval, htinst]: [u64; 4], gva: u64) -> Trap {
    Trap { cause, tval, htval, htinst, gva }
}

/// A call of the extension with one argument.
pub fn sync(state: &mut State, fid: u64, a0: u64) -> Answer {
    calls::call(state, EID, fid, [a0, 0, 0])
}

/// The code of a call that is made on a copy of the state.
pub fn code_of(state: &State, eid: u64, fid: u64, args: [u64; 3]) -> i64 {
    calls::call(&mut state.clone(), eid, fid, args).code
}

/// Writes a register's word and marks it dirty, as the hypervisor does.
pub fn mark(state: &mut State, csr: Csr, value: u64) {
    let parts = state.parts().unwrap();
    page::set_csr_word(parts.hart.xlen, parts.page, csr, value);
    page::set_dirty(parts.page, csr);
}

/// A report of this register and these bits.
pub fn report(csr: u64, bits: u64) -> Report {
    Report { csr, bits }
}

/// A count after so many more writes with dropped bits.
pub fn counted(count: u32, writes: usize) -> u32 {
    (u64::from(count) + writes as u64).min((1 << 32) - 1) as u32
}

/// Writes a word to a register of the record; gives what must be reported of it, and counts it.
pub fn write_told(hart: &mut Hart, csr: Csr, word: u64) -> Vec<Report> {
    csr::write(hart, csr, word);
    let reading = csr::read(hart, csr);
    let bits = (word & !reading) | (!word & reading);
    let told = if word == reading { Vec::new() } else { vec![report(csr.number(), bits)] };
    hart.dropped = counted(hart.dropped, told.len());
    told
}

/// Whether the register's dirty bit is set in the state's page.
pub fn dirty(state: &State, csr: Csr) -> bool {
    page::is_dirty(state.page().unwrap(), csr)
}

/// The register's word in the state's page.
pub fn csr_word(state: &State, csr: Csr) -> u64 {
    page::csr_word(state.hart.xlen, state.page().unwrap(), csr)
}

/// Stores a fence entry into the state's page.
pub fn put_entry(state: &mut State, number: usize, entry: Entry) {
    entry.store(state.parts().unwrap().page, number);
}

/// A fence entry of the state's page.
pub fn get_entry(state: &State, number: usize) -> Entry {
    Entry::load(state.hart.xlen, state.page().unwrap(), number)
}

/// A pending entry with these fields.
pub fn pending_at(xlen: Xlen, kind: u64, order: u64, ids: [u64; 2], range: [u64; 2]) -> Entry {
    let ([vmid, asid], [page_number, page_count]) = (ids, range);
    let [pending_at, kind_at, order_at, vmid_at] = match xlen {
        Xlen::X32 => [31, 24, 16, 9],
        Xlen::X64 => [63, 56, 48, 16],
    };
    let fields = (kind << kind_at) | (order << order_at) | (vmid << vmid_at) | asid;
    Entry { xlen, config: (1 << pending_at) | fields, page_number, reserved: 0, page_count }
}

/// A pending entry of width 64 with these fields.
pub fn pending(kind: u64, order: u64, vmid: u64, asid: u64, first: u64, count: u64) -> Entry {
    pending_at(Xlen::X64, kind, order, [vmid, asid], [first, count])
}

/// A used slot with these fields.
pub fn slot(global: bool, vmid: u64, asid: u64, virtual_page: u64, physical_page: u64) -> [u64; 4] {
    let head = (1 << 63) | (u64::from(global) << 62) | (vmid << 16) | asid;
    [head, virtual_page, physical_page, 77]
}

/// Which slots of the table are used.
pub fn used(state: &State) -> Vec<bool> {
    state.table.chunks(4).map(|slot| slot[0] >> 63 == 1).collect()
}

/// The bits of a width, as a request names it.
pub fn bits(xlen: Xlen) -> u64 {
    xlen.bits().into()
}

/// A fence with these fields.
pub fn fence_of(kind: u64, order: u64, ids: [u64; 2], range: [u64; 2]) -> Fence {
    let ([vmid, asid], [page_number, page_count]) = (ids, range);
    Fence { kind, order, vmid, asid, page_number, page_count }
}

/// Asserts that a request is refused with this code and changes no byte.
pub fn assert_refused(bits: u64, page: &[u8], request: &Request, code: i64) {
    let mut after = page.to_vec();
    let told = hypervisor::perform(bits, &mut after, request);
    assert_eq!(told, Err(code), "width {bits}, {} bytes, {request:x?}", page.len());
    assert!(after == page, "a refusal that changes a byte: {request:x?}");
}
