//! What is measured: a state and what is asked of it.

use second::calls::{ALL, EID, PROBE, SET, SYNC_CSR, SYNC_FENCE, SYNC_SRET};
use second::csr::{self, Csr};
use second::fence::{Config, Entry};
use second::hart::Hart;
use second::hypervisor::Fence;
use second::page;
use second::rng::Rng;
use second::state::{Memory, State};
use second::trap::Trap;
use second::xlen::Xlen;

use crate::replays;

/// What is asked for. `Blank` is a set of this address, for which the second program makes no call
/// and only writes the page. `Write`, `Queue` and `Fill` are the hypervisor's requests. `Replay` feeds a
/// replay that has begun with a whole recording, and tells it the end.
#[derive(Clone, Copy)]
pub enum Action {
    Call { fid: u64, args: [u64; 3] },
    Stoppable { fid: u64, a0: u64, limit: u64 },
    Lines { lines: u64 },
    Trap { trap: &'static Trap },
    List,
    Lookup { number: u64 },
    Lookups { numbers: Numbers },
    Blank { address: u64 },
    Write { number: u64, value: u64 },
    Queue { fence: &'static Fence },
    Fill { words: &'static [u64; 32] },
    Replay { recording: &'static [u8] },
}

/// The trap: a load's guest-page fault.
const FAULT: Trap = Trap { cause: 21, tval: 0x5008, htval: 0x1402, htinst: 0x3003, gva: 1 };

/// The fence that is queued.
const FENCE: Fence =
    Fence { kind: 6, order: 0, vmid: 7, asid: 3, page_number: 0x1080, page_count: 1 };

/// The words that fill the SRET context.
const CONTEXT: [u64; 32] = {
    let mut words = [0; 32];
    let mut i = 1;
    while i < 32 {
        words[i] = 0x8000_0000 + i as u64;
        i += 1;
    }
    words
};

/// Which numbers are looked up, 4,096 of them.
#[derive(Clone, Copy)]
pub enum Numbers {
    /// All numbers of 12 bits, ascending.
    All,
    /// The registers that both widths have, in random order.
    Mixed,
}

impl Numbers {
    /// The numbers.
    pub fn list(self) -> Vec<u64> {
        match self {
            Numbers::All => (0..4096).collect(),
            Numbers::Mixed => {
                let (mut rng, registers) = (Rng::new(4), csr::turn_order(Xlen::X64));
                (0..4096).map(|_| rng.pick(registers).number()).collect()
            }
        }
    }
}

/// One row of the table.
pub struct Row {
    pub name: String,
    pub state: State,
    pub action: Action,
}

impl Row {
    /// Whether the tuned version has what is asked for: at width 32 it has the whole fence call only,
    /// and at width 64 no lister, no lookup by itself, no page that is only blanked and no replay.
    pub fn has_tuned(&self) -> bool {
        if self.state.hart.xlen == Xlen::X32 {
            return matches!(self.action, Action::Call { fid: SYNC_FENCE, .. });
        }
        !matches!(
            self.action,
            Action::List
                | Action::Lookup { .. }
                | Action::Lookups { .. }
                | Action::Blank { .. }
                | Action::Replay { .. }
        )
    }
}

/// The number of the extension.
pub const NUMBER: u64 = EID;

/// Where memory and the page begin.
pub const BASE: u64 = 0x8000_0000;

/// A fresh hart with all features and its page, 256 used slots, and these dirty registers.
pub fn start(xlen: Xlen, dirty: &[Csr]) -> State {
    let mut hart = Hart::fresh_at(xlen, 15);
    hart.page = Some(BASE);
    let mut bytes = vec![0; xlen.page_size()];
    for &csr in dirty {
        page::set_csr_word(xlen, &mut bytes, csr, 0x1234_5678_9ABC_DEF4);
        page::set_dirty(&mut bytes, csr);
    }
    let slot = |number: u64| [(1 << 63) | (7 << 16) | 3, 0x1000 + number, 0x2000 + number, number];
    let table = (0..256).flat_map(slot).collect();
    State { hart, memory: Memory { base: BASE, bytes }, table }
}

/// The state with the first entries pending: type 6, VMID 7, ASID 3, and this range.
pub fn fenced(state: State, entries: usize, first: u64, count: u64) -> State {
    (0..entries).fold(state, |state, number| with_fence(state, number, [6, 7], [first, count]))
}

/// The state with an entry pending: its Type and VMID, ASID 3, and its range.
fn with_fence(mut state: State, number: usize, [kind, vmid]: [u64; 2], range: [u64; 2]) -> State {
    let xlen = state.hart.xlen;
    let [page_number, page_count] = range;
    let config = Config::at(xlen).word(kind, 0, vmid, 3);
    let entry = Entry { xlen, config, page_number, reserved: 0, page_count };
    entry.pending().store(&mut state.memory.bytes, number);
    state
}

/// The state with all entries pending, each of which names one slot of its own.
fn each_fenced(state: State) -> State {
    let page = |number: usize| 0x1000 + number as u64;
    (0..state.hart.xlen.entry_count())
        .fold(state, |state, number| with_fence(state, number, [6, 7], [page(number), 1]))
}

/// The state with all entries pending for all pages of a VMID that no slot has.
fn other_fenced(state: State) -> State {
    (0..state.hart.xlen.entry_count())
        .fold(state, |state, number| with_fence(state, number, [3, 9], [0, 0]))
}

/// The state with one slot in sixteen used.
fn sparse(mut state: State) -> State {
    for (number, slot) in state.table.chunks_mut(4).enumerate() {
        if number % 16 != 0 {
            slot.fill(0);
        }
    }
    state
}

/// The state in which SRET has everything to do.
fn returning(xlen: Xlen) -> State {
    let all = start(xlen, csr::turn_order(xlen));
    let mut state = fenced(all, xlen.entry_count(), 0x1000, 256);
    state.hart.spp = true;
    let bytes = &mut state.memory.bytes;
    for i in 1..32 {
        page::set_word(xlen, bytes, page::context_offset(xlen, i), i as u64);
    }
    set_swap(xlen, bytes);
    state
}

/// Sets the flag of the swap, and a swap word with SPV.
fn set_swap(xlen: Xlen, bytes: &mut [u8]) {
    page::set_word(xlen, bytes, page::AUTOSWAP_FLAGS, 1);
    page::set_word(xlen, bytes, page::hstatus_swap(xlen), 0x80);
}

/// A hart in its guest's S mode with nothing dirty.
fn guest(xlen: Xlen) -> State {
    let mut state = start(xlen, &[]);
    (state.hart.virt, state.hart.pc, state.hart.stvec) = (true, 0x1042, 0x8010_0000);
    state
}

/// A call with one argument.
const fn call(fid: u64, a0: u64) -> Action {
    Action::Call { fid, args: [a0, 0, 0] }
}

/// The rows of width 64, then those of width 32, which say so.
pub fn rows() -> Vec<Row> {
    let mut rows = rows_at(Xlen::X64);
    rows.extend(rows_at(Xlen::X32).into_iter().map(|row| {
        let name = format!("{}, width 32", row.name);
        Row { name, ..row }
    }));
    rows
}

/// The rows of a width, in their order.
fn rows_at(xlen: Xlen) -> Vec<Row> {
    let parts = [
        set_rows,
        csr_rows,
        fence_rows,
        other_rows,
        trap_rows,
        lookup_rows,
        request_rows,
        replays::rows,
    ];
    parts.iter().flat_map(|rows| rows(xlen)).collect()
}

/// A row with this name.
pub fn row(name: &str, state: State, action: Action) -> Row {
    Row { name: name.to_string(), state, action }
}

/// The rows of the hypervisor's requests at a width.
fn request_rows(xlen: Xlen) -> Vec<Row> {
    let (idle, last) = (|| start(xlen, &[]), xlen.entry_count() - 1);
    let queue = Action::Queue { fence: &FENCE };
    vec![
        row("write a register", idle(), Action::Write { number: 0x645, value: 0x444 }),
        row("queue a fence, none pending", idle(), queue),
        row(&format!("queue a fence, {last} pending"), fenced(idle(), last, 0x1000, 256), queue),
        row("fill the context", idle(), Action::Fill { words: &CONTEXT }),
    ]
}

/// The rows of probe and set at a width.
fn set_rows(xlen: Xlen) -> Vec<Row> {
    let (idle, registers) = (|| start(xlen, &[]), csr::turn_order(xlen).len());
    let blank = format!("set the page; second: fill(0) and {registers} stores");
    vec![
        row("probe a feature", idle(), call(PROBE, 2)),
        row("set the page", idle(), call(SET, BASE)),
        row("set refused (-5)", idle(), call(SET, BASE + 4096)),
        row(&blank, idle(), Action::Blank { address: BASE }),
    ]
}

/// The rows of FID 2 at a width.
fn csr_rows(xlen: Xlen) -> Vec<Row> {
    let start = |dirty: &[Csr]| start(xlen, dirty);
    let (hvip, all) = (&[Csr::Hvip], csr::turn_order(xlen));
    let stopped = Action::Stoppable { fid: SYNC_CSR, a0: ALL, limit: 40 };
    let all_dirty = format!("FID 2 all, {} dirty", all.len());
    vec![
        row("FID 2 refused (-3)", start(&[]), call(SYNC_CSR, 0x344)),
        row("FID 2, hvip clean", start(&[]), call(SYNC_CSR, 0x645)),
        row("FID 2, hvip dirty", start(hvip), call(SYNC_CSR, 0x645)),
        row("FID 2, vsatp dirty", start(&[Csr::Vsatp]), call(SYNC_CSR, 0x280)),
        row("FID 2 all, 0 dirty", start(&[]), call(SYNC_CSR, ALL)),
        row("FID 2 all, 1 dirty", start(hvip), call(SYNC_CSR, ALL)),
        row(&all_dirty, start(all), call(SYNC_CSR, ALL)),
        row(&format!("{all_dirty}, stopped after 40 steps"), start(all), stopped),
    ]
}

/// The rows of FID 3 at a width.
fn fence_rows(xlen: Xlen) -> Vec<Row> {
    let (idle, entries) = (|| start(xlen, &[]), xlen.entry_count());
    let one = "FID 3, one entry, names 1 of 256 slots";
    let all_pending = format!("FID 3 all, {entries} pending, 256 slots");
    let none_named = format!("{all_pending}, none named");
    let all_named = format!("{all_pending}, all named");
    let each_named = format!("{all_pending}, one named by each");
    let other_vmid = format!("{all_pending}, all pages of another VMID");
    let few_used = format!("FID 3 all, {entries} pending, 16 of 256 slots used, none named");
    vec![
        row(one, fenced(idle(), 1, 0x1080, 1), call(SYNC_FENCE, 0)),
        row("FID 3 all, none pending", idle(), call(SYNC_FENCE, ALL)),
        row(&none_named, fenced(idle(), entries, 0x9000, 256), call(SYNC_FENCE, ALL)),
        row(&all_named, fenced(idle(), entries, 0x1000, 256), call(SYNC_FENCE, ALL)),
        row(&each_named, each_fenced(idle()), call(SYNC_FENCE, ALL)),
        row(&other_vmid, other_fenced(idle()), call(SYNC_FENCE, ALL)),
        row(&few_used, fenced(sparse(idle()), entries, 0x9000, 256), call(SYNC_FENCE, ALL)),
        row(
            "FID 3 all, 1 pending, names 1 of 256 slots",
            fenced(idle(), 1, 0x1080, 1),
            call(SYNC_FENCE, ALL),
        ),
    ]
}

/// The rows of SRET, the line change and the lister at a width.
fn other_rows(xlen: Xlen) -> Vec<Row> {
    let idle = || start(xlen, &[]);
    let (registers, entries) = (csr::turn_order(xlen).len(), xlen.entry_count());
    let full_list = format!("list, {registers} dirty and {entries} pending");
    vec![
        row("SRET with everything", returning(xlen), call(SYNC_SRET, 0)),
        row("SRET, nothing marked", idle(), call(SYNC_SRET, 0)),
        row("line change", idle(), Action::Lines { lines: 8 }),
        row("list, nothing marked", idle(), Action::List),
        row(&full_list, returning(xlen), Action::List),
    ]
}

/// The rows of the trap back at a width.
fn trap_rows(xlen: Xlen) -> Vec<Row> {
    let (mut swapped, mut no_page) = (guest(xlen), guest(xlen));
    set_swap(xlen, &mut swapped.memory.bytes);
    no_page.hart.page = None;
    let trap = Action::Trap { trap: &FAULT };
    vec![
        row("trap back", guest(xlen), trap),
        row("trap back with the swap", swapped, trap),
        row("trap back, no page", no_page, trap),
    ]
}

/// The rows of lookups at a width.
fn lookup_rows(xlen: Xlen) -> Vec<Row> {
    let lookup = |name: &str, action| row(name, start(xlen, &[]), action);
    let [all, mixed] = [Numbers::All, Numbers::Mixed].map(|numbers| Action::Lookups { numbers });
    vec![
        lookup("lookup of hvip", Action::Lookup { number: 0x645 }),
        lookup("lookup of vsatp", Action::Lookup { number: 0x280 }),
        lookup("lookup of 0x344 (none)", Action::Lookup { number: 0x344 }),
        lookup("lookup of 0x601 (none)", Action::Lookup { number: 0x601 }),
        lookup("lookups of all 4,096 numbers", all),
        lookup("lookups of 4,096 registers in random order", mixed),
    ]
}
