//! Random lists of fences, and tables for them. Most entries name few slots, so that some are left, and
//! most slots are aimed at an entry: at the ends of its range and right beside them.

use nathiroeng::{REPLAY_MEMORY_BYTES, REPLAY_TABLE_WORDS};
use second::fence::{Config, Entry, SLOT_WORDS};
use second::gen;
use second::replay::BASE;
use second::rng::Rng;
use second::state::State;
use second::xlen::Xlen;

/// A slot's four words.
type Slot = [u64; SLOT_WORDS];

/// The used bit of a slot's word 0.
const USED: u64 = 1 << 63;

/// A state with a list and a table for it, from which the call for all entries and SRET are accepted; in
/// the sizes of a replay or of any size.
pub fn state(rng: &mut Rng, xlen: Xlen, is_replayed: bool) -> State {
    let mut state = gen::good_state(rng, xlen);
    state.hart.features = 6 | rng.pick(&[0, 1, 8, 9]);
    let mut slots = slot_count(rng);
    if is_replayed {
        slots = REPLAY_TABLE_WORDS / SLOT_WORDS;
        state.memory.base = BASE;
        state.memory.bytes.resize(REPLAY_MEMORY_BYTES, 0xFF);
        let places = (REPLAY_MEMORY_BYTES - xlen.page_size()) as u64 / 4096 + 1;
        state.hart.page = Some(BASE + 4096 * rng.below(places));
    }
    let list = list(rng, xlen);
    if let Some(parts) = state.parts() {
        list.iter().enumerate().for_each(|(number, entry)| entry.store(parts.page, number));
    }
    state.table = table(rng, &list, slots);
    state
}

/// The slots of a table: none, few, many or all that it can have.
fn slot_count(rng: &mut Rng) -> usize {
    let any = rng.below(257) as usize;
    rng.pick(&[0, 1, 2, 255, 256, 256, 256, any, any, any])
}

/// Which entries are pending: none, one or two, also at the ends, some, all but one, or all.
fn pending(rng: &mut Rng, count: usize) -> Vec<bool> {
    let last = count - 1;
    let [one, other] = [(); 2].map(|_| rng.below(count as u64) as usize);
    let pair = rng.pick(&[(0, 0), (last, last), (0, last), (one, one), (one, other)]);
    let share = rng.pick(&[2, 8, 32, 56]);
    match rng.below(16) {
        0 => vec![false; count],
        1..=4 => (0..count).map(|number| number == pair.0 || number == pair.1).collect(),
        5..=7 => (0..count).map(|_| rng.below(64) < share).collect(),
        8 | 9 => (0..count).map(|number| number != pair.1).collect(),
        _ => vec![true; count],
    }
}

/// A list of as many entries as the width has. Those that are pending name few slots, but for some; of
/// the others many name every slot.
fn list(rng: &mut Rng, xlen: Xlen) -> Vec<Entry> {
    let count = xlen.entry_count();
    let broad = rng.pick(&[0, 0, 0, 0, 0, 1, 4, 20]);
    let mut list = Vec::with_capacity(count);
    for is_pending in pending(rng, count) {
        let is_broad = if is_pending { rng.below(60) < broad } else { rng.one_in(2) };
        let entry = if is_broad { broad_entry(rng, xlen) } else { narrow_entry(rng, xlen) };
        list.push(if is_pending { entry.pending() } else { entry });
    }
    repeat(rng, &mut list);
    list
}

/// Lets some pending entries name much the same slots as others.
fn repeat(rng: &mut Rng, list: &mut [Entry]) {
    let pending: Vec<usize> = (0..list.len()).filter(|&number| list[number].is_pending()).collect();
    let most = pending.len() as u64;
    for _ in 0..rng.pick(&[0, most / 8, most / 2]) {
        let entry = list[rng.pick(&pending)];
        let [page_number, page_count] = [entry.page_number, entry.page_count]
            .map(|word| entry.xlen.cut(word.wrapping_add(rng.pick(&[0, 0, 1, u64::MAX]))));
        list[rng.pick(&pending)] = Entry { page_number, page_count, ..entry };
    }
}

/// A VMID or an ASID up to the greatest: near one of the ends, or any.
fn id(rng: &mut Rng, most: u64) -> u64 {
    let any = rng.bits() & most;
    rng.pick(&[0, 1, most - 1, most, any, any, any, any])
}

/// A page: a small one, one near the greatest that a word of the width or a slot holds, or any.
fn page(rng: &mut Rng, xlen: Xlen) -> u64 {
    let (near, any) = (rng.below(6), rng.bits());
    let last = xlen.ones().wrapping_sub(2).wrapping_add(near);
    rng.pick(&[near, last, u64::MAX - near, any, any, any >> 32, any >> 44])
}

/// An entry that can be read and names few slots of the tables here: those of one VMID, or of a range
/// that is short or goes up to the last page.
fn narrow_entry(rng: &mut Rng, xlen: Xlen) -> Entry {
    let config = Config::at(xlen);
    let kind = rng.pick(&[0, 0, 2, 2, 3, 4, 4, 5, 6, 6, 6, 7]);
    let order = match kind {
        0 => rng.pick(&[0, 0, 1, 2, 9, 18, 27, 44, 51]),
        _ => rng.pick(&[0, 0, 0, 1, 2, 9, 18, 32, 44, 52, 60, 63, 64, 65, 127]),
    };
    let (vmid, asid) = (id(rng, config.vmid.most), id(rng, config.asid.most));
    let few = rng.pick(&[0, 1, 1, 1, 2, 3]);
    let (page, page_count) = if rng.one_in(4) {
        (u64::MAX, rng.pick(&[few, xlen.ones(), xlen.ones() - few, xlen.ones() / 2 + 1]))
    } else {
        (page(rng, xlen), few)
    };
    let block = page.checked_shr(order as u32).unwrap_or(0);
    let block = rng.pick(&[block, block, block.wrapping_sub(1), block.wrapping_add(1)]);
    let config = config.word(kind, order, vmid, asid);
    Entry { xlen, config, page_number: xlen.cut(block), reserved: 0, page_count }
}

/// The reserved bits of Config, by the papers and not by the second program.
pub fn reserved_bits(xlen: Xlen) -> Vec<u32> {
    match xlen {
        Xlen::X32 => vec![23, 28, 29, 30],
        Xlen::X64 => [55, 60, 61, 62].into_iter().chain(30..48).collect(),
    }
}

/// An entry that names every used slot, or may name many.
fn broad_entry(rng: &mut Rng, xlen: Xlen) -> Entry {
    let config = Config::at(xlen);
    let entry = gen::entry(rng, xlen, false);
    let with_kind = |kind: u64| {
        entry.config & !config.kind.holding(config.kind.most) | config.kind.holding(kind)
    };
    let bits = u64::from(xlen.bits());
    match rng.below(8) {
        0 | 1 => Entry { config: with_kind(1), ..entry },
        2 => Entry { config: with_kind(8 + rng.below(8)), ..entry },
        3 => Entry { config: with_kind(0), page_number: 0, page_count: xlen.ones(), ..entry },
        4 => Entry { reserved: 1 << rng.below(bits), ..entry },
        5 => Entry { config: entry.config | 1 << rng.pick(&reserved_bits(xlen)), ..entry },
        _ => entry,
    }
}

/// A table of so many slots for a list, all, most, few or none of them used; sometimes the list names all
/// that are used, or none of them.
fn table(rng: &mut Rng, list: &[Entry], slots: usize) -> Vec<u64> {
    let pending: Vec<Entry> = list.iter().copied().filter(Entry::is_pending).collect();
    let unused = rng.pick(&[0, 0, 0, 0, 1, 2, 4, 8, 14, 16]);
    let wanted = rng.pick(&[None, None, None, None, None, None, Some(false), Some(true)]);
    let mut table = Vec::with_capacity(SLOT_WORDS * slots);
    for _ in 0..slots {
        let aims = if pending.is_empty() || rng.one_in(8) { list } else { &pending };
        let mut slot = used_slot(rng, aims);
        let is_named = || pending.iter().any(|entry| entry.names(&slot));
        if wanted.is_some_and(|wanted| is_named() != wanted) || rng.below(16) < unused {
            slot[0] &= !USED;
            slot = rng.pick(&[slot, slot, [0; SLOT_WORDS]]);
        }
        table.extend(slot);
    }
    table
}

/// A used slot: mostly one that is aimed at an entry; any; or the used bit alone.
fn used_slot(rng: &mut Rng, aims: &[Entry]) -> Slot {
    let entry = rng.pick(aims);
    match rng.below(16) {
        0 => [USED, 0, 0, 0],
        1 => gen::slot(rng, entry.xlen),
        _ => aimed_slot(rng, &entry),
    }
}

/// A used slot that the entry names, or that misses it by bits of an id, by the global bit or by a page.
/// Bits of word 0 that mean nothing are sometimes set.
fn aimed_slot(rng: &mut Rng, entry: &Entry) -> Slot {
    let flipped = |rng: &mut Rng, bits: u64| match rng.below(24) {
        0 => (1 << bits) - 1,
        1 | 2 => 1 << rng.below(bits),
        _ => 0,
    };
    let (vmid, asid) = (entry.vmid() ^ flipped(rng, 14), entry.asid() ^ flipped(rng, 16));
    let global = u64::from(rng.one_in(5)) << 62;
    let (one, some) = (1 << (30 + rng.below(32)), rng.bits() >> 2 & !0x3FFF_FFFF);
    let idle = rng.pick(&[0, 0, 0, 0, 1 << 61, one, some]);
    let [virtual_page, physical_page] = [(); 2].map(|_| aimed_page(rng, entry));
    [USED | global | idle | vmid << 16 | asid, virtual_page, physical_page, rng.bits()]
}

/// A page of the entry's range: its first, its last or any; or the one before or after it; or another.
fn aimed_page(rng: &mut Rng, entry: &Entry) -> u64 {
    let end_of_pages = 1 << 64;
    // Where a block begins; one of 2^64 pages or more is the only one.
    let begin = |block: u128| match entry.order() {
        order @ 0..64 => block.min(end_of_pages) << order,
        _ => block.min(1) << 64,
    };
    let number = u128::from(entry.page_number);
    let first = begin(number);
    let end = begin(number + u128::from(entry.page_count));
    let last = end.min(end_of_pages).wrapping_sub(1);
    let any = first + u128::from(rng.bits()) % (end - first).max(1);
    let other = page(rng, entry.xlen).into();
    rng.pick(&[first, first, last, last, first.wrapping_sub(1), end, any, other]) as u64
}
