//! What fence entries name, and their turns.

use second::calls::{ALL, SYNC_FENCE};
use second::fence::Entry;
use second::gen;
use second::rng::Rng;
use second::xlen::Xlen;

use crate::common::*;

/// Two VMIDs, two ASIDs, global or not, two pages for each address: 32 used slots.
fn many_slots() -> Vec<[u64; 4]> {
    let bit = |k: u64, at: u64| k >> at & 1;
    (0..32).map(|k| slot(bit(k, 0) == 1, bit(k, 1), bit(k, 2), bit(k, 3), bit(k, 4))).collect()
}

/// Each type removes exactly its slots; fields that are ignored play no part.
#[test]
fn each_type() {
    let slots = many_slots();
    for (kind, xlen) in (0..8).flat_map(|kind| Xlen::BOTH.map(|xlen| (kind, xlen))) {
        let mut state = state_with_slots_at(xlen, &slots);
        put_entry(&mut state, 0, pending_at(xlen, kind, 0, [1, 1], [1, 1]));
        assert_eq!(sync(&mut state, SYNC_FENCE, 0).code, 0);
        for (k, slot) in slots.iter().enumerate() {
            let global = slot[0] >> 62 & 1 == 1;
            let vmid = slot[0] >> 16 & 0x3FFF == 1;
            let asid = slot[0] & 0xFFFF == 1;
            let removed = match kind {
                0 => slot[2] == 1,
                1 => true,
                2 => vmid && slot[2] == 1,
                3 => vmid,
                4 => vmid && slot[1] == 1,
                5 => vmid,
                6 => vmid && asid && !global && slot[1] == 1,
                _ => vmid && asid && !global,
            };
            let expected = if removed { [0; 4] } else { *slot };
            assert_eq!(state.table[4 * k..4 * k + 4], expected, "type {kind} slot {k}");
        }
    }
}

/// The reserved bits of Config, copied from the paper.
fn reserved_bits(xlen: Xlen) -> Vec<u32> {
    match xlen {
        Xlen::X32 => vec![28, 29, 30, 23],
        Xlen::X64 => [60, 61, 62, 55].into_iter().chain(30..48).collect(),
    }
}

/// Pending entries with a reserved bit, a nonzero word 2 or an unknown type.
fn unreadable(xlen: Xlen, base: Entry) -> Vec<Entry> {
    let with_bit = |bit: u32| Entry { config: base.config | 1 << bit, ..base };
    let with_word_2 = |bit: u32| Entry { reserved: 1 << bit, ..base };
    let with_type = |kind: u64| pending_at(xlen, kind, 0, [9, 9], [0, 0]);
    let mut entries: Vec<Entry> = reserved_bits(xlen).into_iter().map(with_bit).collect();
    entries.extend((0..xlen.bits()).map(with_word_2));
    entries.extend((8..16).map(with_type));
    entries
}

/// An entry with any reserved bit, a nonzero word 2 or an unknown type names every used slot.
#[test]
fn unreadable_entries() {
    for xlen in Xlen::BOTH {
        // Type 7 with a VMID and an ASID that no slot has: readable, it names nothing.
        let base = pending_at(xlen, 7, 0, [9, 9], [0, 0]);
        let unused = [0x7FFF_FFFF_FFFF_FFFF, 1, 1, 1];
        let start = state_with_slots_at(xlen, &[many_slots(), vec![unused]].concat());
        let mut readable = start.clone();
        put_entry(&mut readable, 0, base);
        sync(&mut readable, SYNC_FENCE, 0);
        assert_eq!(readable.table, start.table);
        for entry in unreadable(xlen, base) {
            assert!(!entry.is_readable());
            let mut state = start.clone();
            put_entry(&mut state, 9, entry);
            assert_eq!(sync(&mut state, SYNC_FENCE, ALL).code, 0);
            assert!(state.table[..128].iter().all(|&word| word == 0));
            assert_eq!(state.table[128..], unused);
            let done = entry.config & !(1 << (xlen.bits() - 1));
            assert_eq!(get_entry(&state, 9), Entry { config: done, ..entry });
        }
    }
}

/// Every bit of Config that is not reserved leaves an entry readable, whatever the type.
#[test]
fn readable_bits() {
    for (xlen, vmid, asid) in [(Xlen::X32, 0x7F, 0x1FF), (Xlen::X64, 0x3FFF, 0xFFFF)] {
        for kind in 0..8 {
            let all = pending_at(xlen, kind, 127, [vmid, asid], [xlen.ones(); 2]);
            assert!(all.is_readable() && all.is_pending());
            assert_eq!((all.kind(), all.order(), all.vmid(), all.asid()), (kind, 127, vmid, asid));
        }
        let reserved: u64 = reserved_bits(xlen).into_iter().map(|bit| 1 << bit).sum();
        let fields = pending_at(xlen, 15, 127, [vmid, asid], [0, 0]).config;
        assert_eq!((fields | reserved, fields & reserved), (xlen.ones(), 0));
    }
}

/// An entry that is not pending does nothing, readable or not.
#[test]
fn not_pending() {
    for (reserved, xlen) in [0, 1].map(|word| Xlen::BOTH.map(|xlen| (word, xlen))).concat() {
        let mut state = state_with_slots_at(xlen, &many_slots());
        let config = 1 << (xlen.bits() - 8);
        let entry = Entry { xlen, config, page_number: 0, reserved, page_count: 0 };
        put_entry(&mut state, 0, entry);
        let start = state.clone();
        assert_eq!(sync(&mut state, SYNC_FENCE, 0).code, 0);
        assert_eq!(sync(&mut state, SYNC_FENCE, ALL).code, 0);
        assert_eq!(state, start);
    }
}

/// A single call serves its own entry only.
#[test]
fn single_entry() {
    for xlen in Xlen::BOTH {
        let slots = [slot(false, 1, 0, 0, 0), slot(false, 2, 0, 0, 0)];
        let mut state = state_with_slots_at(xlen, &slots);
        put_entry(&mut state, 10, pending_at(xlen, 3, 0, [1, 0], [0, 0]));
        put_entry(&mut state, 11, pending_at(xlen, 3, 0, [2, 0], [0, 0]));
        sync(&mut state, SYNC_FENCE, 11);
        assert_eq!(used(&state), [true, false]);
        assert!(get_entry(&state, 10).is_pending());
        assert!(!get_entry(&state, 11).is_pending());
    }
}

/// Whether a page is in range, by cutting the range up into single blocks or comparing ends.
fn in_range_by_ends(entry: &Entry, number: u64) -> bool {
    let order = entry.order() as u32;
    // Above 2^64 pages to a block, only block 0 holds any page.
    if order >= 64 {
        return entry.page_number == 0 && entry.page_count > 0;
    }
    let block = number >> order;
    let distance = block.checked_sub(entry.page_number);
    distance.is_some_and(|distance| distance < entry.page_count)
}

/// Ranges agree with a second way of telling them, on random entries and pages.
#[test]
fn ranges() {
    for xlen in Xlen::BOTH {
        let mut rng = Rng::new(4);
        let mut inside = 0;
        for _ in 0..200_000 {
            let entry = gen::entry(&mut rng, xlen, true);
            let number = gen::slot(&mut rng, xlen)[1];
            let found = entry.in_range(number);
            assert_eq!(found, in_range_by_ends(&entry, number), "{entry:x?} {number:x}");
            inside += u32::from(found);
        }
        assert!(inside > 20_000 && inside < 180_000, "{inside}");
    }
}

/// Orders of 64 and above put every page in block 0.
#[test]
fn large_orders() {
    for order in [64, 65, 100, 127] {
        assert!(pending(0, order, 0, 0, 0, 1).in_range(u64::MAX));
        assert!(!pending(0, order, 0, 0, 1, 5).in_range(u64::MAX));
        assert!(!pending(0, order, 0, 0, 0, 0).in_range(0));
    }
    assert!(pending(0, 63, 0, 0, 1, 1).in_range(1 << 63));
    assert!(pending(0, 0, 0, 0, 1, u64::MAX).in_range(u64::MAX));
    assert!(!pending(0, 0, 0, 0, 1, u64::MAX).in_range(0));
}
