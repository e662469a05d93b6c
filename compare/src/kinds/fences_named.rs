//! What the entries of full lists name, by hand: ranges at their ends, global slots, VMIDs and ASIDs,
//! entries that cannot be read, and slots that are not used.

use second::fence::Entry;

use super::fences_by_hand::{full, leaves, listed, numbered, SLOTS};
use super::fences_drawn::reserved_bits;
use super::tickets::at;
use super::Result;
use crate::case::Case;
use crate::scene::*;

/// Full lists of which no entry names a slot: no page, other pages, another VMID or ASID, a range that
/// would wrap, and blocks after the last page.
pub fn none_named(case: &mut Case) -> Result {
    let ones = case.xlen.ones();
    for fields in [
        [0, 0, 5, 5, 0, 0],
        [0, 0, 5, 5, 64, ones],
        [2, 0, 6, 5, 0, ones],
        [3, 0, 6, 5, 0, ones],
        [4, 9, 5, 5, 1, ones],
        [5, 0, 4, 5, 0, ones],
        [6, 0, 5, 4, 0, ones],
        [6, 64, 5, 5, 1, ones],
        [6, 127, 5, 5, ones, ones],
        [6, 63, 5, 5, 2, ones],
        [0, 52, 5, 5, 4096, ones],
        [6, 0, 5, 5, ones, ones],
        [7, 0, 5, 6, 0, ones],
    ] {
        leaves(case, &full(case, &numbered(64), fields), &[true; SLOTS])?;
    }
    Ok(())
}

/// The page before a range, its first, its last and the one after it, for many entries at once, each
/// with pages of its own. The page that the type does not test is in the range where the other is not.
pub fn ends_of_ranges(case: &mut Case) -> Result {
    let step = at(case, 2, 1);
    for shift in 0..4 {
        let (mut slots, mut fences) = (Vec::new(), Vec::new());
        for e in 0..60 {
            let (kind, order) = ([0, 2, 4, 6][(e + shift) % 4], [0, 1, 3, 9, 12][e % 5]);
            let number = ((e as u64 + 1) << 20 >> order) + 5;
            let (first, end) = (number << order, (number + 3) << order);
            let pages = [(first - 1, first), (first, end), (end - 1, end), (end, first)];
            slots.extend(pages.map(|(page, other)| match kind {
                0 | 2 => slot(false, 5, 5, other, page),
                _ => slot(false, 5, 5, page, other),
            }));
            fences.push([kind, order, 5, 5, number, 3]);
        }
        let mut state = listed(case, &slots);
        for (e, fields) in fences.into_iter().enumerate() {
            put(&mut state, step * (e + 1) - 1, fields);
        }
        leaves(case, &state, &[true, false, false, true].repeat(60))?;
    }
    Ok(())
}

/// Ranges with more pages than there are: up to the last page, and not again from page 0 on.
pub fn up_to_the_last_page(case: &mut Case) -> Result {
    let (step, mut slots, mut left) = (at(case, 2, 1), Vec::new(), Vec::new());
    let order = |e: u64| if step == 2 { 32 + e % 32 } else { e };
    for e in 0..60 {
        let first = u64::MAX >> order(e) << order(e);
        let pages = [0, first - 1, first, u64::MAX];
        slots.extend(pages.map(|page| slot(false, 1 + e, 5, page, page)));
        left.extend([true, true, false, false]);
    }
    for (shift, count) in [(0, 1), (1, 2), (2, case.xlen.ones()), (0, case.xlen.ones() - 1)] {
        let mut state = listed(case, &slots);
        for e in 0..60 {
            let kind = [2, 4, 6][(e as usize + shift) % 3];
            let fields = [kind, order(e), 1 + e, 5, u64::MAX >> order(e), count];
            put(&mut state, step * (e as usize + 1) - 1, fields);
        }
        leaves(case, &state, &left)?;
    }
    Ok(())
}

/// The first block of a great order: a quarter of all pages, half of them, and from Order 64 on all.
pub fn great_orders(case: &mut Case) -> Result {
    let slots = [0, u64::MAX >> 1, 1 << 63, u64::MAX].map(|page| slot(false, 5, 5, page, page));
    for kind in [0, 2, 4, 6] {
        for order in [62, 63, 64, 65, 100, 127] {
            let state = full(case, &slots, [kind, order, 5, 5, 0, 1]);
            leaves(case, &state, &[false, order < 63, order < 64, order < 64])?;
        }
    }
    Ok(())
}

/// Types 6 and 7 spare global slots, which bit 62 tells and no other bit; one entry more, of another
/// type, takes them.
pub fn global(case: &mut Case) -> Result {
    let last = case.xlen.entry_count() - 1;
    let own = slot(false, 5, 5, 3, 3);
    let marked = |bit: usize| [own[0] | 1 << bit, own[1], own[2], own[3]];
    let slots: Vec<[u64; 4]> = (30..62).chain([62; 32]).map(marked).collect();
    for kind in 0..8 {
        let mut state = listed(case, &slots);
        for number in 0..last {
            put(&mut state, number, [6 + number as u64 % 2, 0, 5, 5, 3, 1]);
        }
        put(&mut state, last, [kind, 0, 5, 5, 3, 1]);
        let left: Vec<bool> = (0..SLOTS).map(|s| kind >= 6 && s >= 32).collect();
        leaves(case, &state, &left)?;
    }
    Ok(())
}

/// Slots whose VMID or ASID differs in one bit, or in all, from that of the entries.
pub fn ids(case: &mut Case) -> Result {
    let most = at(case, (127, 511), (0x3FFF, 0xFFFF));
    for (vmid, asid) in [(0, 0), most, (most.0, 0), (0, most.1), (21, 170)] {
        let mut pairs = vec![(vmid, asid), (vmid ^ 0x3FFF, asid), (vmid, asid ^ 0xFFFF)];
        pairs.extend((0..14).map(|bit| (vmid ^ 1 << bit, asid)));
        pairs.extend((0..16).map(|bit| (vmid, asid ^ 1 << bit)));
        let slots: Vec<[u64; 4]> =
            pairs.iter().map(|pair| slot(false, pair.0, pair.1, 3, 3)).collect();
        for kind in 2..8 {
            let state = full(case, &slots, [kind, 0, vmid, asid, 3, 1]);
            let is_left = |pair: &(u64, u64)| pair.0 != vmid || (kind >= 6 && pair.1 != asid);
            leaves(case, &state, &pairs.iter().map(is_left).collect::<Vec<_>>())?;
        }
    }
    Ok(())
}

/// Entries that cannot be read: types above 7, each bit of word 2 and each reserved bit of Config.
fn unreadable_entries(case: &Case) -> Vec<Entry> {
    let entry = |kind| pending(case.xlen, [kind, 0, 100, 5, 99, 1]);
    let with_bit = |bit: u32| Entry { config: entry(7).config | 1 << bit, ..entry(7) };
    let mut entries: Vec<Entry> = (8..16).map(entry).collect();
    entries.extend((0..case.xlen.bits()).map(|bit| Entry { reserved: 1 << bit, ..entry(2) }));
    entries.extend(reserved_bits(case.xlen).into_iter().map(with_bit));
    entries
}

/// One entry that cannot be read, among many that name nothing, removes every used slot and no other.
pub fn unreadable(case: &mut Case) -> Result {
    let last = case.xlen.entry_count() - 1;
    let free = [u64::MAX >> 1, 3, 3, 3];
    let slots: Vec<[u64; 4]> =
        (0..64).map(|s| if s % 4 == 2 { free } else { slot(s % 3 == 0, s, s, s, s) }).collect();
    let left: Vec<bool> = (0..SLOTS).map(|s| s % 4 == 2).collect();
    for (entry, place) in unreadable_entries(case).iter().zip([0, 7, last].into_iter().cycle()) {
        let mut state = full(case, &slots, [0, 0, 0, 0, 99, 1]);
        entry.store(&mut state.memory.bytes, place);
        leaves(case, &state, &left)?;
    }
    Ok(())
}

/// Slots with the used bit alone belong to VMID 0, ASID 0 and pages 0; those with all bits but the used
/// one belong to no one.
pub fn used_bit(case: &mut Case) -> Result {
    let slots: Vec<[u64; 4]> =
        [[1 << 63, 0, 0, 0], [u64::MAX >> 1; 4], [0, 0, 0, 0], [0, 0, 0, 9]].repeat(16);
    for (kind, vmid, first) in
        [(0, 9, 0), (1, 9, 9), (2, 0, 0), (3, 0, 9), (4, 0, 0), (5, 0, 9), (6, 0, 0), (7, 0, 9)]
    {
        let state = full(case, &slots, [kind, 0, vmid, 0, first, 1]);
        leaves(case, &state, &[false, true, true, true].repeat(16))?;
    }
    Ok(())
}
