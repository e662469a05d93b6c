//! Fence entries: each is decoded into a test of two comparisons.

use super::page::{self, BITMAP, ENTRIES};
use super::Budget;

/// The words of a slot.
pub type Slot = [u64; 4];

/// The bytes of an entry at width 64, and at width 32.
pub const WIDE: usize = 32;
pub const NARROW: usize = 16;

/// The bits of Config that must be zero: 62:60, a Type above 7, 55 and 47:30.
const UNREADABLE: u64 = (0xF << 59) | (1 << 55) | (0x3_FFFF << 30);

/// The bits of a slot's word 0, with the same places of VMID and ASID as in Config.
const USED: u64 = 1 << 63;
const GLOBAL: u64 = 1 << 62;
const VMID: u64 = 0x3FFF << 16;
const ASID: u64 = 0xFFFF;

/// A range of pages: the first, and how many more there are.
#[derive(Clone, Copy)]
struct Range {
    first: u64,
    more: u64,
}

/// The pages p with number <= p div 2^order < number + count, if there are any.
#[inline(always)]
fn range(order: u64, number: u64, count: u64) -> Option<Range> {
    if count == 0 {
        return None;
    }
    if order >= 64 {
        return (number == 0).then_some(Range { first: 0, more: u64::MAX });
    }
    let top = u64::MAX >> order;
    if number > top {
        return None;
    }
    let last = number.saturating_add(count - 1).min(top);
    let first = number << order;
    Some(Range { first, more: ((last << order) | !(u64::MAX << order)) - first })
}

/// What an entry asks of a slot: these bits of word 0 under the mask and, if a word is chosen,
/// a page in the range.
struct Test<const WORD: usize> {
    mask: u64,
    bits: u64,
    range: Range,
}

impl<const WORD: usize> Test<WORD> {
    /// Removes each slot that passes; false if the steps ran out. A function of its own, so that
    /// every call has the same loop.
    #[inline(never)]
    fn remove<B: Budget>(self, table: &mut [Slot], steps: &mut B) -> bool {
        let Test { mask, bits, range: Range { first, more } } = self;
        for slot in table {
            if slot[0] & mask != bits {
                continue;
            }
            if WORD != 0 && slot[WORD].wrapping_sub(first) > more {
                continue;
            }
            if !steps.step() {
                return false;
            }
            *slot = [0; 4];
        }
        true
    }
}

/// Config of width 32 with its fields where width 64 has them.
#[inline(always)]
fn widened(config: u64) -> u64 {
    (config & 0xFFFF_0000) << 32 | (config & 0xFE00) << 7 | (config & 0x1FF)
}

/// The four words of an entry of either width, Config as at width 64.
#[inline(always)]
fn words<const N: usize>(entry: &[u8; N]) -> [u64; 4] {
    if N == WIDE {
        return [0, 8, 16, 24].map(|at| page::word(entry, at));
    }
    let [config, number, reserved, count] = [0, 4, 8, 12].map(|at| page::narrow_word(entry, at));
    [widened(config), number, reserved, count]
}

/// Removes the slots that an entry names; false if the steps ran out.
#[inline(always)]
fn remove_named<const N: usize, B: Budget>(
    entry: &[u8; N],
    table: &mut [Slot],
    steps: &mut B,
) -> bool {
    let [config, number, reserved, count] = words(entry);
    let nothing = Range { first: 0, more: 0 };
    if config & UNREADABLE != 0 || reserved != 0 {
        return Test::<0> { mask: USED, bits: USED, range: nothing }.remove(table, steps);
    }
    let kind = (config >> 56) & 7;
    let (mask, given) = match kind {
        0 | 1 => (USED, 0),
        2..=5 => (USED | VMID, VMID),
        _ => (USED | GLOBAL | VMID | ASID, VMID | ASID),
    };
    let bits = USED | (config & given);
    if kind % 2 == 1 {
        return Test::<0> { mask, bits, range: nothing }.remove(table, steps);
    }
    let order = (config >> 48) & 0x7F;
    match range(order, number, count) {
        None => true,
        Some(range) if kind < 4 => Test::<2> { mask, bits, range }.remove(table, steps),
        Some(range) => Test::<1> { mask, bits, range }.remove(table, steps),
    }
}

/// An entry's turn; false if the steps ran out.
#[inline(always)]
fn take<const N: usize, B: Budget>(entry: &mut [u8; N], table: &mut [Slot], steps: &mut B) -> bool {
    let last = N / 4 - 1; // of Config
    if entry[last] & 0x80 == 0 {
        return true;
    }
    if !remove_named(entry, table, steps) || !steps.step() {
        return false;
    }
    entry[last] &= 0x7F;
    true
}

/// The turns of one entry, which the page has, or of all, where an entry has N bytes; false if the
/// steps ran out.
#[inline(always)]
pub fn turns<const N: usize, B: Budget>(
    only: Option<usize>,
    page: &mut [u8],
    table: &mut [u64],
    steps: &mut B,
) -> bool {
    let entries = page[ENTRIES..BITMAP].as_chunks_mut::<N>().0;
    let slots = table.as_chunks_mut().0;
    let chosen = match only {
        Some(number) => &mut entries[number..=number],
        None => entries,
    };
    for entry in chosen {
        if !take(entry, slots, steps) {
            return false;
        }
    }
    true
}
