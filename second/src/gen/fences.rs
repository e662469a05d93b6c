//! Random fence entries of a width, and translation tables for them.

use crate::fence::{Config, Entry, SLOT_WORDS};
use crate::rng::Rng;
use crate::xlen::Xlen;

/// A page number from a small set, so that entries and slots often meet.
fn page_number(rng: &mut Rng, xlen: Xlen) -> u64 {
    match rng.below(8) {
        0 => rng.pick(&[511, 512, 1023, 1024]),
        // Slots can hold pages beyond the last that an entry of width 32 can name.
        1 if xlen == Xlen::X32 => xlen.ones() - 2 + rng.below(6),
        1 => xlen.ones() - rng.below(3),
        2 => (1 << (xlen.bits() - 12)) - 1 - rng.below(3),
        3 => rng.bits(),
        4 => rng.below(2048),
        _ => rng.below(8),
    }
}

/// The VMIDs and the ASIDs that entries have, small ones and the greatest.
fn entry_ids(xlen: Xlen) -> ([u64; 6], [u64; 5]) {
    let config = Config::at(xlen);
    ([0, 1, 1, 2, 5, config.vmid.most], [0, 1, 1, 7, config.asid.most])
}

/// A fence entry, pending or not, of any type, sometimes unreadable.
pub fn entry(rng: &mut Rng, xlen: Xlen, pending: bool) -> Entry {
    let (vmids, asids) = entry_ids(xlen);
    let order = rng.pick(&[0, 0, 0, 1, 2, 9, 9, 18, 52, 63, 64, 127]);
    let kind = rng.below(8);
    let mut config = Config::at(xlen).word(kind, order, rng.pick(&vmids), rng.pick(&asids));
    let block = page_number(rng, xlen).checked_shr(order as u32).unwrap_or(0);
    let count = rng.pick(&[0, 1, 1, 2, 4, 512, u64::MAX]);
    let mut reserved = 0;
    // So rare that some pages have none.
    if rng.one_in(2 * xlen.entry_count() as u64 / 5) {
        match rng.below(5) {
            0 => config |= 1 << (xlen.bits() as u64 - 4 + rng.below(3)),
            1 => config |= 1 << (xlen.bits() - 9),
            2 if xlen == Xlen::X64 => config |= 1 << (30 + rng.below(18)),
            3 => config |= Config::at(xlen).kind.holding(8),
            _ => reserved = 1 << rng.below(xlen.bits().into()),
        }
    }
    let page_number = match rng.below(4) {
        0 => block.saturating_sub(1),
        1 => block.saturating_add(1),
        _ => block,
    };
    let (page_number, page_count) = (xlen.cut(page_number), xlen.cut(count));
    let entry = Entry { xlen, config, page_number, reserved, page_count };
    if pending {
        entry.pending()
    } else {
        entry
    }
}

/// A used slot; the bits of word 0 that mean nothing are sometimes set. At width 32 its VMID and
/// its ASID may be numbers that no entry has.
pub fn slot(rng: &mut Rng, xlen: Xlen) -> [u64; SLOT_WORDS] {
    let global = if rng.one_in(4) { 1 << 62 } else { 0 };
    let junk = if rng.one_in(4) { rng.bits() & (0xFFFF_FFFF << 30) & !(3 << 62) } else { 0 };
    let (vmids, asids) = entry_ids(xlen);
    let (vmid, asid) = match xlen {
        Xlen::X32 if rng.one_in(8) => (rng.pick(&[1, 0x81, 0x3FFF]), rng.pick(&[1, 0x201, 0xFFFF])),
        _ => (rng.pick(&vmids), rng.pick(&asids)),
    };
    let head = (1 << 63) | global | junk | (vmid << 16) | asid;
    [head, page_number(rng, xlen), page_number(rng, xlen), rng.bits()]
}

/// A table of legal length: none, full or some slots, of which few, many or all are used.
pub fn table(rng: &mut Rng, xlen: Xlen) -> Vec<u64> {
    let slots = match rng.below(4) {
        0 => rng.pick(&[0, 1, 255]),
        1 => 256,
        _ => rng.below(257),
    };
    let spared = rng.pick(&[0, 1, 2, 10]);
    let mut table = Vec::new();
    for _ in 0..slots {
        if rng.below(11) >= spared {
            table.extend(slot(rng, xlen));
        } else if rng.one_in(2) {
            table.extend([0; SLOT_WORDS]);
        } else {
            table.extend([rng.bits() >> 1, rng.bits(), rng.bits(), rng.bits()]);
        }
    }
    table
}
