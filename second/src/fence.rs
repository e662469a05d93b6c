//! Fence entries: their fields, which are readable, and which table slots they name.

use crate::page;
use crate::xlen::Xlen;

/// The words of one table slot.
pub const SLOT_WORDS: usize = 4;

/// The bit of a slot's word 0 that says the slot is used.
const USED: u64 = 1 << 63;

/// The bit of a slot's word 0 that says the translation is global.
const GLOBAL: u64 = 1 << 62;

/// A field of a Config word: its lowest bit, and the greatest number that it holds.
#[derive(Clone, Copy, PartialEq, Eq, Debug)]
pub struct Field {
    pub low: u32,
    pub most: u64,
}

impl Field {
    /// What the field holds in a word.
    pub const fn of(self, word: u64) -> u64 {
        (word >> self.low) & self.most
    }

    /// A word with this number in the field, and zero elsewhere.
    pub const fn holding(self, number: u64) -> u64 {
        (number & self.most) << self.low
    }
}

/// The fields of a Config word.
#[derive(Clone, Copy, PartialEq, Eq, Debug)]
pub struct Config {
    pub pending: Field,
    pub kind: Field,
    pub order: Field,
    pub vmid: Field,
    pub asid: Field,
    /// The bits that must be zero.
    pub reserved: u64,
}

impl Config {
    /// The fields at width 32; bits 30:28 and 23 are reserved.
    const X32: Config = Config {
        pending: Field { low: 31, most: 1 },
        kind: Field { low: 24, most: 0xF },
        order: Field { low: 16, most: 0x7F },
        vmid: Field { low: 9, most: 0x7F },
        asid: Field { low: 0, most: 0x1FF },
        reserved: (7 << 28) | (1 << 23),
    };

    /// The fields at width 64; bits 62:60, 55 and 47:30 are reserved.
    const X64: Config = Config {
        pending: Field { low: 63, most: 1 },
        kind: Field { low: 56, most: 0xF },
        order: Field { low: 48, most: 0x7F },
        vmid: Field { low: 16, most: 0x3FFF },
        asid: Field { low: 0, most: 0xFFFF },
        reserved: (7 << 60) | (1 << 55) | (0x3_FFFF << 30),
    };

    /// The fields at a width.
    pub const fn at(xlen: Xlen) -> &'static Config {
        match xlen {
            Xlen::X32 => &Config::X32,
            Xlen::X64 => &Config::X64,
        }
    }

    /// The word with these numbers in its fields; Pending and the reserved bits are zero.
    pub const fn word(&self, kind: u64, order: u64, vmid: u64, asid: u64) -> u64 {
        self.kind.holding(kind)
            | self.order.holding(order)
            | self.vmid.holding(vmid)
            | self.asid.holding(asid)
    }
}

/// The four words of a fence entry as they stand in a page of the width.
#[derive(Clone, Copy, PartialEq, Eq, Debug)]
pub struct Entry {
    pub xlen: Xlen,
    pub config: u64,
    pub page_number: u64,
    pub reserved: u64,
    pub page_count: u64,
}

impl Entry {
    /// Reads an entry of the page.
    pub fn load(xlen: Xlen, page: &[u8], entry: usize) -> Entry {
        let part = page::entry_part(xlen, page, entry);
        let word = |place: usize| page::word(xlen, part, place * xlen.bytes());
        Entry {
            xlen,
            config: word(0),
            page_number: word(1),
            reserved: word(2),
            page_count: word(3),
        }
    }

    /// Stores an entry into a page of its width.
    pub fn store(&self, page: &mut [u8], entry: usize) {
        let at = page::entry_offset(self.xlen, entry);
        let words = [self.config, self.page_number, self.reserved, self.page_count];
        for (place, word) in words.into_iter().enumerate() {
            page::set_word(self.xlen, page, at + place * self.xlen.bytes(), word);
        }
    }

    /// The same entry, waiting to be carried out.
    pub fn pending(self) -> Entry {
        let config = self.config | Config::at(self.xlen).pending.holding(1);
        Entry { config, ..self }
    }

    /// Whether the entry waits to be carried out.
    pub fn is_pending(&self) -> bool {
        Config::at(self.xlen).pending.of(self.config) == 1
    }

    /// The field Type.
    pub fn kind(&self) -> u64 {
        Config::at(self.xlen).kind.of(self.config)
    }

    /// The field Order.
    pub fn order(&self) -> u64 {
        Config::at(self.xlen).order.of(self.config)
    }

    /// The field VMID.
    pub fn vmid(&self) -> u64 {
        Config::at(self.xlen).vmid.of(self.config)
    }

    /// The field ASID.
    pub fn asid(&self) -> u64 {
        Config::at(self.xlen).asid.of(self.config)
    }

    /// Whether no reserved bit is set, word 2 is zero and the type is known.
    pub fn is_readable(&self) -> bool {
        self.config & Config::at(self.xlen).reserved == 0 && self.reserved == 0 && self.kind() <= 7
    }

    /// Whether a page number lies in the entry's range, in whole numbers.
    pub fn in_range(&self, number: u64) -> bool {
        let block = u128::from(number) >> self.order();
        let first = u128::from(self.page_number);
        first <= block && block < first + u128::from(self.page_count)
    }

    /// Whether the entry names the slot; Pending plays no part in it. VMID and ASID are compared
    /// as numbers: a slot has room for more of them than an entry of width 32.
    pub fn names(&self, slot: &[u64]) -> bool {
        if slot[0] & USED == 0 {
            return false;
        }
        if !self.is_readable() {
            return true;
        }
        let same_vmid = (slot[0] >> 16) & 0x3FFF == self.vmid();
        let same_asid = slot[0] & 0xFFFF == self.asid();
        let is_global = slot[0] & GLOBAL != 0;
        match self.kind() {
            0 => self.in_range(slot[2]),
            1 => true,
            2 => same_vmid && self.in_range(slot[2]),
            3 => same_vmid,
            4 => same_vmid && self.in_range(slot[1]),
            5 => same_vmid,
            6 => same_vmid && same_asid && !is_global && self.in_range(slot[1]),
            _ => same_vmid && same_asid && !is_global,
        }
    }
}

/// Clears Pending of an entry; the other Config bits stay.
pub fn clear_pending(xlen: Xlen, page: &mut [u8], entry: usize) {
    let at = page::entry_offset(xlen, entry);
    let config = page::word(xlen, page, at);
    page::set_word(xlen, page, at, config & !Config::at(xlen).pending.holding(1));
}

/// An entry's turn: if it is pending, removes each slot it names, then clears Pending.
pub fn entry_turn(xlen: Xlen, page: &mut [u8], table: &mut [u64], number: usize) {
    let entry = Entry::load(xlen, page, number);
    if !entry.is_pending() {
        return;
    }
    for slot in table.chunks_exact_mut(SLOT_WORDS) {
        if entry.names(slot) {
            slot.fill(0);
        }
    }
    clear_pending(xlen, page, number);
}
