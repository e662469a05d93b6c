//! What the monitor lends to a call: the record, L1 memory and the translation table.

use crate::csr::{self, Csr};
use crate::dropped::{self, Report};
use crate::hart::Hart;
use crate::page;
use crate::xlen::Xlen;

/// L1 memory: bytes, and the physical address of the first.
#[derive(Clone, PartialEq, Eq, Debug)]
pub struct Memory {
    pub base: u64,
    pub bytes: Vec<u8>,
}

impl Memory {
    /// Where a page of the width at this address begins among the bytes, if it lies wholly in
    /// memory.
    pub fn find_page(&self, xlen: Xlen, address: u64) -> Option<usize> {
        let first = u128::from(self.base);
        let end = first + self.bytes.len() as u128;
        let start = u128::from(address);
        if first <= start && start + xlen.page_size() as u128 <= end {
            Some((address - self.base) as usize)
        } else {
            None
        }
    }
}

/// A hart record with the memory and the table that go with it.
#[derive(Clone, PartialEq, Eq, Debug)]
pub struct State {
    pub hart: Hart,
    pub memory: Memory,
    pub table: Vec<u64>,
}

impl State {
    /// Where the shared page begins in memory, if one is set and lies wholly in memory.
    pub fn page_start(&self) -> Option<usize> {
        self.memory.find_page(self.hart.xlen, self.hart.page?)
    }

    /// The shared page, if one is set and lies wholly in memory.
    pub fn page(&self) -> Option<&[u8]> {
        let start = self.page_start()?;
        Some(&self.memory.bytes[start..][..self.hart.xlen.page_size()])
    }

    /// The three parts that a synchronization works on, if the page lies in memory.
    pub fn parts(&mut self) -> Option<Parts<'_>> {
        let start = self.page_start()?;
        let size = self.hart.xlen.page_size();
        Some(Parts {
            hart: &mut self.hart,
            page: &mut self.memory.bytes[start..][..size],
            table: &mut self.table,
            reports: Vec::new(),
        })
    }

    /// Check 1: the table has whole slots, at most 256, and the record is well made.
    pub fn passes_check_1(&self) -> bool {
        self.table.len().is_multiple_of(4) && self.table.len() <= 1024 && self.hart.is_well_made()
    }
}

/// The record, the shared page and the table, lent for changing.
pub struct Parts<'a> {
    pub hart: &'a mut Hart,
    pub page: &'a mut [u8],
    pub table: &'a mut [u64],
    /// The reports of the register writes made on these parts, in the order of the writes.
    pub reports: Vec<Report>,
}

impl Parts<'_> {
    /// Writes a register from its word.
    pub fn write_from_word(&mut self, csr: Csr) {
        self.write(csr, page::csr_word(self.hart.xlen, self.page, csr));
    }

    /// Writes a word to a register, and adds the report of dropped bits, if there are any.
    fn write(&mut self, csr: Csr, word: u64) {
        self.reports.extend(dropped::write(self.hart, csr, word));
    }

    /// Stores the reading of a register in its word.
    pub fn store_reading(&mut self, csr: Csr) {
        page::set_csr_word(self.hart.xlen, self.page, csr, csr::read(self.hart, csr));
    }

    /// Stores the readings of those registers whose words are clean.
    pub fn store_clean_words(&mut self, registers: &[Csr]) {
        for &csr in registers {
            // Without feature 0 nobody looks at the bitmap, and every word is clean.
            if !self.hart.has_feature(0) || !page::is_dirty(self.page, csr) {
                self.store_reading(csr);
            }
        }
    }

    /// Swaps hstatus if feature 3 is present and the page's flag for it is set.
    pub fn autoswap(&mut self) {
        let flags = page::word(self.hart.xlen, self.page, page::AUTOSWAP_FLAGS);
        if self.hart.has_feature(3) && flags & 1 == 1 {
            self.swap_hstatus();
        }
    }

    /// Writes hstatus from the swap word, which gets the old reading.
    fn swap_hstatus(&mut self) {
        let xlen = self.hart.xlen;
        let place = page::hstatus_swap(xlen);
        let old = csr::read(self.hart, Csr::Hstatus);
        let new = page::word(xlen, self.page, place);
        self.write(Csr::Hstatus, new);
        page::set_word(xlen, self.page, place, old);
    }
}
