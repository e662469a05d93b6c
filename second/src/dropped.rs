//! Dropped bits: what a register does not take of a word that a call or a trap writes to it.

use crate::csr::{self, Csr};
use crate::hart::Hart;

/// The report of a write with dropped bits: the register's number, and the bits of the word given
/// that differ from the register's reading right after this write, also those given 0 that read 1.
#[derive(Clone, Copy, PartialEq, Eq, Debug)]
pub struct Report {
    pub csr: u64,
    pub bits: u64,
}

/// Writes a word to the register. If bits of it are dropped, the record counts the write, up to
/// 2^32-1, and the report of them is given back.
pub fn write(hart: &mut Hart, csr: Csr, word: u64) -> Option<Report> {
    csr::write(hart, csr, word);
    let bits = word ^ csr::read(hart, csr);
    if bits == 0 {
        return None;
    }
    hart.dropped = hart.dropped.saturating_add(1);
    Some(Report { csr: csr.number(), bits })
}
