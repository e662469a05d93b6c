//! Small parts that the tests share.

use nathiroeng::{Hart, Xlen};

/// Both widths.
pub const WIDTHS: [Xlen; 2] = [Xlen::X32, Xlen::X64];

/// Where memory and the page begin.
pub const BASE: u64 = 0x8000_0000;

/// A fresh hart with all features and its page set.
pub fn hart(xlen: Xlen) -> Hart {
    let mut hart = Hart::fresh(xlen, 15);
    hart.set_page(Some(BASE));
    hart
}

/// A page of zero bytes.
pub fn page(xlen: Xlen) -> Vec<u8> {
    vec![0; xlen.page_bytes()]
}

/// The little-endian word at an offset.
pub fn word(xlen: Xlen, page: &[u8], offset: usize) -> u64 {
    let mut bytes = [0; 8];
    let size = xlen.word_bytes();
    bytes[..size].copy_from_slice(&page[offset..offset + size]);
    u64::from_le_bytes(bytes)
}

/// Stores a little-endian word at an offset: as many low bytes as the width has.
pub fn put(xlen: Xlen, page: &mut [u8], offset: usize, word: u64) {
    let size = xlen.word_bytes();
    page[offset..offset + size].copy_from_slice(&word.to_le_bytes()[..size]);
}

/// The index of a register's word and dirty bit.
pub fn index(csr: usize) -> usize {
    ((csr & 0xC00) >> 2) | (csr & 0xFF)
}

/// Writes a register's word and marks it dirty.
pub fn mark(xlen: Xlen, page: &mut [u8], csr: usize, word: u64) {
    put(xlen, page, 0x1000 + xlen.word_bytes() * index(csr), word);
    page[0xF80 + index(csr) / 8] |= 1 << (index(csr) % 8);
}

/// A register's word.
pub fn csr(xlen: Xlen, page: &[u8], csr: usize) -> u64 {
    word(xlen, page, 0x1000 + xlen.word_bytes() * index(csr))
}

/// Stores an entry's words Config, Page_Number and Page_Count; the word between is zero.
pub fn fence(xlen: Xlen, page: &mut [u8], entry: usize, words: [u64; 3]) {
    let size = xlen.word_bytes();
    let [config, number, count] = words;
    for (place, word) in [config, number, 0, count].into_iter().enumerate() {
        put(xlen, page, 0x800 + 4 * size * entry + size * place, word);
    }
}

/// The Config word of an entry.
pub fn config(xlen: Xlen, page: &[u8], entry: usize) -> u64 {
    word(xlen, page, 0x800 + 4 * xlen.word_bytes() * entry)
}
