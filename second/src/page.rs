//! The layout of the shared page at both widths, its little-endian words and its dirty bits.

use crate::csr::Csr;
use crate::xlen::Xlen;

/// Where the autoswap flags lie.
pub const AUTOSWAP_FLAGS: usize = 0x200;

/// Where the fence entries begin.
pub const ENTRIES: usize = 0x800;

/// Where the dirty bitmap begins.
pub const BITMAP: usize = 0xF80;

/// Where the register words begin.
pub const WORDS: usize = 0x1000;

/// The little-endian word at a byte offset.
pub fn word(xlen: Xlen, page: &[u8], offset: usize) -> u64 {
    match xlen {
        Xlen::X32 => u32::from_le_bytes(bytes_at(page, offset)).into(),
        Xlen::X64 => u64::from_le_bytes(bytes_at(page, offset)),
    }
}

/// The bytes at an offset.
fn bytes_at<const N: usize>(page: &[u8], offset: usize) -> [u8; N] {
    let mut bytes = [0; N];
    bytes.copy_from_slice(&page[offset..offset + N]);
    bytes
}

/// Stores a little-endian word at a byte offset: as many low bits of the value as it has.
pub fn set_word(xlen: Xlen, page: &mut [u8], offset: usize, value: u64) {
    match xlen {
        Xlen::X32 => page[offset..offset + 4].copy_from_slice(&(value as u32).to_le_bytes()),
        Xlen::X64 => page[offset..offset + 8].copy_from_slice(&value.to_le_bytes()),
    }
}

/// The index, 0 to 1,023, of the register with this number.
pub fn index_of_number(number: u64) -> usize {
    (((number & 0xC00) >> 2) | (number & 0xFF)) as usize
}

/// The byte offset of the word with this index.
pub fn word_offset(xlen: Xlen, index: usize) -> usize {
    WORDS + xlen.bytes() * index
}

/// The byte offset of the dirty bit with this index, and its place in that byte.
pub fn bit_place(index: usize) -> (usize, u32) {
    (BITMAP + index / 8, (index % 8) as u32)
}

/// The word of a register.
pub fn csr_word(xlen: Xlen, page: &[u8], csr: Csr) -> u64 {
    word(xlen, page, word_offset(xlen, index_of_number(csr.number())))
}

/// Stores the word of a register.
pub fn set_csr_word(xlen: Xlen, page: &mut [u8], csr: Csr, value: u64) {
    set_word(xlen, page, word_offset(xlen, index_of_number(csr.number())), value);
}

/// Whether the dirty bit of a register is set.
pub fn is_dirty(page: &[u8], csr: Csr) -> bool {
    let (byte, bit) = bit_place(index_of_number(csr.number()));
    (page[byte] >> bit) & 1 == 1
}

/// Sets the dirty bit of a register, as the hypervisor does.
pub fn set_dirty(page: &mut [u8], csr: Csr) {
    let (byte, bit) = bit_place(index_of_number(csr.number()));
    page[byte] |= 1 << bit;
}

/// Clears the dirty bit of a register.
pub fn clear_dirty(page: &mut [u8], csr: Csr) {
    let (byte, bit) = bit_place(index_of_number(csr.number()));
    page[byte] &= !(1 << bit);
}

/// The bytes of one fence entry, four words.
pub fn entry_size(xlen: Xlen) -> usize {
    4 * xlen.bytes()
}

/// The byte offset of a fence entry.
pub fn entry_offset(xlen: Xlen, entry: usize) -> usize {
    ENTRIES + entry_size(xlen) * entry
}

/// The page reader: the part of the page that is this entry; empty for an entry that is not
/// there and for a page of another length.
pub fn entry_part(xlen: Xlen, page: &[u8], entry: usize) -> &[u8] {
    if page.len() == xlen.page_size() && entry < xlen.entry_count() {
        &page[entry_offset(xlen, entry)..][..entry_size(xlen)]
    } else {
        &page[..0]
    }
}

/// The byte offset of the word of the SRET context that holds Xi.
pub fn context_offset(xlen: Xlen, i: usize) -> usize {
    xlen.bytes() * i
}

/// The byte offset of the swap word for hstatus, the word after the autoswap flags.
pub fn hstatus_swap(xlen: Xlen) -> usize {
    AUTOSWAP_FLAGS + xlen.bytes()
}
