//! The shared page as an array, so that its constant places need no tests of bounds.

use super::words::{INDEX, MARKS};

/// The bytes of a page at width 64.
pub type Page = [u8; 12_288];

/// The bytes of a page at width 32.
pub type NarrowPage = [u8; 8192];

/// Where the flags of autoswap and the swap word of hstatus lie.
pub const FLAGS: usize = 0x200;
pub const SWAP: usize = 0x208;

/// Where the fence entries, the dirty bitmap and the register words begin.
pub const ENTRIES: usize = 0x800;
pub const BITMAP: usize = 0xF80;
const WORDS: usize = 0x1000;

/// The page of N bytes at this address, if it lies wholly in memory.
#[inline(always)]
pub fn find<const N: usize>(memory: &mut [u8], base: u64, address: u64) -> Option<&mut [u8; N]> {
    let start = usize::try_from(address.checked_sub(base)?).ok()?;
    memory.get_mut(start..)?.first_chunk_mut()
}

/// The little-endian word at an offset.
#[inline(always)]
pub fn word<const N: usize>(bytes: &[u8; N], at: usize) -> u64 {
    let mut word = [0; 8];
    word.copy_from_slice(&bytes[at..at + 8]);
    u64::from_le_bytes(word)
}

/// The little-endian word of width 32 at an offset.
#[inline(always)]
pub fn narrow_word<const N: usize>(bytes: &[u8; N], at: usize) -> u64 {
    let mut word = [0; 4];
    word.copy_from_slice(&bytes[at..at + 4]);
    u64::from(u32::from_le_bytes(word))
}

/// Stores a little-endian word at an offset.
#[inline(always)]
pub fn set_word(page: &mut Page, at: usize, value: u64) {
    page[at..at + 8].copy_from_slice(&value.to_le_bytes());
}

/// The word of the register with this turn.
#[inline(always)]
pub fn csr_word(page: &Page, t: usize) -> u64 {
    word(page, WORDS + 8 * INDEX[t])
}

/// Stores the word of the register with this turn.
#[inline(always)]
pub fn set_csr_word(page: &mut Page, t: usize, value: u64) {
    set_word(page, WORDS + 8 * INDEX[t], value);
}

/// Whether the dirty bit of the register with this turn is set.
#[inline(always)]
pub fn is_dirty(page: &Page, t: usize) -> bool {
    page[BITMAP + INDEX[t] / 8] & (1 << (INDEX[t] % 8)) != 0
}

/// Sets the dirty bit of the register with this turn.
#[inline(always)]
pub fn set_dirty(page: &mut Page, t: usize) {
    page[BITMAP + INDEX[t] / 8] |= 1 << (INDEX[t] % 8);
}

/// Clears the dirty bit of the register with this turn.
#[inline(always)]
pub fn clear_dirty(page: &mut Page, t: usize) {
    page[BITMAP + INDEX[t] / 8] &= !(1 << (INDEX[t] % 8));
}

/// Whether an implemented register is dirty.
#[inline(always)]
pub fn any_dirty(page: &Page) -> bool {
    let mut marks = 0;
    for (number, mask) in MARKS.iter().enumerate() {
        marks |= word(page, BITMAP + 8 * number) & mask;
    }
    marks != 0
}
