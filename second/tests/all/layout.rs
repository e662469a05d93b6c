//! The page's layout: index ranges, places that do not overlap, byte order.

use second::calls::{ALL, SYNC_CSR};
use second::csr::{self, Csr};
use second::fence::Entry;
use second::page;
use second::xlen::Xlen;

use crate::common::*;

/// The table of index ranges, first and last number with first and last index.
const RANGES: [(u64, u64, usize, usize); 10] = [
    (0x200, 0x2FF, 0x000, 0x0FF),
    (0x600, 0x67F, 0x100, 0x17F),
    (0x680, 0x6BF, 0x180, 0x1BF),
    (0x6C0, 0x6FF, 0x1C0, 0x1FF),
    (0xA00, 0xA7F, 0x200, 0x27F),
    (0xA80, 0xABF, 0x280, 0x2BF),
    (0xAC0, 0xAFF, 0x2C0, 0x2FF),
    (0xE00, 0xE7F, 0x300, 0x37F),
    (0xE80, 0xEBF, 0x380, 0x3BF),
    (0xEC0, 0xEFF, 0x3C0, 0x3FF),
];

/// Every number of every range has the index that the table gives it.
#[test]
fn index_ranges() {
    let mut seen = Vec::new();
    for (first, last, first_index, last_index) in RANGES {
        assert_eq!(last - first, (last_index - first_index) as u64);
        for number in first..=last {
            let index = page::index_of_number(number);
            assert_eq!(index, first_index + (number - first) as usize);
            seen.push(index);
        }
    }
    assert_eq!(seen, (0..1024).collect::<Vec<_>>());
}

/// The sizes that the width decides.
#[test]
fn sizes() {
    assert_eq!(Xlen::BOTH.map(Xlen::bits), [32, 64]);
    assert_eq!(Xlen::BOTH.map(Xlen::bytes), [4, 8]);
    assert_eq!(Xlen::BOTH.map(Xlen::page_size), [0x2000, 0x3000]);
    assert_eq!(Xlen::BOTH.map(Xlen::entry_count), [120, 60]);
    assert_eq!(Xlen::BOTH.map(Xlen::ones), [0xFFFF_FFFF, u64::MAX]);
    assert_eq!(Xlen::BOTH.map(page::entry_size), [16, 32]);
    for number in 0..0x4000 {
        let by_bits = Xlen::from_bits(number).map(Xlen::bits);
        assert_eq!(by_bits, [32, 64].into_iter().find(|&bits| u64::from(bits) == number));
        let by_size = Xlen::of_page_size(number as usize).map(Xlen::page_size);
        assert_eq!(by_size, [0x2000, 0x3000].into_iter().find(|&size| size as u64 == number));
    }
    assert_eq!(Xlen::from_bits(32 | 1 << 32), None);
}

/// The first and last places of entries, bitmap and words.
#[test]
fn places() {
    assert_eq!(page::bit_place(0), (0xF80, 0));
    assert_eq!(page::bit_place(7), (0xF80, 7));
    assert_eq!(page::bit_place(8), (0xF81, 0));
    assert_eq!(page::bit_place(1023), (0xFFF, 7));
    for (xlen, bytes) in [(Xlen::X32, 4), (Xlen::X64, 8)] {
        let last = xlen.entry_count() - 1;
        assert_eq!(page::entry_offset(xlen, 0), 0x800);
        assert_eq!(page::entry_offset(xlen, last) + page::entry_size(xlen), 0xF80);
        assert_eq!(page::word_offset(xlen, 0), 0x1000);
        assert_eq!(page::word_offset(xlen, 1023) + bytes, xlen.page_size());
        assert_eq!(page::context_offset(xlen, 1), bytes);
        assert_eq!(page::context_offset(xlen, 31), 31 * bytes);
        assert_eq!(page::AUTOSWAP_FLAGS, 0x200);
        assert_eq!(page::hstatus_swap(xlen), 0x200 + bytes);
    }
}

/// Words have their least byte first, and a store touches the bytes of the word alone.
#[test]
fn little_endian() {
    let mut bytes = [0; 16];
    page::set_word(Xlen::X64, &mut bytes, 4, 0x0102_0304_0506_0708);
    assert_eq!(bytes, [0, 0, 0, 0, 8, 7, 6, 5, 4, 3, 2, 1, 0, 0, 0, 0]);
    assert_eq!(page::word(Xlen::X64, &bytes, 4), 0x0102_0304_0506_0708);
    assert_eq!(page::word(Xlen::X64, &bytes, 5), 0x0001_0203_0405_0607);
    assert_eq!(page::word(Xlen::X32, &bytes, 4), 0x0506_0708);
    assert_eq!(page::word(Xlen::X32, &bytes, 12), 0);
    let mut bytes = [0xEE; 8];
    page::set_word(Xlen::X32, &mut bytes, 2, 0x9999_9999_0506_0708);
    assert_eq!(bytes, [0xEE, 0xEE, 8, 7, 6, 5, 0xEE, 0xEE]);
}

/// An entry's words follow each other in the page.
#[test]
fn entry_words() {
    let mut wide = small_state();
    let mut narrow = small_state_at(Xlen::X32);
    for k in 0..32 {
        wide.memory.bytes[0x800 + 32 * 2 + k] = k as u8;
        narrow.memory.bytes[0x800 + 16 * 2 + k] = k as u8;
    }
    let expected = Entry {
        xlen: Xlen::X64,
        config: 0x0706_0504_0302_0100,
        page_number: 0x0F0E_0D0C_0B0A_0908,
        reserved: 0x1716_1514_1312_1110,
        page_count: 0x1F1E_1D1C_1B1A_1918,
    };
    assert_eq!(get_entry(&wide, 2), expected);
    let expected = Entry {
        xlen: Xlen::X32,
        config: 0x0302_0100,
        page_number: 0x0706_0504,
        reserved: 0x0B0A_0908,
        page_count: 0x0F0E_0D0C,
    };
    assert_eq!(get_entry(&narrow, 2), expected);
    let mut copy = small_state_at(Xlen::X32);
    put_entry(&mut copy, 2, expected);
    assert_eq!(copy.memory.bytes[0x820..0x830], narrow.memory.bytes[0x820..0x830]);
    assert!(copy.memory.bytes[0x830..].iter().all(|&byte| byte == 0));
}

/// The page reader hands out the entry's part of the page, or an empty part.
#[test]
fn page_reader() {
    for (xlen, size, count) in [(Xlen::X32, 16, 120), (Xlen::X64, 32, 60)] {
        let page: Vec<u8> = (0..xlen.page_size()).map(|k| (k / 16) as u8).collect();
        for number in (0..300).chain([1 << 20, usize::MAX]) {
            let part = page::entry_part(xlen, &page, number);
            if number < count {
                let at = 0x800 + size * number;
                assert_eq!(part.as_ptr(), page[at..].as_ptr());
                assert_eq!(part.len(), size);
            } else {
                assert!(part.is_empty());
            }
        }
        for length in [0, 1, 0xF80, 8191, 8192, 8193, 12_287, 12_288, 12_289, 20_000] {
            let part_length = page::entry_part(xlen, &vec![0; length], 5).len();
            assert_eq!(part_length, if length == xlen.page_size() { size } else { 0 });
        }
    }
}

/// Setting and clearing a register's bit touches that bit alone.
#[test]
fn single_bits() {
    for csr in csr::REGISTERS {
        let (byte, bit) = page::bit_place(page::index_of_number(csr.number()));
        let mut zeros = vec![0u8; 0x2000];
        page::set_dirty(&mut zeros, csr);
        assert_eq!(zeros[byte], 1 << bit);
        assert_eq!(zeros.iter().filter(|&&b| b != 0).count(), 1);
        let mut ones = vec![0xFFu8; 0x2000];
        page::clear_dirty(&mut ones, csr);
        assert_eq!(ones[byte], !(1 << bit));
        assert_eq!(ones.iter().filter(|&&b| b != 0xFF).count(), 1);
    }
}

/// All-ones leaves the dirty bits and words of registers that are not implemented.
#[test]
fn other_bits_stay() {
    for xlen in Xlen::BOTH {
        let mut state = small_state_at(xlen);
        state.memory.bytes.fill(0xFF);
        assert_eq!(sync(&mut state, SYNC_CSR, ALL).code, 0);
        let mut expected = vec![0xFFu8; xlen.page_size()];
        for &csr in csr::turn_order(xlen) {
            page::clear_dirty(&mut expected, csr);
            page::set_csr_word(xlen, &mut expected, csr, csr::read(&state.hart, csr));
        }
        assert_eq!(state.memory.bytes, expected);
        assert!(!dirty(&state, Csr::Hip));
        assert_eq!(dirty(&state, Csr::Htimedeltah), xlen == Xlen::X64);
        assert_eq!(dirty(&state, Csr::Henvcfgh), xlen == Xlen::X64);
    }
}
