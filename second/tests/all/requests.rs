//! Requests of the hypervisor by hand: register writes, the SRET context, and pages and widths that
//! are refused.

use second::hypervisor::{self, Request};
use second::xlen::Xlen;

use crate::common::*;

/// The numbers of the registers of width 64, in turn order, and those that width 32 has besides.
const NUMBERS: [u64; 23] = [
    0x600, 0xE12, 0x607, 0x603, 0x645, 0x604, 0x644, 0x204, 0x244, 0x602, 0x605, 0x606, 0x60A,
    0x643, 0x64A, 0x680, 0x200, 0x205, 0x240, 0x241, 0x242, 0x243, 0x280,
];
const UPPER_HALVES: [u64; 2] = [0x615, 0x61A];

/// What a page holds before a request.
const OLD: [u8; 3] = [0, 0xFF, 0xA5];

/// hip: the word at 0x1A20, or at 0x1510, and bit 4 of 0xFA8; no other bit changes.
#[test]
fn hip_by_hand() {
    for (xlen, at, size) in [(Xlen::X32, 0x1510, 4), (Xlen::X64, 0x1A20, 8)] {
        for old in OLD {
            let mut page = vec![old; xlen.page_size()];
            let mut expected = page.clone();
            expected[at..at + size].fill(0);
            (expected[at], expected[at + 3]) = (0x34, 0x12);
            expected[0xFA8] |= 0x10;
            assert_eq!(hypervisor::write_csr(bits(xlen), &mut page, 0x644, 0x1200_0034), Ok(0));
            assert_eq!(page, expected);
        }
    }
}

/// Every number of 12 bits: written exactly if it is a register's, at the place of its index.
#[test]
fn every_number() {
    for (xlen, size, others) in [(Xlen::X32, 4, &UPPER_HALVES[..]), (Xlen::X64, 8, &[])] {
        for number in 0..0x1000 {
            let old = OLD[number as usize % 3];
            let mut page = vec![old; xlen.page_size()];
            if !NUMBERS.contains(&number) && !others.contains(&number) {
                let request = Request::WriteCsr { number, value: 1 };
                assert_refused(bits(xlen), &page, &request, -3);
                continue;
            }
            let index = ((number & 0xC00) / 4 + (number & 0xFF)) as usize;
            let mut expected = page.clone();
            expected[0x1000 + size * index..][..size].fill(0x5A);
            expected[0xF80 + index / 8] |= 1 << (index % 8);
            let value = xlen.ones() / 0xFF * 0x5A;
            assert_eq!(hypervisor::write_csr(bits(xlen), &mut page, number, value), Ok(0));
            assert_eq!(page, expected, "{number:x}");
        }
    }
}

/// Numbers above 12 bits are no registers, all-ones is none either, and none is cut.
#[test]
fn wide_numbers() {
    for xlen in Xlen::BOTH {
        let page = vec![0; xlen.page_size()];
        let all_ones = [xlen.ones(), u64::MAX];
        for number in [0x1645, 0x645 | 1 << 32, 1 << 63].into_iter().chain(all_ones) {
            assert_refused(bits(xlen), &page, &Request::WriteCsr { number, value: 0 }, -3);
        }
    }
}

/// A register that ignores writes is marked as any other: hgeip, and henvcfgh at width 32.
#[test]
fn registers_that_ignore_writes() {
    let rows = [(Xlen::X64, 0xE12, 0xFE2, 4), (Xlen::X32, 0xE12, 0xFE2, 4)];
    for (xlen, number, byte, bit) in rows.into_iter().chain([(Xlen::X32, 0x61A, 0xFA3, 4)]) {
        let mut page = vec![0; xlen.page_size()];
        assert_eq!(hypervisor::write_csr(bits(xlen), &mut page, number, 0), Ok(0));
        let mut expected = vec![0; xlen.page_size()];
        expected[byte] = bit;
        assert_eq!(page, expected);
    }
}

/// A value that a word can't hold is refused and not cut: at width 32 any with a bit above 31.
#[test]
fn wide_values() {
    for (bit, number) in (32..64).flat_map(|bit| NUMBERS.map(|number| (bit, number))) {
        let page = vec![0; Xlen::X32.page_size()];
        assert_refused(32, &page, &Request::WriteCsr { number, value: 1 << bit | 4 }, -3);
        let mut page = vec![0; Xlen::X64.page_size()];
        assert_eq!(hypervisor::write_csr(64, &mut page, number, 1 << bit), Ok(0));
    }
    for xlen in Xlen::BOTH {
        let mut page = vec![0; xlen.page_size()];
        assert_eq!(hypervisor::write_csr(bits(xlen), &mut page, 0x240, xlen.ones()), Ok(0));
    }
}

/// 32 words for a context: each byte of word i is i, and word 0 is what no word of width 32 is.
fn context(xlen: Xlen) -> Vec<u64> {
    let mut words: Vec<u64> = (0..32).map(|i| xlen.ones() / 0xFF * i).collect();
    words[0] = 0xDEAD_BEEF_DEAD_BEEF;
    words
}

/// X1 to X31 at 8i, or at 4i, and zero before them, whatever the first word given is; the bytes
/// after X31 stay.
#[test]
fn context_by_hand() {
    for (xlen, size) in [(Xlen::X32, 4), (Xlen::X64, 8)] {
        for old in OLD {
            let mut page = vec![old; xlen.page_size()];
            let mut expected = page.clone();
            for (at, byte) in expected[..32 * size].iter_mut().enumerate() {
                *byte = (at / size) as u8;
            }
            assert_eq!(hypervisor::fill_context(bits(xlen), &mut page, &context(xlen)), Ok(0));
            assert_eq!(page, expected);
        }
    }
}

/// A context of other than 32 words.
#[test]
fn context_lengths() {
    for xlen in Xlen::BOTH {
        let page = vec![0xA5; xlen.page_size()];
        for length in (0..70).filter(|&length| length != 32) {
            assert_refused(bits(xlen), &page, &Request::FillContext(vec![1; length]), -3);
        }
    }
}

/// At width 32 each of X1 to X31 must fit in 32 bits.
#[test]
fn wide_context_words() {
    for (i, bit) in (1..32).flat_map(|i| [32, 47, 63].map(|bit| (i, bit))) {
        let mut words = context(Xlen::X32);
        words[i] |= 1 << bit;
        let page = vec![0xA5; Xlen::X32.page_size()];
        assert_refused(32, &page, &Request::FillContext(words.clone()), -3);
        let mut page = vec![0xA5; Xlen::X64.page_size()];
        assert_eq!(hypervisor::fill_context(64, &mut page, &words), Ok(0));
    }
}

/// Requests of each kind, good ones and such that would be refused on a good page too.
fn some_requests() -> Vec<Request> {
    let good = fence_of(6, 9, [5, 7], [16, 3]);
    let bad = fence_of(8, 0, [0, 0], [0, 0]);
    vec![
        Request::WriteCsr { number: 0x645, value: 4 },
        Request::WriteCsr { number: 0x344, value: 1 << 32 },
        Request::QueueFence(good),
        Request::QueueFence(bad),
        Request::FillContext(vec![1; 32]),
        Request::FillContext(Vec::new()),
    ]
}

/// A page of another length, the other width's among them, is -1 before all else; so is a width
/// that is neither 32 nor 64.
#[test]
fn pages_and_widths() {
    let lengths = [0, 1, 4096, 8191, 8192, 8193, 12_287, 12_288, 12_289, 24_576];
    let widths = [0, 1, 16, 31, 33, 63, 65, 128, 1 << 32 | 32, 1 << 32 | 64, u64::MAX];
    for (request, old) in some_requests().iter().flat_map(|r| OLD.map(|old| (r, old))) {
        for length in lengths {
            let page = vec![old; length];
            for width in widths {
                assert_refused(width, &page, request, -1);
            }
            for xlen in Xlen::BOTH.into_iter().filter(|xlen| xlen.page_size() != length) {
                assert_refused(bits(xlen), &page, request, -1);
            }
        }
    }
}

/// On a page of the right length the good ones of these are accepted, the others are -3.
#[test]
fn good_and_bad() {
    for xlen in Xlen::BOTH {
        let page = vec![0; xlen.page_size()];
        for (k, request) in some_requests().iter().enumerate() {
            if k % 2 == 0 {
                let mut after = page.clone();
                assert_eq!(hypervisor::perform(bits(xlen), &mut after, request), Ok(0));
                assert!(after != page);
            } else {
                assert_refused(bits(xlen), &page, request, -3);
            }
        }
    }
}
