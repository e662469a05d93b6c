//! The bytes that set leaves: a blank page with the readings of the registers, and nothing else.

use second::calls::{self, ALL, EID, SET, SYNC_CSR, SYNC_FENCE};
use second::csr::{self, Csr};
use second::gen;
use second::hart::Hart;
use second::page;
use second::registers;
use second::rng::Rng;
use second::state::{Memory, State};
use second::xlen::Xlen;

use crate::common::*;

/// What every byte of memory holds before a set.
const OLD: u8 = 0xA5;

/// A hart with its page in the middle of memory: three pages of old bytes, and some bytes more.
fn long_state(hart: Hart) -> State {
    let size = hart.xlen.page_size();
    let memory = Memory { base: BASE, bytes: vec![OLD; 3 * size + 123] };
    let page = Some(BASE + size as u64);
    State { hart: Hart { page, ..hart }, memory, table: slot(false, 5, 0, 1, 1).to_vec() }
}

/// Sets the page at this address; the call must be accepted.
fn set(state: &mut State, address: u64) {
    let answer = calls::call(state, EID, SET, [address, 0, 0]);
    assert_eq!((answer.code, answer.value, answer.resumed), (0, 0, false));
    assert_eq!(state.hart.page, Some(address));
}

/// Whether all these bytes are zero.
fn is_zero(bytes: &[u8]) -> bool {
    bytes.iter().all(|&byte| byte == 0)
}

/// A fresh hart's page is zero but for the two registers that are not 0 at width 64.
#[test]
fn fresh_page() {
    for xlen in Xlen::BOTH {
        let mut state = long_state(Hart::fresh_at(xlen, 15));
        set(&mut state, BASE);
        let mut expected = vec![0; xlen.page_size()];
        if xlen == Xlen::X64 {
            // The words of index 0x100 and of index 0.
            expected[0x1804] = 2;
            expected[0x1004] = 2;
        }
        assert_eq!(state.page().unwrap(), expected);
    }
}

/// Each register's word is its reading, those of hip, vsie and vsip among them; every other word,
/// the bitmap, the entries, the context and the flags are zero.
#[test]
fn readings() {
    for (xlen, count) in [(Xlen::X32, 25), (Xlen::X64, 23)] {
        let mut state = long_state(registers::full_hart(xlen));
        set(&mut state, BASE);
        let mut rest = state.page().unwrap().to_vec();
        assert!(is_zero(&rest[..0x1000]));
        assert_eq!(csr::turn_order(xlen).len(), count);
        for &csr in csr::turn_order(xlen) {
            assert_eq!(csr_word(&state, csr), csr::read(&state.hart, csr), "{xlen:?} {csr:?}");
            page::set_csr_word(xlen, &mut rest, csr, 0);
        }
        assert!(is_zero(&rest));
        let by_hand = [(Csr::Hip, 0x1444), (Csr::Vsie, 0x222), (Csr::Vsip, 0x222)];
        for (csr, word) in by_hand.into_iter().chain([(Csr::Hgeip, 0xFE), (Csr::Hvip, 0x444)]) {
            assert_eq!(csr_word(&state, csr), word, "{xlen:?} {csr:?}");
        }
    }
}

/// The upper halves of width 32: htimedeltah has its reading, henvcfgh 0.
#[test]
fn upper_halves() {
    let mut state = long_state(registers::full_hart(Xlen::X32));
    set(&mut state, BASE);
    let page = state.page().unwrap();
    // The words of index 0x115 and of index 0x11A.
    assert_eq!(page::word(Xlen::X32, page, 0x1454), 0xFFFF_FFFF);
    assert_eq!(page::word(Xlen::X32, page, 0x1468), 0);
}

/// The features do not matter, nor does whether a page was set before.
#[test]
fn features() {
    for xlen in Xlen::BOTH {
        let mut pages = Vec::new();
        for features in 0..16 {
            let hart = Hart { features, ..registers::full_hart(xlen) };
            for page in [None, Some(BASE), Some(0)] {
                let mut state = long_state(hart.clone());
                state.hart.page = page;
                set(&mut state, BASE);
                assert_eq!(state.hart, Hart { page: Some(BASE), ..hart.clone() });
                pages.push(state.memory);
            }
        }
        assert!(pages.iter().all(|memory| *memory == pages[0]));
    }
}

/// Naming the same address again takes the marks away, unserved: nothing is left to synchronize.
#[test]
fn same_address_again() {
    for xlen in Xlen::BOTH {
        let mut state = long_state(registers::full_hart(xlen));
        let address = BASE + xlen.page_size() as u64;
        set(&mut state, address);
        let fresh = state.clone();
        for &csr in csr::turn_order(xlen) {
            mark(&mut state, csr, 0);
        }
        for number in 0..xlen.entry_count() {
            put_entry(&mut state, number, pending_at(xlen, 1, 0, [0, 0], [0, 0]));
        }
        set(&mut state, address);
        assert_eq!(state, fresh);
        assert_eq!(sync(&mut state, SYNC_CSR, ALL).code, 0);
        assert_eq!(sync(&mut state, SYNC_FENCE, ALL).code, 0);
        assert_eq!(state, fresh);
        assert_eq!(used(&state), [true]);
    }
}

/// A set that moves the page writes the new one's bytes only, also where the two overlap. Memory
/// before and after stays.
#[test]
fn overlapping_pages() {
    for xlen in Xlen::BOTH {
        let size = xlen.page_size();
        for start in (0..=2 * size).step_by(4096) {
            let mut state = long_state(registers::full_hart(xlen));
            set(&mut state, BASE + start as u64);
            let (before, rest) = state.memory.bytes.split_at(start);
            let (page, after) = rest.split_at(size);
            assert!(before.iter().chain(after).all(|&byte| byte == OLD));
            assert!(is_zero(&page[..0x1000]));
            assert_eq!(csr_word(&state, Csr::Hgeip), 0xFE);
            assert_eq!(state.table, slot(false, 5, 0, 1, 1));
        }
    }
}

/// Dropping the page writes nothing, with a page or without.
#[test]
fn drop_writes_nothing() {
    for xlen in Xlen::BOTH {
        let start = long_state(registers::full_hart(xlen));
        let mut state = start.clone();
        for _ in 0..2 {
            assert_eq!(calls::call(&mut state, EID, SET, [ALL, ALL, 0]).code, 0);
            let hart = Hart { page: None, ..start.hart.clone() };
            assert_eq!(state, State { hart, ..start.clone() });
        }
    }
}

/// A refused set writes nothing: bad flags, alignment or high word, and memory one byte short.
#[test]
fn refusals_write_nothing() {
    for xlen in Xlen::BOTH {
        let mut start = long_state(registers::full_hart(xlen));
        let size = xlen.page_size();
        start.memory.bytes.truncate(2 * size - 1);
        let second = BASE + size as u64;
        let rows = [
            ([BASE, 0, 1], -3),
            ([BASE + 8, 0, 0], -3),
            ([ALL, 0, 0], -3),
            ([BASE, 1, 0], -5),
            ([BASE - 4096, 0, 0], -5),
            ([second, 0, 0], -5),
        ];
        for (args, code) in rows {
            let mut state = start.clone();
            assert_eq!(calls::call(&mut state, EID, SET, args).code, code);
            assert_eq!(state, start);
        }
        start.memory.bytes.push(OLD);
        set(&mut start, second);
    }
}

/// On random states: the new page is zero but for the readings, all other bytes are as they were.
#[test]
fn closed_form() {
    let mut accepted = 0;
    for xlen in Xlen::BOTH {
        let mut rng = Rng::new(40);
        for _ in 0..3000 {
            let mut start = gen::state(&mut rng, xlen);
            start.hart.features &= rng.bits();
            let address = gen::page_address(&mut rng, xlen, &start.memory);
            let mut state = start.clone();
            let mut expected = start;
            if calls::call(&mut state, EID, SET, [address, 0, 0]).code == 0 {
                accepted += 1;
                expected.hart.page = Some(address);
                let at = (address - expected.memory.base) as usize;
                let page = &mut expected.memory.bytes[at..][..xlen.page_size()];
                page.fill(0);
                for &csr in csr::turn_order(xlen) {
                    page::set_csr_word(xlen, page, csr, csr::read(&expected.hart, csr));
                }
            }
            assert_eq!(state, expected);
        }
    }
    assert!(accepted > 1500, "{accepted}");
}
