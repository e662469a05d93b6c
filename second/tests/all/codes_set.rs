//! The rows of the code table about the page: set, where the page lies, and no page.

use second::calls::{self, ALL, EID, SET};
use second::state::{Memory, State};
use second::xlen::Xlen;

use crate::codes::six_codes;
use crate::common::*;

/// Rows 5 and 6, set: flags, drop, alignment, then hi and the range.
#[test]
fn rows_5_and_6_set() {
    let expected = [
        ([BASE, 0, 0], 0),
        ([BASE, 0, 1], -3),
        ([BASE, 0, 1 << 31], -3),
        ([ALL, ALL, 0], 0),
        ([ALL, ALL, 1], -3),
        ([ALL, 0, 0], -3),
        ([ALL, 1, 0], -3),
        ([BASE, ALL, 0], -5),
        ([BASE, 1, 0], -5),
        ([BASE + 1, 0, 0], -3),
        ([BASE + 8, 1, 0], -3),
        ([BASE + 4096, 0, 0], -5),
        ([BASE - 4096, 0, 0], -5),
        ([0, 0, 0], -5),
        ([0, ALL, 0], -5),
    ];
    for xlen in Xlen::BOTH {
        let state = small_state_at(xlen);
        for (args, code) in expected {
            assert_eq!(code_of(&state, EID, SET, args), code, "{xlen:?} {args:x?}");
        }
    }
    assert_eq!(code_of(&small_state(), EID, SET, [BASE, 0, 1 << 63]), -3);
    let upper = 1 << 32;
    let at_32 = [
        ([BASE | upper, upper, upper], 0),
        ([0xFFFF_FFFF, 0xFFFF_FFFF, upper], 0),
        ([0xFFFF_FFFF, ALL, 0x8000_0000], -3),
        ([0xFFFF_FFFF, 0xFFFF_FFFE, 0], -3),
        ([BASE, 0x8000_0000, 0], -5),
    ];
    for (args, code) in at_32 {
        assert_eq!(code_of(&small_state_at(Xlen::X32), EID, SET, args), code, "{args:x?}");
    }
}

/// The aligned addresses around a first address that a word of the width can name.
fn addresses_near(xlen: Xlen, base: u64) -> impl Iterator<Item = u64> {
    let first = (base & !0xFFF).wrapping_sub(0x6000);
    (0..16).map(move |k| first.wrapping_add(0x1000 * k)).filter(move |&lo| xlen.holds(lo))
}

/// Rows 6 and 7: every aligned address near memory, at both ends of the address space.
#[test]
fn rows_6_and_7_range() {
    for (xlen, size, end) in [(Xlen::X32, 8192, 1 << 32), (Xlen::X64, 12_288, 0u64)] {
        for base in [0, 1, 0x1000, 0x1001, BASE, end.wrapping_sub(0x3000), end.wrapping_sub(0x4000)]
        {
            for length in [0, size - 1, size, size + 1, size + 4095, size + 4096, size + 8192] {
                let mut state = small_state_at(xlen);
                state.memory = Memory { base, bytes: vec![0; length] };
                for lo in addresses_near(xlen, base) {
                    let offset = i128::from(lo) - i128::from(base);
                    let fits = offset >= 0 && offset + size as i128 <= length as i128;
                    assert_eq!(code_of(&state, EID, SET, [lo, 0, 0]), if fits { 0 } else { -5 });
                    state.hart.page = Some(lo);
                    let expected = if fits { 0 } else { -9 };
                    for fid in 2..=4 {
                        assert_eq!(code_of(&state, EID, fid, [ALL, 0, 0]), expected);
                    }
                }
            }
        }
    }
}

/// Row 7: no page set; a drop is accepted all the same, with a page or without.
#[test]
fn row_7_no_page() {
    for xlen in Xlen::BOTH {
        assert_codes_without_page(small_state_at(xlen));
    }
}

/// The codes after a drop, and after the page is set again.
fn assert_codes_without_page(start: State) {
    let mut state = start.clone();
    assert_eq!(calls::call(&mut state, EID, SET, [ALL, ALL, 0]).code, 0);
    assert_eq!(state.hart.page, None);
    assert_eq!(six_codes(&state), [0, 0, -9, -9, -9, -2]);
    assert_eq!(calls::call(&mut state, EID, SET, [ALL, ALL, 0]).code, 0);
    assert_eq!(state.memory, start.memory);
    assert_eq!(calls::call(&mut state, EID, SET, [BASE, 0, 0]).code, 0);
    assert_eq!(state.hart, start.hart);
    assert_eq!(six_codes(&state), [0, 0, 0, 0, 0, -2]);
}
