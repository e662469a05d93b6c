//! The lister's output.

use second::csr::{self, Csr};
use second::fence::Entry;
use second::lister;
use second::xlen::Xlen;

use crate::common::*;

/// The sample of the paper, word for word.
#[test]
fn sample() {
    let mut state = small_state();
    mark(&mut state, Csr::Hvip, 4);
    put_entry(&mut state, 2, pending(2, 0, 5, 0, 16, 1));
    let expected = "csr 645 0000000000000004\n\
        fence 2 type 2 order 0 vmid 5 asid 0 page 16 count 1\n\
        dirty 1 pending 1\n";
    assert_eq!(lister::list(&state.memory.bytes), expected);
}

/// The sample at width 32: the same lines, with words of eight digits.
#[test]
fn sample_at_32() {
    let mut state = small_state_at(Xlen::X32);
    mark(&mut state, Csr::Hvip, 4);
    put_entry(&mut state, 2, pending_at(Xlen::X32, 2, 0, [5, 0], [16, 1]));
    let expected = "csr 645 00000004\n\
        fence 2 type 2 order 0 vmid 5 asid 0 page 16 count 1\n\
        dirty 1 pending 1\n";
    assert_eq!(lister::list(&state.memory.bytes), expected);
}

/// The length alone tells the width; any other length is refused.
#[test]
fn lengths() {
    for length in (0..40_000).step_by(256) {
        for length in [length, length + 1, length + 255] {
            let is_page = length == 8192 || length == 12_288;
            let expected = if is_page { "dirty 0 pending 0\n" } else { "bad length\n" };
            assert_eq!(lister::list(&vec![0; length]), expected);
        }
    }
}

/// Registers come in turn order, entries ascending, and ones not implemented do not count.
#[test]
fn everything() {
    let mut state = small_state();
    state.memory.bytes[0xF80..0x1000].fill(0xFF);
    for (turn, &csr) in csr::turn_order(Xlen::X64).iter().enumerate() {
        mark(&mut state, csr, turn as u64);
    }
    for number in 0..60 {
        put_entry(&mut state, number, pending(7, 127, 16383, 65535, u64::MAX, u64::MAX));
    }
    let text = lister::list(&state.memory.bytes);
    let lines: Vec<&str> = text.lines().collect();
    assert_eq!(lines.len(), 84);
    assert_eq!(lines[0], "csr 600 0000000000000000");
    assert_eq!(lines[1], "csr e12 0000000000000001");
    assert_eq!(lines[22], "csr 280 0000000000000016");
    let fields = "type 7 order 127 vmid 16383 asid 65535";
    let ones = u64::MAX;
    assert_eq!(lines[23], format!("fence 0 {fields} page {ones} count {ones}"));
    assert_eq!(lines[82], format!("fence 59 {fields} page {ones} count {ones}"));
    assert_eq!(lines[83], "dirty 23 pending 60");
}

/// The same at width 32, with the two upper halves after their lower halves.
#[test]
fn everything_at_32() {
    let mut state = small_state_at(Xlen::X32);
    state.memory.bytes[0xF80..0x1000].fill(0xFF);
    for (turn, &csr) in csr::turn_order(Xlen::X32).iter().enumerate() {
        mark(&mut state, csr, 0xFFFF_FF00 + turn as u64);
    }
    let ones = 0xFFFF_FFFF;
    for number in 0..120 {
        put_entry(&mut state, number, pending_at(Xlen::X32, 7, 127, [127, 511], [ones, ones]));
    }
    let text = lister::list(&state.memory.bytes);
    let lines: Vec<&str> = text.lines().collect();
    assert_eq!(lines.len(), 146);
    assert_eq!(lines[0], "csr 600 ffffff00");
    assert_eq!(lines[10..12], ["csr 605 ffffff0a", "csr 615 ffffff0b"]);
    assert_eq!(lines[13..15], ["csr 60a ffffff0d", "csr 61a ffffff0e"]);
    assert_eq!(lines[24], "csr 280 ffffff18");
    let fields = "type 7 order 127 vmid 127 asid 511 page 4294967295 count 4294967295";
    assert_eq!(lines[25], format!("fence 0 {fields}"));
    assert_eq!(lines[144], format!("fence 119 {fields}"));
    assert_eq!(lines[145], "dirty 25 pending 120");
}

/// An unreadable entry is listed without fields; one that is not pending is not listed.
#[test]
fn unreadable() {
    for xlen in Xlen::BOTH {
        let mut state = small_state_at(xlen);
        let word_2 = Entry { reserved: 1, ..pending_at(xlen, 1, 0, [0, 0], [0, 0]) };
        put_entry(&mut state, 4, word_2);
        put_entry(&mut state, 5, pending_at(xlen, 8, 0, [0, 0], [0, 0]));
        put_entry(&mut state, 6, Entry { config: 1 << (xlen.bits() - 9), ..word_2 });
        let expected = "fence 4 all\nfence 5 all\ndirty 0 pending 2\n";
        assert_eq!(lister::list(&state.memory.bytes), expected);
    }
}

/// Ignored fields are listed as they stand.
#[test]
fn ignored_fields() {
    for (xlen, last) in [(Xlen::X32, 119), (Xlen::X64, 59)] {
        let mut state = small_state_at(xlen);
        put_entry(&mut state, last, pending_at(xlen, 1, 3, [4, 5], [6, 7]));
        let line = format!("fence {last} type 1 order 3 vmid 4 asid 5 page 6 count 7");
        assert_eq!(lister::list(&state.memory.bytes), format!("{line}\ndirty 0 pending 1\n"));
    }
}
