//! Every row of the code table, and the order of its rows.

use second::calls::{self, ALL, EID, PROBE, SET, SYNC_CSR, SYNC_FENCE, SYNC_SRET};
use second::csr;
use second::hart::{Hart, Mode};
use second::state::State;
use second::steps;
use second::xlen::Xlen;

use crate::common::*;

/// A first argument that is good for this call.
fn good_a0(fid: u64) -> u64 {
    if fid == SET {
        BASE
    } else {
        ALL
    }
}

/// The codes of all five calls, with good arguments, and of one foreign call.
pub fn six_codes(state: &State) -> [i64; 6] {
    let mut codes = [0; 6];
    for fid in 0..5 {
        codes[fid as usize] = code_of(state, EID, fid, [good_a0(fid), 0, 0]);
    }
    codes[5] = code_of(state, 0x10, 0, [0; 3]);
    codes
}

/// Row 1: the table's length.
#[test]
fn row_1_table_length() {
    for xlen in Xlen::BOTH {
        let mut state = small_state_at(xlen);
        for length in 0..1040 {
            state.table = vec![0; length];
            let good = length % 4 == 0 && length <= 1024;
            let expected = if good { [0, 0, 0, 0, 0, -2] } else { [-1; 6] };
            assert_eq!(six_codes(&state), expected, "length {length}");
        }
    }
}

/// A change to a record.
pub type Damage = fn(&mut Hart);

/// Each way in which a record of the width is not well made.
pub fn damages(xlen: Xlen) -> Vec<Damage> {
    let at_both: [Damage; 12] = [
        |hart| hart.lines = 1,
        |hart| hart.lines = 0x100,
        |hart| hart.sepc = 1,
        |hart| hart.page = Some(BASE + 8),
        |hart| hart.x[0] = 1,
        |hart| hart.features = 16 + 15,
        |hart| hart.hstatus |= 8 << 12,
        |hart| hart.vstvec = 2,
        |hart| hart.vsstatus |= 1 << (hart.xlen.bits() - 1),
        |hart| hart.stvec = 1,
        |hart| hart.stvec = 2,
        |hart| hart.stvec = 0x8000_0003,
    ];
    let at_64: [Damage; 5] = [
        |hart| hart.hstatus = 0,
        |hart| hart.hgatp = 9 << 60,
        |hart| hart.vsatp = 1 << 60,
        |hart| hart.htimedeltah = 1,
        |hart| hart.stvec = u64::MAX - 1,
    ];
    let at_32: [Damage; 7] = [
        |hart| hart.hstatus = 2 << 32,
        |hart| hart.hgatp = 1 << 29,
        |hart| hart.hgatp = 1 << 30,
        |hart| hart.vsatp = 1 << 32,
        |hart| hart.stvec = 1 << 32,
        |hart| hart.scause = 1 << 32,
        |hart| hart.stval = 1 << 63,
    ];
    match xlen {
        Xlen::X32 => at_both.into_iter().chain(at_32).collect(),
        Xlen::X64 => at_both.into_iter().chain(at_64).collect(),
    }
}

/// Row 1: each way in which a record is not well made.
#[test]
fn row_1_record() {
    for xlen in Xlen::BOTH {
        for (number, damage) in damages(xlen).into_iter().enumerate() {
            let mut state = small_state_at(xlen);
            damage(&mut state.hart);
            assert_eq!(six_codes(&state), [-1; 6], "{xlen:?} damage {number}");
        }
    }
}

/// Row 1: a trap's fields that are well made; stvec has no other rule than its two low bits.
#[test]
fn row_1_trap_fields() {
    for xlen in Xlen::BOTH {
        let mut state = small_state_at(xlen);
        for word in [4, 8, 1 << 31, xlen.ones() - 3] {
            state.hart.stvec = word;
            assert_eq!(six_codes(&state), [0, 0, 0, 0, 0, -2], "{xlen:?} {word:x}");
        }
        (state.hart.scause, state.hart.stval) = (xlen.ones(), xlen.ones());
        assert_eq!(six_codes(&state), [0, 0, 0, 0, 0, -2]);
    }
}

/// Row 2: V on or mode U, also for probe.
#[test]
fn row_2_guest() {
    for xlen in Xlen::BOTH {
        for (virt, mode) in [(true, Mode::S), (true, Mode::U), (false, Mode::U)] {
            let mut state = small_state_at(xlen);
            state.hart.virt = virt;
            state.hart.mode = mode;
            assert_eq!(six_codes(&state), [-2; 6]);
        }
        assert_eq!(six_codes(&small_state_at(xlen)), [0, 0, 0, 0, 0, -2]);
    }
}

/// Row 3: another EID, or a FID above 4, with all 64 bits compared at width 64.
#[test]
fn row_3_numbers() {
    let state = small_state();
    for eid in [0, EID - 1, EID + 1, EID | 1 << 32, EID | 1 << 63, u64::MAX] {
        for fid in 0..5 {
            assert_eq!(code_of(&state, eid, fid, [good_a0(fid), 0, 0]), -2);
        }
    }
    for fid in [5, 6, 1 << 32, (1 << 32) + 2, u64::MAX] {
        assert_eq!(code_of(&state, EID, fid, [ALL, 0, 0]), -2);
    }
}

/// Row 3 at width 32: only the low 32 bits of the numbers are there.
#[test]
fn row_3_numbers_at_32() {
    let state = small_state_at(Xlen::X32);
    for upper in [0, 1 << 32, 1 << 63, 0xFFFF_FFFF << 32] {
        for fid in 0..5 {
            assert_eq!(code_of(&state, EID | upper, fid | upper, [good_a0(fid), 0, 0]), 0);
            assert_eq!(code_of(&state, (EID + 1) | upper, fid, [good_a0(fid), 0, 0]), -2);
        }
        for fid in [5, 6, 0x8000_0002, 0xFFFF_FFFF] {
            assert_eq!(code_of(&state, EID, fid | upper, [ALL, 0, 0]), -2);
        }
    }
}

/// Row 4: each of the last three calls needs its own feature and no other.
#[test]
fn row_4_features() {
    for (features, xlen) in (0..16).flat_map(|features| Xlen::BOTH.map(|xlen| (features, xlen))) {
        let mut state = small_state_at(xlen);
        state.hart.features = features;
        let needs = |bit: u64| if features & bit != 0 { 0 } else { -2 };
        assert_eq!(six_codes(&state), [0, 0, needs(1), needs(2), needs(4), -2]);
    }
}

/// Row 5, probe: no parameter is bad, and the low 32 bits count.
#[test]
fn row_5_probe() {
    for (features, xlen) in (0..16).flat_map(|features| Xlen::BOTH.map(|xlen| (features, xlen))) {
        let mut state = small_state_at(xlen);
        state.hart.features = features;
        for id in [0, 1, 2, 3, 4, 5, 63, 64, 0xFFFF_FFFF, 1 << 32, (1 << 32) + 3, u64::MAX] {
            let start = state.clone();
            let answer = calls::call(&mut state, EID, PROBE, [id, 9, 9]);
            let low = id as u32;
            let expected = low < 4 && features >> low & 1 == 1;
            assert_eq!((answer.code, answer.value), (0, u64::from(expected)));
            assert_eq!(state, start);
        }
    }
}

/// Row 5, register call: accepted for all-ones and the numbers of the width, and for nothing else.
#[test]
fn row_5_registers() {
    for xlen in Xlen::BOTH {
        let state = small_state_at(xlen);
        let numbers: Vec<u64> = csr::turn_order(xlen).iter().map(|csr| csr.number()).collect();
        assert_eq!(numbers.len(), if xlen == Xlen::X32 { 25 } else { 23 });
        for a0 in 0..0x3000 {
            let expected = if numbers.contains(&a0) { 0 } else { -3 };
            assert_eq!(code_of(&state, EID, SYNC_CSR, [a0, 0, 0]), expected, "{a0:x}");
        }
        let cut_only = if xlen == Xlen::X32 { 0 } else { -3 };
        for number in numbers {
            assert_eq!(code_of(&state, EID, SYNC_CSR, [number | 1 << 32, 0, 0]), cut_only);
        }
        assert_eq!(code_of(&state, EID, SYNC_CSR, [ALL, 0, 0]), 0);
        assert_eq!(code_of(&state, EID, SYNC_CSR, [0xFFFF_FFFF, 0, 0]), cut_only);
        assert_eq!(code_of(&state, EID, SYNC_CSR, [0xFFFF_FFFE, 0, 0]), -3);
        assert_eq!(code_of(&state, EID, SYNC_CSR, [ALL - 1, 0, 0]), -3);
    }
}

/// Row 5, fence call: accepted for all-ones and indexes below 60, at width 32 below 120.
#[test]
fn row_5_fences() {
    for (xlen, count, cut_only) in [(Xlen::X32, 120, 0), (Xlen::X64, 60, -3)] {
        let state = small_state_at(xlen);
        for a0 in 0..200 {
            let expected = if a0 < count { 0 } else { -3 };
            assert_eq!(code_of(&state, EID, SYNC_FENCE, [a0, 0, 0]), expected);
        }
        for a0 in [1 << 32, 0xFFFF_FFFF] {
            assert_eq!(code_of(&state, EID, SYNC_FENCE, [a0, 0, 0]), cut_only);
        }
        for a0 in [0xFFFF_FFFE, 0x8000_0000, ALL - 1] {
            assert_eq!(code_of(&state, EID, SYNC_FENCE, [a0, 0, 0]), -3);
        }
        assert_eq!(code_of(&state, EID, SYNC_FENCE, [ALL, 0, 0]), 0);
    }
}

/// The order of the rows: everything is wrong at first, and then mended row by row.
#[test]
fn order_of_rows() {
    let cases = [SYNC_CSR, SYNC_FENCE].map(|fid| Xlen::BOTH.map(|xlen| (fid, xlen)));
    for (fid, xlen) in cases.concat() {
        let mut state = small_state_at(xlen);
        state.table = vec![0; 3];
        state.hart.virt = true;
        state.hart.features = 0;
        state.hart.page = None;
        assert_eq!(code_of(&state, 0, fid, [0x344, 0, 0]), -1);
        state.table.clear();
        assert_eq!(code_of(&state, 0, fid, [0x344, 0, 0]), -2);
        state.hart.virt = false;
        assert_eq!(code_of(&state, 0, fid, [0x344, 0, 0]), -2);
        assert_eq!(code_of(&state, EID, fid, [0x344, 0, 0]), -2);
        state.hart.features = 15;
        assert_eq!(code_of(&state, EID, fid, [0x344, 0, 0]), -3);
        assert_eq!(code_of(&state, EID, fid, [ALL, 0, 0]), -9);
        state.hart.page = Some(BASE);
        assert_eq!(code_of(&state, EID, fid, [ALL, 0, 0]), 0);
    }
}

/// Arguments that a call does not name play no part.
#[test]
fn unnamed_arguments() {
    for state in Xlen::BOTH.map(small_state_at) {
        for fid in [PROBE, SYNC_CSR, SYNC_FENCE, SYNC_SRET] {
            assert_eq!(code_of(&state, EID, fid, [ALL, 5, 6]), 0);
        }
        assert_eq!(code_of(&state, EID, SYNC_SRET, [3, 5, 6]), 0);
    }
}

/// The stoppable form: its own row 3, after rows 1 and 2, and the rest as in the whole form.
#[test]
fn stoppable_codes() {
    for xlen in Xlen::BOTH {
        assert_stoppable_codes(&small_state_at(xlen));
    }
    // Numbers of 32 bits: FID 2 and all-ones with bits above 31, and a limit that is not cut.
    let mut state = small_state_at(Xlen::X32);
    let run = steps::run(&mut state, EID | 1 << 40, 2 | 1 << 32, 0xFFFF_FFFF, 1 << 32);
    assert_eq!((run.code, run.steps, run.finished), (0, 38, true));
}

/// The refusals of the stoppable form on a good state.
fn assert_stoppable_codes(state: &State) {
    let refused = |state: &State, eid, fid, a0| {
        let mut copy = state.clone();
        let run = steps::run(&mut copy, eid, fid, a0, 1000);
        assert_eq!((run.value, run.steps, run.finished, &copy), (0, 0, false, state));
        assert!(run.reports.is_empty());
        run.code
    };
    for fid in [0, 1, 4, 5, u64::MAX] {
        assert_eq!(refused(state, EID, fid, 0), -2);
    }
    assert_eq!(refused(state, EID + 1, SYNC_CSR, ALL), -2);
    assert_eq!(refused(state, EID, SYNC_CSR, 0x344), -3);
    assert_eq!(refused(state, EID, SYNC_FENCE, state.hart.xlen.entry_count() as u64), -3);
    let mut damaged = state.clone();
    damaged.hart.sepc = 1;
    for fid in 0..6 {
        assert_eq!(refused(&damaged, EID, fid, ALL), -1);
    }
    let mut without = state.clone();
    without.hart.page = None;
    assert_eq!(refused(&without, EID, SYNC_CSR, ALL), -9);
    assert_eq!(refused(&without, EID, SYNC_FENCE, ALL), -9);
}
