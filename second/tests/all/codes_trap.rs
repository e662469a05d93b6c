//! The refusals of the trap back: check 1, then -2 if V is off, and nothing else.

use second::calls::{EID, SYNC_CSR};
use second::hart::Mode;
use second::state::State;
use second::trap;
use second::xlen::Xlen;

use crate::codes::damages;
use crate::common::*;

/// The code of a trap that is made on a copy of the state; a refusal changes nothing.
fn code_of_trap(state: &State) -> i64 {
    let mut copy = state.clone();
    let answer = trap::back(&mut copy, trap_of([21, 2, 3, 4], 1));
    assert_eq!((answer.value, answer.resumed), (0, false));
    assert_eq!(answer.code != 0, copy == *state);
    answer.code
}

/// The same state with V off.
fn left(state: &State) -> State {
    let mut state = state.clone();
    state.hart.virt = false;
    state
}

/// The table's length: -1 also where V is off, and no slot is looked at.
#[test]
fn table_length() {
    for xlen in Xlen::BOTH {
        let mut state = guest_at(xlen);
        for length in 0..1040 {
            state.table = vec![u64::MAX; length];
            let good = length % 4 == 0 && length <= 1024;
            let expected = if good { [0, -2] } else { [-1, -1] };
            let codes = [code_of_trap(&state), code_of_trap(&left(&state))];
            assert_eq!(codes, expected, "length {length}");
        }
    }
}

/// Each way in which a record is not well made: -1, also where V is off.
#[test]
fn record() {
    for xlen in Xlen::BOTH {
        for (number, damage) in damages(xlen).into_iter().enumerate() {
            for mode in [Mode::S, Mode::U] {
                let mut state = guest_at(xlen);
                state.hart.mode = mode;
                damage(&mut state.hart);
                let codes = [code_of_trap(&state), code_of_trap(&left(&state))];
                assert_eq!(codes, [-1, -1], "{xlen:?} damage {number}");
            }
        }
    }
}

/// V off is -2 in either mode; with V on neither the mode, the features nor the page is asked for.
#[test]
fn v_off() {
    for (features, xlen) in (0..16).flat_map(|features| Xlen::BOTH.map(|xlen| (features, xlen))) {
        for mode in [Mode::S, Mode::U] {
            for page in [Some(BASE), Some(0), None] {
                let mut state = guest_at(xlen);
                (state.hart.features, state.hart.mode, state.hart.page) = (features, mode, page);
                assert_eq!(code_of_trap(&state), 0);
                assert_eq!(code_of_trap(&left(&state)), -2);
            }
        }
    }
}

/// The order: everything is wrong at first, and then mended.
#[test]
fn order() {
    for xlen in Xlen::BOTH {
        let mut state = left(&guest_at(xlen));
        state.hart.stvec = 2;
        state.table = vec![0; 3];
        assert_eq!(code_of_trap(&state), -1);
        state.table.push(0);
        assert_eq!(code_of_trap(&state), -1);
        state.hart.stvec = 4;
        assert_eq!(code_of_trap(&state), -2);
        state.hart.virt = true;
        assert_eq!(code_of_trap(&state), 0);
        state.table.pop();
        assert_eq!(code_of_trap(&state), -1);
    }
}

/// A second trap finds V off.
#[test]
fn twice() {
    for xlen in Xlen::BOTH {
        let mut state = guest_at(xlen);
        assert_eq!(trap::back(&mut state, trap_of([8, 0, 0, 0], 0)).code, 0);
        assert_eq!(code_of_trap(&state), -2);
    }
}

/// stvec, scause and stval are no registers of the extension: their numbers are -3.
#[test]
fn no_numbers() {
    for xlen in Xlen::BOTH {
        for number in [0x105, 0x142, 0x143] {
            assert_eq!(code_of(&small_state_at(xlen), EID, SYNC_CSR, [number, 0, 0]), -3);
        }
    }
}
