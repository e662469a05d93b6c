//! The SRET call and the line change.

use second::calls::{self, Answer, EID, SYNC_SRET};
use second::csr::{self, Csr};
use second::gen;
use second::hart::{Hart, Mode};
use second::lines;
use second::page;
use second::rng::Rng;
use second::state::State;
use second::xlen::Xlen;

use crate::common::*;

/// The answer and the end of the SRET call on an accepted state, told part by part from the other
/// calls.
fn expected_return(start: &State) -> (Answer, State) {
    let mut state = start.clone();
    let features = start.hart.features;
    let mut reports = Vec::new();
    if features & 1 != 0 {
        reports = sync(&mut state, 2, u64::MAX).reports;
    }
    if features & 2 != 0 {
        sync(&mut state, 3, u64::MAX);
    }
    let parts = state.parts().unwrap();
    let (hart, bytes) = (parts.hart, parts.page);
    let (xlen, size) = (hart.xlen, if hart.xlen == Xlen::X32 { 4 } else { 8 });
    for (i, word) in bytes[..32 * size].chunks(size).enumerate().skip(1) {
        hart.x[i] = word.iter().rev().fold(0, |x, &byte| x << 8 | u64::from(byte));
    }
    if features & 8 != 0 && bytes[0x200] & 1 == 1 {
        let old = hart.hstatus;
        reports.extend(write_told(hart, Csr::Hstatus, page::word(xlen, bytes, 0x200 + size)));
        page::set_word(xlen, bytes, 0x200 + size, old);
    }
    (hart.virt, hart.hstatus) = (hart.hstatus & 0x80 != 0, hart.hstatus & !0x80);
    hart.mode = if hart.spp { Mode::S } else { Mode::U };
    (hart.sie, hart.spie, hart.spp) = (hart.spie, true, false);
    hart.pc = hart.sepc;
    for csr in [Csr::Hstatus, Csr::Hip, Csr::Vsip] {
        page::set_csr_word(xlen, bytes, csr, csr::read(hart, csr));
    }
    (Answer { code: 0, value: 0, resumed: true, reports }, state)
}

/// SRET on random states with every set of features that allows it.
#[test]
fn random_returns() {
    for (xlen, swap) in [(Xlen::X32, 0x204), (Xlen::X64, 0x208)] {
        let mut rng = Rng::new(5);
        let mut swapped = 0;
        for round in 0..3000 {
            let mut start = gen::good_state(&mut rng, xlen);
            start.hart.features = 4 | round & 11;
            let mut state = start.clone();
            let args = [gen::word(&mut rng, Xlen::X64); 3];
            let answer = calls::call(&mut state, EID, SYNC_SRET, args);
            let (expected, end) = expected_return(&start);
            assert_eq!((answer, &state), (expected, &end));
            assert!(state.hart.is_well_made());
            swapped += u32::from(page_word(&state, swap) != page_word(&start, swap));
        }
        assert!(swapped > 100, "{swapped}");
    }
}

/// A word of the state's page.
fn page_word(state: &State, offset: usize) -> u64 {
    page::word(state.hart.xlen, state.page().unwrap(), offset)
}

/// SRET by hand: the swap brings SPV, the mode comes from SPP, and the words are stored.
#[test]
fn return_with_swap() {
    let mut state = small_state();
    state.hart.sepc = 0x1234;
    state.hart.spp = true;
    state.hart.spie = true;
    state.hart.pc = 1;
    let bytes = &mut state.memory.bytes;
    page::set_word(Xlen::X64, bytes, 0, 0xDEAD);
    page::set_word(Xlen::X64, bytes, 8, 11);
    page::set_word(Xlen::X64, bytes, 0xF8, 31);
    page::set_word(Xlen::X64, bytes, 0x200, 0xFFFF_FFFF_FFFF_FFFF);
    page::set_word(Xlen::X64, bytes, 0x208, 0x3080);
    mark(&mut state, Csr::Hstatus, 0x40);
    let answer = calls::call(&mut state, EID, SYNC_SRET, [0; 3]);
    assert!(answer.resumed);
    let hart = &state.hart;
    assert!(hart.virt && hart.mode == Mode::S);
    assert!(hart.sie && hart.spie && !hart.spp);
    assert_eq!(hart.pc, 0x1234);
    assert_eq!((hart.x[0], hart.x[1], hart.x[31]), (0, 11, 31));
    assert_eq!(hart.hstatus, 0x2_0000_3000);
    assert_eq!(page_word(&state, 0x208), 0x2_0000_0040);
    assert_eq!(csr_word(&state, Csr::Hstatus), 0x2_0000_3000);
    assert_eq!(calls::call(&mut state, EID, SYNC_SRET, [0; 3]).code, -2);
}

/// Without feature 0 no register is synchronized, and three words are stored though dirty.
#[test]
fn return_without_registers() {
    let mut state = small_state();
    state.hart.features = 4;
    state.hart.spp = true;
    mark(&mut state, Csr::Hstatus, 0x80);
    mark(&mut state, Csr::Hvip, 0x444);
    mark(&mut state, Csr::Hip, 0x444);
    put_entry(&mut state, 0, pending(1, 0, 0, 0, 0, 0));
    assert!(calls::call(&mut state, EID, SYNC_SRET, [0; 3]).resumed);
    assert!(!state.hart.virt && state.hart.mode == Mode::S);
    assert!(get_entry(&state, 0).is_pending());
    for csr in [Csr::Hstatus, Csr::Hvip, Csr::Hip] {
        assert!(dirty(&state, csr));
    }
    assert_eq!(csr_word(&state, Csr::Hstatus), 0x2_0000_0000);
    assert_eq!(csr_word(&state, Csr::Hip), 0);
    assert_eq!(csr_word(&state, Csr::Hvip), 0x444);
}

/// A line change stores the lines and exactly the clean ones of three words.
#[test]
fn random_line_changes() {
    let mut rng = Rng::new(6);
    for round in 0..6000 {
        let xlen = Xlen::BOTH[round % 2];
        let start = gen::state(&mut rng, xlen);
        let any = gen::word(&mut rng, Xlen::X64);
        let number = if rng.one_in(4) { any } else { any & 0xFE };
        let mut state = start.clone();
        let answer = lines::change(&mut state, number);
        assert_eq!(answer, Answer::plain(answer.code, 0));
        let mut expected = start.clone();
        if !start.hart.is_well_made()
            || !start.table.len().is_multiple_of(4)
            || start.table.len() > 1024
        {
            assert_eq!(answer.code, -1);
        } else if number & !0xFE != 0 {
            assert_eq!(answer.code, -3);
        } else {
            assert_eq!(answer.code, 0);
            expected.hart.lines = number;
            if let Some(parts) = expected.parts() {
                for csr in [Csr::Hgeip, Csr::Hip, Csr::Vsip] {
                    let clean = parts.hart.features & 1 == 0 || !page::is_dirty(parts.page, csr);
                    if clean {
                        page::set_csr_word(xlen, parts.page, csr, csr::read(parts.hart, csr));
                    }
                }
            }
        }
        assert_eq!(state, expected);
    }
}

/// A line change by hand, with hip's word dirty; the number given is never cut.
#[test]
fn line_change_by_hand() {
    for xlen in Xlen::BOTH {
        assert_line_change(small_state_at(xlen));
    }
}

/// Changes the lines of a small state.
fn assert_line_change(mut state: State) {
    state.hart.hgeie = 0x08;
    state.hart.hideleg = 0x400;
    state.hart.hstatus |= 3 << 12;
    mark(&mut state, Csr::Hip, 0x55);
    assert_eq!(lines::change(&mut state, 0x08).code, 0);
    assert_eq!(csr_word(&state, Csr::Hgeip), 0x08);
    assert_eq!(csr_word(&state, Csr::Hip), 0x55);
    assert_eq!(csr_word(&state, Csr::Vsip), 0x200);
    state.hart.page = None;
    let before = state.memory.clone();
    assert_eq!(lines::change(&mut state, 0).code, 0);
    assert_eq!((state.hart.lines, &state.memory), (0, &before));
    for bad in [1, 0x100, 1 << 32, 1 << 32 | 2, u64::MAX] {
        assert_eq!(lines::change(&mut state, bad).code, -3);
    }
}

/// V, mode and features do not stop a line change.
#[test]
fn line_change_in_guest() {
    let mut state = small_state();
    state.hart = Hart { virt: true, mode: Mode::U, features: 0, ..state.hart };
    mark(&mut state, Csr::Hgeip, 0x55);
    assert_eq!(lines::change(&mut state, 0x02).code, 0);
    assert_eq!(csr_word(&state, Csr::Hgeip), 0x02);
    assert!(dirty(&state, Csr::Hgeip));
}
