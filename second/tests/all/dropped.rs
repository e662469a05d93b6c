//! Dropped bits by hand: which bits of a word each register reports.

use second::calls::{Answer, ALL, EID, SYNC_CSR};
use second::csr::{self, Csr};
use second::dropped::Report;
use second::hart::Hart;
use second::state::State;
use second::steps;
use second::xlen::Xlen;

use crate::common::*;

/// The word of T8, and the bits of it that are dropped from a fresh hgatp.
pub const T8: u64 = 0x9000_0000_0000_0007;
pub const T8_BITS: u64 = 0x9000_0000_0000_0003;

/// A small state of width 64 with hgatp dirty as in T8.
pub fn t8_state() -> State {
    let mut state = small_state();
    mark(&mut state, Csr::Hgatp, T8);
    state
}

/// What a write through the page reports, from this state; the whole call, that of the register
/// alone and both stoppable ones must tell the same.
fn told(start: &State, csr: Csr, word: u64) -> Vec<Report> {
    let mut start = start.clone();
    mark(&mut start, csr, word);
    let mut all = start.clone();
    let answer = sync(&mut all, SYNC_CSR, ALL);
    for a0 in [ALL, csr.number()] {
        let (mut whole, mut stoppable) = (start.clone(), start.clone());
        assert_eq!(sync(&mut whole, SYNC_CSR, a0), answer);
        let run = steps::run(&mut stoppable, EID, SYNC_CSR, a0, 100);
        assert_eq!((run.code, run.value, &run.reports), (0, 0, &answer.reports));
        assert_eq!((&whole.hart, stoppable), (&all.hart, whole.clone()));
    }
    assert_eq!(all.hart.dropped, start.hart.dropped + answer.reports.len() as u32);
    assert_eq!(answer, Answer { reports: answer.reports.clone(), ..Answer::plain(0, 0) });
    answer.reports
}

/// The bits that a write reports; 0 if it reports nothing. There is at most one report.
fn bits_of(start: &State, csr: Csr, word: u64) -> u64 {
    match told(start, csr, word)[..] {
        [] => 0,
        [Report { csr: number, bits }] if number == csr.number() && bits != 0 => bits,
        ref others => panic!("{others:x?}"),
    }
}

/// A fresh hart has dropped nothing; a count of any size is well made.
#[test]
fn fresh() {
    for xlen in Xlen::BOTH {
        let mut hart = Hart::fresh_at(xlen, 15);
        assert_eq!(hart.dropped, 0);
        for count in [1, 1 << 31, u32::MAX] {
            hart.dropped = count;
            assert!(hart.is_well_made());
        }
    }
    assert_eq!(Hart::fresh(0).dropped, 0);
}

/// T8: the reading is 4, and bits 63, 60, 1 and 0 are dropped.
#[test]
fn t8() {
    assert_eq!(told(&small_state(), Csr::Hgatp, T8), [report(0x680, T8_BITS)]);
    let mut state = t8_state();
    assert_eq!(sync(&mut state, SYNC_CSR, 0x680).reports, [report(0x680, 0x9000_0000_0000_0003)]);
    assert_eq!((state.hart.hgatp, csr_word(&state, Csr::Hgatp), state.hart.dropped), (4, 4, 1));
    assert_eq!(sync(&mut state, SYNC_CSR, 0x680), Answer::plain(0, 0));
    assert_eq!(state.hart.dropped, 1);
}

/// A field that is kept: the bits in which the old one differs from the one given.
#[test]
fn kept_fields() {
    let mut state = small_state();
    state.hart.hgatp = 8 << 60;
    assert_eq!(bits_of(&state, Csr::Hgatp, T8), 1 << 60 | 3);
    state.hart.vsatp = 8 << 60;
    assert_eq!(bits_of(&state, Csr::Vsatp, 0xF << 60 | 5), 7 << 60);
    state.hart.vstvec = 1;
    assert_eq!(bits_of(&state, Csr::Vstvec, 0x8002), 3);
    assert_eq!(bits_of(&state, Csr::Vstvec, 0x8003), 2);
    state.hart.hstatus |= 3 << 12;
    assert_eq!(bits_of(&state, Csr::Hstatus, 2 << 32 | 8 << 12), 0xB << 12);
    assert_eq!(bits_of(&state, Csr::Hstatus, 2 << 32 | 7 << 12), 0);
}

/// Masks: what lies outside is dropped; a word that is taken whole reports nothing.
#[test]
fn masks() {
    let state = small_state();
    for (csr, taken) in [
        (Csr::Hgeie, 0xFE),
        (Csr::Hideleg, 0x444),
        (Csr::Hvip, 0x444),
        (Csr::Hie, 0x1444),
        (Csr::Hedeleg, 0xB1FF),
        (Csr::Hcounteren, 7),
        (Csr::Henvcfg, 1),
        (Csr::Vsepc, u64::MAX - 1),
        (Csr::Htimedelta, u64::MAX),
        (Csr::Htval, u64::MAX),
        (Csr::Htinst, u64::MAX),
        (Csr::Vsscratch, u64::MAX),
        (Csr::Vscause, u64::MAX),
        (Csr::Vstval, u64::MAX),
    ] {
        assert_eq!(bits_of(&state, csr, u64::MAX), !taken, "{csr:?}");
        assert_eq!(bits_of(&state, csr, taken), 0, "{csr:?}");
        assert_eq!(bits_of(&state, csr, 0), 0, "{csr:?}");
    }
}

/// Bits given 0 that read 1: VSXL and UXL at width 64, and bit 63 of vsstatus, both ways.
#[test]
fn bits_that_read_1() {
    let state = small_state();
    assert_eq!(bits_of(&state, Csr::Hstatus, 0), 0x2_0000_0000);
    assert_eq!(bits_of(&state, Csr::Hstatus, 0x2_0000_0080), 0);
    assert_eq!(bits_of(&state, Csr::Hstatus, 0x1_0000_0080), 0x3_0000_0000);
    assert_eq!(bits_of(&state, Csr::Vsstatus, 0), 0x2_0000_0000);
    assert_eq!(bits_of(&state, Csr::Vsstatus, 0x2_0000_6000), 1 << 63);
    assert_eq!(bits_of(&state, Csr::Vsstatus, 1 << 63 | 0x2_0000_6000), 0);
    assert_eq!(bits_of(&state, Csr::Vsstatus, 1 << 63 | 0x2_0000_2000), 1 << 63);
}

/// hip and hgeip read lines that are up, whatever is given; hip takes bit 2 alone. vsip and vsie
/// read what hideleg lets through.
#[test]
fn computed_registers() {
    for xlen in Xlen::BOTH {
        let mut state = small_state_at(xlen);
        (state.hart.lines, state.hart.hgeie) = (0x08, 0x08);
        state.hart.hstatus |= 3 << 12;
        assert_eq!(bits_of(&state, Csr::Hip, 0), 0x1400);
        assert_eq!(bits_of(&state, Csr::Hip, 0x1404), 0);
        assert_eq!(bits_of(&state, Csr::Hip, 0xFFFF), 0xEBFB);
        assert_eq!(bits_of(&state, Csr::Hgeip, 0), 0x08);
        assert_eq!(bits_of(&state, Csr::Hgeip, 0x08), 0);
        assert_eq!(bits_of(&state, Csr::Hgeip, 0x81), 0x89);
        assert_eq!(bits_of(&state, Csr::Vsip, 0x202), 0x202);
        assert_eq!(bits_of(&state, Csr::Vsie, 0x222), 0x222);
        state.hart.hideleg = 0x404;
        assert_eq!(bits_of(&state, Csr::Vsip, 0), 0x200);
        assert_eq!(bits_of(&state, Csr::Vsip, 0x22), 0x220);
        assert_eq!(bits_of(&state, Csr::Vsip, 0x202), 0);
        assert_eq!(bits_of(&state, Csr::Vsie, 0x222), 0x20);
        assert_eq!(bits_of(&state, Csr::Vsie, 0x202), 0);
    }
}

/// Width 32: its own fields, no VSXL and no UXL, and henvcfgh, which reads 0.
#[test]
fn width_32() {
    let state = small_state_at(Xlen::X32);
    for (csr, word, bits) in [
        (Csr::Hstatus, 0, 0),
        (Csr::Hstatus, 0xFFFF_FFFF, 0xFF8F_FC3F),
        (Csr::Hgatp, 0xFFFF_FFFF, 0x6000_0003),
        (Csr::Hgatp, 0x9000_0007, 3),
        (Csr::Vsatp, 0xFFFF_FFFF, 0),
        (Csr::Vsstatus, 0, 0),
        (Csr::Vsstatus, 0x6000, 0x8000_0000),
        (Csr::Vsstatus, 0x8000_2000, 0x8000_0000),
        (Csr::Vstvec, 0xFFFF_FFFF, 3),
        (Csr::Vsepc, 0xFFFF_FFFF, 1),
        (Csr::Htimedelta, 0xFFFF_FFFF, 0),
        (Csr::Htimedeltah, 0xFFFF_FFFF, 0),
        (Csr::Henvcfgh, 0x8000_0001, 0x8000_0001),
        (Csr::Henvcfgh, 0, 0),
        (Csr::Hedeleg, 0xFFFF_FFFF, 0xFFFF_4E00),
    ] {
        assert_eq!(bits_of(&state, csr, word), bits, "{csr:?} {word:x}");
    }
}

/// The reading is the one right after this write: later writes of the call do not matter, and those
/// before it do.
#[test]
fn right_after_the_write() {
    let mut state = small_state();
    mark(&mut state, Csr::Hvip, 4);
    mark(&mut state, Csr::Hip, 0);
    assert_eq!(sync(&mut state, SYNC_CSR, ALL), Answer::plain(0, 0));
    assert_eq!((state.hart.hvip, state.hart.dropped), (0, 0));
    let mut state = small_state();
    state.hart.lines = 0x10;
    mark(&mut state, Csr::Hgeie, 0x10);
    mark(&mut state, Csr::Hip, 0x1000);
    assert_eq!(sync(&mut state, SYNC_CSR, ALL), Answer::plain(0, 0));
    let mut state = small_state();
    mark(&mut state, Csr::Hip, 4);
    mark(&mut state, Csr::Hideleg, 4);
    mark(&mut state, Csr::Vsip, 0);
    mark(&mut state, Csr::Hvip, 0x40);
    let answer = sync(&mut state, SYNC_CSR, ALL);
    assert_eq!(answer.reports, [report(0x644, 0x40)]);
}

/// The order is that of the turns, which is not that of the numbers.
#[test]
fn order() {
    for xlen in Xlen::BOTH {
        let mut state = small_state_at(xlen);
        for &csr in csr::turn_order(xlen) {
            mark(&mut state, csr, xlen.ones());
        }
        let reports = sync(&mut state, SYNC_CSR, ALL).reports;
        let numbers: Vec<u64> = reports.iter().map(|told| told.csr).collect();
        let first = [0x600, 0xE12, 0x607, 0x603, 0x645, 0x604, 0x644, 0x204, 0x244, 0x602];
        let middle = if xlen == Xlen::X32 { &[0x606, 0x60A, 0x61A][..] } else { &[0x606, 0x60A] };
        let last = if xlen == Xlen::X32 { &[][..] } else { &[0x280] };
        let expected = [&first, middle, &[0x680, 0x200, 0x205, 0x241], last].concat();
        assert_eq!(numbers, expected);
        assert_eq!(state.hart.dropped, expected.len() as u32);
    }
}
