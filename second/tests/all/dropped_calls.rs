//! Dropped bits by hand: the end of the count, calls that report nothing, and stopped calls.

use second::calls::{Answer, ALL, EID, PROBE, SET, SYNC_CSR, SYNC_FENCE};
use second::csr::Csr;
use second::lines;
use second::state::State;
use second::steps;

use crate::common::*;
use crate::dropped::{t8_state, T8_BITS};

/// The count stays at 2^32-1, and the report is made all the same.
#[test]
fn end_of_the_count() {
    let last = 0xFFFF_FFFF;
    for (before, after) in [(last - 2, last - 1), (last - 1, last), (last, last)] {
        let mut state = t8_state();
        state.hart.dropped = before;
        let mut stopped = state.clone();
        assert_eq!(sync(&mut state, SYNC_CSR, 0x680).reports, [report(0x680, T8_BITS)]);
        let run = steps::run(&mut stopped, EID, SYNC_CSR, ALL, 100);
        assert_eq!(run.reports, [report(0x680, T8_BITS)]);
        assert_eq!((state.hart.dropped, stopped.hart.dropped), (after, after));
        assert!(state.hart.is_well_made());
    }
    let mut state = t8_state();
    state.hart.dropped = last - 1;
    mark(&mut state, Csr::Hgeie, 1);
    mark(&mut state, Csr::Vsepc, 1);
    assert_eq!(sync(&mut state, SYNC_CSR, ALL).reports.len(), 3);
    assert_eq!(state.hart.dropped, last);
}

/// Other calls and a line change write no register: they report nothing and leave the count.
#[test]
fn other_calls() {
    for (fid, a0) in
        [(PROBE, 0), (SYNC_FENCE, ALL), (SYNC_FENCE, 7), (SET, BASE), (SYNC_CSR, 0x643)]
    {
        let mut state = t8_state();
        state.hart.dropped = 9;
        put_entry(&mut state, 7, pending(1, 0, 0, 0, 0, 0));
        let answer = sync(&mut state, fid, a0);
        assert_eq!((answer.code, answer.reports.len(), state.hart.dropped), (0, 0, 9));
    }
    let mut state = t8_state();
    mark(&mut state, Csr::Hip, 0);
    assert_eq!(lines::change(&mut state, 0xFE), Answer::plain(0, 0));
    assert_eq!(state.hart.dropped, 0);
}

/// A change to a state after which a call is refused.
pub type Change = fn(&mut State);

/// A refused call reports nothing and leaves the count, whatever is dirty.
#[test]
fn refusals() {
    let changes: [(Change, i64); 5] = [
        (|state| state.table.push(0), -1),
        (|state| state.hart.sepc = 1, -1),
        (|state| state.hart.virt = true, -2),
        (|state| state.hart.features = 14, -2),
        (|state| state.hart.page = None, -9),
    ];
    for (change, code) in changes {
        let mut start = t8_state();
        start.hart.dropped = 5;
        change(&mut start);
        assert_refused_everywhere(&start, 0x680, code);
    }
    assert_refused_everywhere(&t8_state(), 0x681, -3);
}

/// Asserts that a register call is refused in both forms, and changes and reports nothing.
fn assert_refused_everywhere(start: &State, a0: u64, code: i64) {
    let mut state = start.clone();
    assert_eq!(sync(&mut state, SYNC_CSR, a0), Answer::plain(code, 0));
    let run = steps::run(&mut state, EID, SYNC_CSR, a0, 100);
    assert_eq!((run.code, run.steps, run.reports), (code, 0, Vec::new()));
    assert_eq!(state, *start);
}

/// Each run reports and counts its own writes: a stopped turn that writes twice counts twice, and a
/// run that makes no write reports nothing.
#[test]
fn stops() {
    let mut state = t8_state();
    let once = vec![report(0x680, T8_BITS)];
    for (limit, reports, count) in [
        (0, &[][..], 0),
        (1, &once, 1),
        (1, &once, 2),
        (0, &[], 2),
        (2, &once, 3),
        (1, &[], 3),
        (9, &[], 3),
    ] {
        let run = steps::run(&mut state, EID, SYNC_CSR, 0x680, limit);
        assert_eq!((run.code, run.reports.as_slice(), state.hart.dropped), (0, reports, count));
    }
    assert_eq!(sync(&mut state, SYNC_CSR, ALL), Answer::plain(0, 0));
}

/// A write that is made again is judged anew: hip reads bit 12 once hgeie is written.
#[test]
fn written_again() {
    let mut state = small_state();
    state.hart.lines = 0x10;
    mark(&mut state, Csr::Hgeie, 0x11);
    mark(&mut state, Csr::Hip, 0x1004);
    for _ in 0..2 {
        let run = steps::run(&mut state, EID, SYNC_CSR, 0x644, 1);
        assert_eq!(run.reports, [report(0x644, 0x1000)]);
    }
    let run = steps::run(&mut state, EID, SYNC_CSR, ALL, 100);
    assert_eq!((run.reports, run.finished), (vec![report(0x607, 1)], true));
    assert_eq!(state.hart.dropped, 3);
}
