//! Dropped bits of the swaps: at SRET after the registers, and at the trap back.

use second::calls::{Answer, SYNC_SRET};
use second::csr::Csr;
use second::dropped::Report;
use second::hart::Hart;
use second::page;
use second::state::State;
use second::trap;
use second::xlen::Xlen;

use crate::common::*;
use crate::dropped::{T8, T8_BITS};
use crate::dropped_calls::Change;

/// The small state with the flag set and this swap word.
fn with_swap(xlen: Xlen, swap: u64) -> State {
    let mut state = small_state_at(xlen);
    state.memory.bytes[0x200] = 1;
    let place = if xlen == Xlen::X32 { 0x204 } else { 0x208 };
    page::set_word(xlen, &mut state.memory.bytes, place, swap);
    state
}

/// The same state in the guest.
fn in_guest(state: &State) -> State {
    State { hart: Hart { virt: true, ..state.hart.clone() }, ..state.clone() }
}

/// What SRET reports; it must be accepted, and count what it reports.
fn returned(state: &mut State) -> Vec<Report> {
    let count = state.hart.dropped;
    let answer = sync(state, SYNC_SRET, 0);
    assert_eq!((answer.code, answer.value, answer.resumed), (0, 0, true));
    assert_eq!(state.hart.dropped, counted(count, answer.reports.len()));
    answer.reports
}

/// What a trap reports; it must be accepted, and count what it reports.
fn trapped(state: &mut State) -> Vec<Report> {
    let count = state.hart.dropped;
    let answer = trap::back(state, trap_of([21, u64::MAX, u64::MAX, u64::MAX], 1));
    assert_eq!((answer.code, answer.value, answer.resumed), (0, 0, false));
    assert_eq!(state.hart.dropped, counted(count, answer.reports.len()));
    answer.reports
}

/// Words for the swap, and what both swaps report of them, where VGEIN was 0 before.
fn swaps(xlen: Xlen) -> Vec<(u64, Vec<Report>)> {
    let rows = match xlen {
        Xlen::X32 => {
            [(0, 0), (0x80, 0), (0x0070_73C0, 0), (0x0000_8080, 0x8000), (0xFFFF_FFFF, 0xFF8F_FC3F)]
        }
        Xlen::X64 => [
            (0x2_0000_0000, 0),
            (0x2_0000_0080, 0),
            (0x80, 0x2_0000_0000),
            (0x2_0000_8080, 0x8000),
            (u64::MAX, 0xFFFF_FFFD_FF8F_FC3F),
        ],
    };
    let reports = |bits: u64| if bits == 0 { vec![] } else { vec![report(0x600, bits)] };
    rows.into_iter().map(|(word, bits)| (word, reports(bits))).collect()
}

/// The swap's report is against the reading right after its write: SPV, which SRET clears then, is
/// not dropped, and what the trap set before the swap is no write.
#[test]
fn both_swaps() {
    for xlen in Xlen::BOTH {
        for (word, reports) in swaps(xlen) {
            let mut state = with_swap(xlen, word);
            let mut guest = in_guest(&state);
            assert_eq!(returned(&mut state), reports, "{xlen:?} {word:x}");
            assert_eq!((state.hart.hstatus & 0x80, state.hart.virt), (0, word & 0x80 != 0));
            assert_eq!(trapped(&mut guest), reports, "{xlen:?} {word:x}");
        }
    }
}

/// VGEIN above 7 is kept: of 9 beside 3 the bits in which they differ are dropped.
#[test]
fn kept_vgein() {
    let mut state = with_swap(Xlen::X64, 2 << 32 | 9 << 12);
    state.hart.hstatus |= 3 << 12;
    let mut guest = in_guest(&state);
    assert_eq!(returned(&mut state), [report(0x600, 0xA000)]);
    assert_eq!(trapped(&mut guest), [report(0x600, 0xA000)]);
}

/// SRET reports the registers in turn order and then the swap, which is hstatus once more.
#[test]
fn registers_then_swap() {
    let mut state = with_swap(Xlen::X64, 0x8080);
    mark(&mut state, Csr::Vsepc, 0x1001);
    mark(&mut state, Csr::Hgatp, T8);
    mark(&mut state, Csr::Htval, u64::MAX);
    mark(&mut state, Csr::Hstatus, 1);
    let expected = [
        report(0x600, 0x2_0000_0001),
        report(0x680, T8_BITS),
        report(0x241, 1),
        report(0x600, 0x2_0000_8000),
    ];
    assert_eq!(returned(&mut state), expected);
    assert_eq!(state.hart.dropped, 4);
    let mut state = with_swap(Xlen::X32, 0x8080);
    mark(&mut state, Csr::Henvcfgh, 2);
    mark(&mut state, Csr::Hstatus, 1);
    let expected = [report(0x600, 1), report(0x61A, 2), report(0x600, 0x8000)];
    assert_eq!(returned(&mut state), expected);
}

/// Without feature 0 SRET writes no register; without feature 3 or the flag nothing swaps. The trap
/// never writes a dirty register.
#[test]
fn features() {
    for (features, xlen) in (0..16).flat_map(|features| Xlen::BOTH.map(|xlen| (features, xlen))) {
        for flags in [0, 1, 2, 0xFF] {
            let mut state = with_swap(xlen, xlen.ones());
            state.memory.bytes[0x200] = flags;
            mark(&mut state, Csr::Vsepc, 1);
            state.hart.features = features | 4;
            let mut guest = in_guest(&state);
            guest.hart.features = features;
            let has_swap = features & 8 != 0 && flags & 1 == 1;
            let numbers = |reports: Vec<Report>| -> Vec<u64> {
                reports.iter().map(|told| told.csr).collect()
            };
            let expected: Vec<u64> = [(0x241, features & 1 != 0), (0x600, has_swap)]
                .into_iter()
                .filter_map(|(number, is_written)| is_written.then_some(number))
                .collect();
            assert_eq!(numbers(returned(&mut state)), expected);
            let swapped: &[u64] = if has_swap { &[0x600] } else { &[] };
            assert_eq!(numbers(trapped(&mut guest)), swapped);
        }
    }
}

/// A trap with no page in memory swaps nothing and reports nothing.
#[test]
fn no_page() {
    for xlen in Xlen::BOTH {
        for page in [None, Some(0), Some(BASE + 4096)] {
            let mut guest = in_guest(&with_swap(xlen, xlen.ones()));
            guest.hart.page = page;
            assert_eq!(trapped(&mut guest), []);
            assert_eq!(guest.hart.dropped, 0);
        }
    }
}

/// There and back: what one swap leaves in the swap word is a reading, of which nothing is dropped.
#[test]
fn there_and_back() {
    let mut state = with_swap(Xlen::X64, u64::MAX);
    assert_eq!(returned(&mut state), [report(0x600, 0xFFFF_FFFD_FF8F_FC3F)]);
    for _ in 0..3 {
        assert_eq!(trapped(&mut state), []);
        assert_eq!(returned(&mut state), []);
    }
    assert_eq!(state.hart.dropped, 1);
}

/// The swap at the end of the count: its report is made, and the count stays at 2^32-1.
#[test]
fn end_of_the_count() {
    let last = 0xFFFF_FFFF;
    for (before, after) in [(last - 2, last - 1), (last - 1, last), (last, last)] {
        let mut state = with_swap(Xlen::X64, 0x80);
        state.hart.dropped = before;
        let mut guest = in_guest(&state);
        assert_eq!(returned(&mut state), [report(0x600, 2 << 32)]);
        assert_eq!(trapped(&mut guest), [report(0x600, 2 << 32)]);
        assert_eq!((state.hart.dropped, guest.hart.dropped), (after, after));
    }
    let mut state = with_swap(Xlen::X64, 0x80);
    state.hart.dropped = last - 1;
    mark(&mut state, Csr::Hgatp, T8);
    assert_eq!(returned(&mut state).len(), 2);
    assert_eq!(state.hart.dropped, last);
}

/// A refused SRET and a refused trap report nothing and leave all as it was.
#[test]
fn refusals() {
    for xlen in Xlen::BOTH {
        let start = with_swap(xlen, xlen.ones());
        let mut state = start.clone();
        assert_eq!(trap::back(&mut state, trap_of([21, 1, 2, 3], 1)), Answer::plain(-2, 0));
        assert_eq!(state, start);
        let guest = in_guest(&start);
        let mut state = guest.clone();
        assert_eq!(sync(&mut state, SYNC_SRET, 0), Answer::plain(-2, 0));
        assert_eq!(state, guest);
        let changes: [(Change, i64); 3] = [
            (|state| state.table.push(0), -1),
            (|state| state.hart.features = 11, -2),
            (|state| state.hart.page = None, -9),
        ];
        for (change, code) in changes {
            let mut changed = start.clone();
            mark(&mut changed, Csr::Vsepc, 1);
            change(&mut changed);
            let mut state = changed.clone();
            assert_eq!(sync(&mut state, SYNC_SRET, 0), Answer::plain(code, 0));
            assert_eq!(state, changed);
        }
    }
}
