//! The bits that register writes drop, by hand: which writes report, what, and how they are counted.

use nathiroeng::REPORT_WORDS;
use second::calls::{ALL, EID, PROBE, SET, SYNC_CSR, SYNC_FENCE, SYNC_SRET};
use second::csr::{self, Csr};
use second::gen;
use second::page;
use second::state::State;

use super::tickets::{at, call, fact};
use super::Result;
use crate::case::Case;
use crate::input::{Action, Input, Outcome, Route, UNTOLD};
use crate::record;
use crate::scene::*;

/// The reports of an outcome that had room for all of them.
pub fn reports(end: &Outcome) -> Vec<[u64; 2]> {
    let pairs = end.reports.chunks(2).take(end.report_count());
    pairs.map(|pair| [pair[0], pair.get(1).copied().unwrap_or(0)]).collect()
}

/// Exactly these are reported.
pub fn are_told(case: &Case, end: &Outcome, expected: &[[u64; 2]]) -> Result {
    let found = reports(end);
    case.hold(found == expected, || format!("reports {found:x?} and not {expected:x?}"))
}

/// What hgatp is written with in most rows, and the bits that it drops.
pub fn hgatp(case: &Case) -> (u64, u64) {
    at(case, (0xFFFF_FFFF, 0x6000_0003), (0x9000_0000_0000_0007, 0x9000_0000_0000_0003))
}

/// A small state with hgatp marked.
fn start(case: &Case) -> State {
    let mut state = small(case.xlen, &[]);
    mark(&mut state, Csr::Hgatp, hgatp(case).0);
    state
}

/// A register call, or its first steps.
fn sync(a0: u64, limit: Option<u64>) -> Action {
    match limit {
        Some(limit) => Action::Stoppable { eid: EID, fid: SYNC_CSR, a0, limit },
        None => Action::Call { eid: EID, fid: SYNC_CSR, args: [a0, 0, 0] },
    }
}

/// T8: hgatp written 0x9000000000000007 reads 4 and reports 680 9000000000000003; the count is 1. By
/// number, for all, stoppable and by SRET. A second call, which SRET does not keep from, has nothing to
/// write.
pub fn mode_of_hgatp(case: &mut Case) -> Result {
    let mut state = start(case);
    state.hart.spp = true;
    let sret = Action::Call { eid: EID, fid: SYNC_SRET, args: [0; 3] };
    for action in [sync(0x680, None), sync(ALL, None), sync(ALL, Some(ALL)), sret] {
        let input = Input::new(&state, action);
        let end = case.expect(&input, 0)?;
        are_told(case, &end, &[[0x680, hgatp(case).1]])?;
        fact(case, end.words[record::DROPPED] == 1, "the count")?;
        let again = case.expect(&input.after(&end, sync(ALL, None)), 0)?;
        are_told(case, &again, &[])?;
        fact(case, again.words[record::DROPPED] == 1, "the count of both")?;
    }
    Ok(())
}

/// Bits given 0 that read 1 are dropped as well, and bit 63 or 31 of vsstatus where its bits 14:13
/// decide it. What a register takes whole is not reported.
pub fn either_way(case: &mut Case) -> Result {
    let (xl, top) = at(case, (0, 1 << 31), (0x2_0000_0000, 1 << 63));
    for (csr, word, bits) in [
        (Csr::Hstatus, 0, xl),
        (Csr::Hstatus, xl, 0),
        (Csr::Hstatus, xl | 1, 1),
        (Csr::Hstatus, 8 << 12 | xl, 8 << 12),
        (Csr::Vsstatus, 0, xl),
        (Csr::Vsstatus, xl | 0x6000, top),
        (Csr::Vsstatus, xl | top | 0x6000, 0),
        (Csr::Vsstatus, xl | top, top),
        (Csr::Hvip, 0xFFFF, 0xFBBB),
        (Csr::Hvip, 0x444, 0),
        (Csr::Vsscratch, ALL, 0),
        (Csr::Vstvec, 3, 3),
        (Csr::Vstvec, 1, 0),
        (Csr::Vsepc, 1, 1),
    ] {
        let mut state = small(case.xlen, &[]);
        mark(&mut state, csr, word);
        let end = call(case, &state, SYNC_CSR, [csr.number(), 0, 0], 0)?;
        let expected = [[csr.number(), bits]];
        are_told(case, &end, if bits == 0 { &[] } else { &expected })?;
    }
    Ok(())
}

/// Registers that are read from others report what differs: with line 3 up, selected and enabled, hip
/// written 0 drops 0x1400, hgeip written 0 its line, vsip and vsie what hideleg gives them.
pub fn derived(case: &mut Case) -> Result {
    let mut state = small(case.xlen, &[]);
    let hart = &mut state.hart;
    hart.hstatus |= 3 << 12;
    (hart.lines, hart.hgeie, hart.hideleg, hart.hie) = (8, 8, 0x400, 0x400);
    for (csr, word, bits) in [
        (Csr::Hip, 0, 0x1400),
        (Csr::Hip, 0x1404, 0),
        (Csr::Hip, ALL, case.xlen.ones() ^ 0x1404),
        (Csr::Hgeip, 0, 8),
        (Csr::Hgeip, 8, 0),
        (Csr::Vsip, 0, 0x200),
        (Csr::Vsip, 0x202, 2),
        (Csr::Vsie, 0x200, 0),
        (Csr::Vsie, 0x202, 2),
        (Csr::Vsie, 0, 0),
    ] {
        let mut state = state.clone();
        mark(&mut state, csr, word);
        let end = call(case, &state, SYNC_CSR, [csr.number(), 0, 0], 0)?;
        let expected = [[csr.number(), bits]];
        are_told(case, &end, if bits == 0 { &[] } else { &expected })?;
    }
    Ok(())
}

/// Probe, set, a drop, fences, a line change, another register's call, a clean register and every
/// refusal write no register: nothing is reported, and the count stays.
pub fn no_writes(case: &mut Case) -> Result {
    let mut state = start(case);
    state.hart.dropped = 7;
    for (fid, args, code) in [
        (PROBE, [0; 3], 0),
        (SET, [BASE, 0, 0], 0),
        (SET, [ALL, ALL, 0], 0),
        (SYNC_FENCE, [ALL, 0, 0], 0),
        (SYNC_CSR, [0x645, 0, 0], 0),
        (SYNC_CSR, [0x344, 0, 0], -3),
        (SET, [BASE + 1, 0, 0], -3),
        (SET, [BASE, 1, 0], -5),
        (5, [0; 3], -2),
    ] {
        let end = call(case, &state, fid, args, code)?;
        fact(case, end.words[record::DROPPED] == 7 && reports(&end).is_empty(), "no report")?;
    }
    let end = case.expect(&Input::new(&state, Action::Lines { lines: 8 }), 0)?;
    fact(case, end.words[record::DROPPED] == 7 && reports(&end).is_empty(), "no report")?;
    state.hart.page = None;
    call(case, &state, SYNC_CSR, [ALL, 0, 0], -9)?;
    state.hart.features = 14;
    call(case, &state, SYNC_CSR, [ALL, 0, 0], -2).map(|_| ())
}

/// Counts of dropped writes near the last, and small ones.
pub const COUNTS: [u32; 6] = [0, 1, u32::MAX - 3, u32::MAX - 2, u32::MAX - 1, u32::MAX];

/// The count stays at 2^32-1, and the reports are made all the same; in one call and, singly, in two.
pub fn last_count(case: &mut Case) -> Result {
    let (hvip, hgatp) = ([0x645, 0xFBBB], [0x680, hgatp(case).1]);
    for before in COUNTS {
        let mut state = start(case);
        state.hart.dropped = before;
        mark(&mut state, Csr::Hvip, 0xFFFF);
        let counts = [before, before.saturating_add(1), before.saturating_add(2)];
        for limit in [None, Some(ALL)] {
            let mut input = Input::new(&state, sync(ALL, limit));
            let end = case.expect(&input, 0)?;
            are_told(case, &end, &[hvip, hgatp])?;
            is_count(case, &end, counts[2])?;
            for (count, report) in counts[1..].iter().zip([hvip, hgatp]) {
                input.action = sync(report[0], limit);
                let end = case.expect(&input, 0)?;
                are_told(case, &end, &[report])?;
                is_count(case, &end, *count)?;
                input = input.after(&end, input.action);
            }
        }
    }
    Ok(())
}

/// The record's count is this.
pub fn is_count(case: &Case, end: &Outcome, count: u32) -> Result {
    let found = end.words[record::DROPPED];
    case.hold(found == u64::from(count), || format!("the count {found:#x} and not {count:#x}"))
}

/// A word of 2^32 or more is no count, and every call, line change and trap -1; any below is one.
pub fn count_word(case: &mut Case) -> Result {
    for (word, code) in [(0, 0), (u64::from(u32::MAX), 0), (1 << 32, -1), (ALL, -1)]
        .into_iter()
        .chain((32..64).map(|bit| (1 << bit | 5, -1)))
    {
        let trap = Action::Trap(super::back::FAULT);
        let lines = Action::Lines { lines: 8 };
        for action in [sync(ALL, None), sync(ALL, Some(9)), lines, trap] {
            let mut state = start(case);
            state.hart.virt = action == trap;
            for route in [Route::Names, Route::BLOCKS] {
                let mut input = Input { route, ..Input::new(&state, action) };
                input.words[record::DROPPED] = word;
                case.expect(&input, code)?;
            }
        }
    }
    Ok(())
}

/// A stop between the write and the clearing of the mark: the next run writes again, and both are
/// reported and counted, up to 2^32-1; a stop before or after is not so.
pub fn stops(case: &mut Case) -> Result {
    let told = [[0x680, hgatp(case).1]];
    let numbers = [0x680, 0x680 | at(case, 1 << 40, 0)];
    let starts = numbers.map(|a0| COUNTS.map(|count| (a0, count))).concat();
    for (first, [stopped, both]) in [(0, [0, 1]), (1, [1, 2]), (2, [1, 1]), (3, [1, 1])] {
        for &(a0, before) in &starts {
            let mut state = start(case);
            state.hart.dropped = before;
            let input = Input::new(&state, sync(a0, Some(first)));
            let end = case.expect(&input, 0)?;
            are_told(case, &end, &told[..stopped])?;
            is_count(case, &end, before.saturating_add(stopped as u32))?;
            let end = case.expect(&input.after(&end, sync(a0, None)), 0)?;
            are_told(case, &end, &told[..both - stopped])?;
            is_count(case, &end, before.saturating_add(both as u32))?;
        }
    }
    Ok(())
}

/// A small state with all ones in every register's word, marked, and in the swap word, with the flag.
fn full(case: &Case) -> State {
    let mut state = small(case.xlen, &[]);
    state.hart.lines = 0xFE;
    for &csr in csr::turn_order(case.xlen) {
        mark(&mut state, csr, case.xlen.ones());
    }
    let bytes = &mut state.memory.bytes;
    page::set_word(case.xlen, bytes, page::AUTOSWAP_FLAGS, 1);
    page::set_word(case.xlen, bytes, page::hstatus_swap(case.xlen), case.xlen.ones());
    state
}

/// SRET with all registers marked: a report of each that drops a bit of all ones, in turn order, then
/// the swap's; with any room for them.
pub fn most(case: &mut Case) -> Result {
    let state = full(case);
    let mut expected = Vec::new();
    let mut hart = state.hart.clone();
    for &csr in csr::turn_order(case.xlen).iter().chain(&[Csr::Hstatus]) {
        csr::write(&mut hart, csr, case.xlen.ones());
        let bits = case.xlen.ones() ^ csr::read(&hart, csr);
        if bits != 0 {
            expected.push([csr.number(), bits]);
        }
    }
    let sret = Action::Call { eid: EID, fid: SYNC_SRET, args: [0; 3] };
    check_rooms(case, &Input::new(&state, sret), &expected)
}

/// Exactly these are reported, whatever the room: the words that have room are written, those behind
/// the reports stay, and nothing else depends on it.
pub fn check_rooms(case: &mut Case, input: &Input, expected: &[[u64; 2]]) -> Result {
    let named = case.expect(input, 0)?;
    are_told(case, &named, expected)?;
    for room in (0..=REPORT_WORDS).chain([53, 60, 200]) {
        let end = case.expect(&Input { route: Route::with_room(room), ..input.clone() }, 0)?;
        let mut reports = expected.concat();
        reports.resize(room, UNTOLD);
        fact(case, end == Outcome { reports, ..named.clone() }, "the words that have room")?;
    }
    Ok(())
}

/// The room for the reports of a register call, by number and for all, and of its stoppable form.
pub fn rooms(case: &mut Case) -> Result {
    let (hvip, hgatp) = ([0x645, 0xFBBB], [0x680, hgatp(case).1]);
    let mut state = start(case);
    mark(&mut state, Csr::Hvip, 0xFFFF);
    for (action, expected) in [
        (sync(0x680, None), &[hgatp][..]),
        (sync(ALL, None), &[hvip, hgatp]),
        (sync(ALL, Some(ALL)), &[hvip, hgatp]),
        (sync(0x680, Some(1)), &[hgatp]),
        (sync(0x680, Some(0)), &[]),
        (sync(0x600, None), &[]),
    ] {
        check_rooms(case, &Input::new(&state, action), expected)?;
    }
    Ok(())
}

/// All registers at once, and each by its number in turn order: both end the same, with the same
/// reports and the same count.
pub fn singles(case: &mut Case) -> Result {
    let start = gen::good_state(&mut case.rng, case.xlen);
    let mut input = Input::new(&start, sync(ALL, None));
    let whole = case.expect(&input, 0)?;
    let mut said = Vec::new();
    for &csr in csr::turn_order(case.xlen) {
        input.action = sync(csr.number(), None);
        input.route = case.rng.pick(&[Route::Names, Route::Numbers, Route::BLOCKS]);
        let end = case.expect(&input, 0)?;
        said.extend(reports(&end));
        input = input.after(&end, input.action);
    }
    are_told(case, &whole, &said)?;
    let same = (whole.words, whole.memory, whole.table) == (input.words, input.memory, input.table);
    fact(case, same, "the end of the single calls")
}
