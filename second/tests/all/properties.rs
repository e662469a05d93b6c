//! Closed-form properties of the calls on random states of both widths.

use std::cell::Cell;

use second::calls::{self, Answer, ALL, EID, SET, SYNC_CSR, SYNC_FENCE, SYNC_SRET};
use second::csr::{self, Csr};
use second::fence::Entry;
use second::gen;
use second::hart::Hart;
use second::lines;
use second::page;
use second::rng::Rng;
use second::state::State;
use second::steps;
use second::trap;
use second::xlen::Xlen;

use crate::common::*;

/// Tries a property so many times at each width, with a generator that begins with the seed.
fn at_both(seed: u64, rounds: u32, property: impl Fn(&mut Rng, Xlen)) {
    for xlen in Xlen::BOTH {
        let mut rng = Rng::new(seed);
        for _ in 0..rounds {
            property(&mut rng, xlen);
        }
    }
}

/// All registers at once are each register singly, in turn order, with the count and the reports.
#[test]
fn all_registers_are_each_singly() {
    at_both(10, 3000, |rng, xlen| {
        let mut whole = gen::good_state(rng, xlen);
        let mut singly = whole.clone();
        let answer = sync(&mut whole, SYNC_CSR, ALL);
        let mut reports = Vec::new();
        for csr in csr::turn_order(xlen) {
            let single = sync(&mut singly, SYNC_CSR, csr.number());
            assert_eq!(single.code, 0);
            reports.extend(single.reports);
        }
        assert_eq!((answer.code, answer.reports), (0, reports));
        assert_eq!(whole, singly);
    });
}

/// All fences at once are each fence singly, ascending.
#[test]
fn all_fences_are_each_singly() {
    at_both(11, 3000, |rng, xlen| {
        let mut whole = gen::good_state(rng, xlen);
        let mut singly = whole.clone();
        assert_eq!(sync(&mut whole, SYNC_FENCE, ALL), Answer::plain(0, 0));
        for index in 0..xlen.entry_count() as u64 {
            assert_eq!(sync(&mut singly, SYNC_FENCE, index), Answer::plain(0, 0));
        }
        assert_eq!(whole, singly);
    });
}

/// After a register call: the record has the dirty words written, and each word its reading.
#[test]
fn register_call_in_closed_form() {
    at_both(12, 3000, |rng, xlen| {
        let start = gen::good_state(rng, xlen);
        let mut state = start.clone();
        let answer = sync(&mut state, SYNC_CSR, ALL);
        let mut expected = start.clone();
        let parts = expected.parts().unwrap();
        let order = csr::turn_order(xlen);
        let mut reports = Vec::new();
        for &csr in order.iter().filter(|&&csr| dirty(&start, csr)) {
            reports.extend(write_told(parts.hart, csr, csr_word(&start, csr)));
            page::clear_dirty(parts.page, csr);
        }
        assert_eq!(answer, Answer { reports, ..Answer::plain(0, 0) });
        for &csr in order {
            page::set_csr_word(xlen, parts.page, csr, csr::read(parts.hart, csr));
        }
        assert_eq!(state, expected);
    });
}

/// After a call for one register: its word and its clean followers' words are readings.
#[test]
fn single_register_in_closed_form() {
    at_both(13, 3000, |rng, xlen| {
        let start = gen::good_state(rng, xlen);
        let csr = rng.pick(csr::turn_order(xlen));
        let mut state = start.clone();
        let answer = sync(&mut state, SYNC_CSR, csr.number());
        let mut expected = start.clone();
        let parts = expected.parts().unwrap();
        let mut reports = Vec::new();
        if dirty(&start, csr) {
            reports = write_told(parts.hart, csr, csr_word(&start, csr));
            page::clear_dirty(parts.page, csr);
        }
        assert_eq!(answer, Answer { reports, ..Answer::plain(0, 0) });
        let clean = |other: &&Csr| !dirty(&start, **other);
        for &stored in csr.followers().iter().filter(clean).chain([&csr]) {
            page::set_csr_word(xlen, parts.page, stored, csr::read(parts.hart, stored));
        }
        assert_eq!(state, expected);
    });
}

/// Stores the reading of every register in its word, where that word is clean.
fn refresh_clean_words(state: &mut State) {
    let parts = state.parts().unwrap();
    let xlen = parts.hart.xlen;
    for &csr in csr::turn_order(xlen) {
        if !page::is_dirty(parts.page, csr) {
            page::set_csr_word(xlen, parts.page, csr, csr::read(parts.hart, csr));
        }
    }
}

/// If all clean words are readings, they still are after each call, line change and trap.
#[test]
fn clean_words_stay_readings() {
    at_both(19, 6000, |rng, xlen| {
        let mut state = gen::good_state(rng, xlen);
        refresh_clean_words(&mut state);
        match rng.below(5) {
            0 => assert_eq!(lines::change(&mut state, rng.bits() & 0xFE).code, 0),
            1 => assert!(sync(&mut state, SYNC_SRET, 0).resumed),
            2 => {
                state.hart.virt = true;
                assert_eq!(trap::back(&mut state, gen::trap(rng, xlen)).code, 0);
            }
            _ => {
                let csr = rng.pick(csr::turn_order(xlen));
                assert_eq!(sync(&mut state, SYNC_CSR, csr.number()).code, 0);
            }
        }
        let before = state.clone();
        refresh_clean_words(&mut state);
        assert_eq!(state, before);
    });
}

/// After a fence call: no slot is left that a pending entry named, and the rest stays.
#[test]
fn fence_call_in_closed_form() {
    let removed = Cell::new(0);
    at_both(14, 3000, |rng, xlen| {
        let start = gen::good_state(rng, xlen);
        let count = xlen.entry_count();
        let a0 = if rng.one_in(3) { rng.below(count as u64) } else { ALL };
        let mut state = start.clone();
        assert_eq!(sync(&mut state, SYNC_FENCE, a0).code, 0);
        let served = |number: &usize| a0 == ALL || a0 == *number as u64;
        let is_pending = |number: &usize| get_entry(&start, *number).is_pending();
        let pending: Vec<usize> = (0..count).filter(served).filter(is_pending).collect();
        let mut expected = start.clone();
        for slot in expected.table.chunks_mut(4) {
            if pending.iter().any(|&number| get_entry(&start, number).names(slot)) {
                slot.fill(0);
                removed.set(removed.get() + 1);
            }
        }
        for number in pending {
            let entry = get_entry(&start, number);
            let done = Entry { config: entry.config & !(1 << (xlen.bits() - 1)), ..entry };
            put_entry(&mut expected, number, done);
        }
        assert_eq!(state, expected);
    });
    assert!(removed.get() > 20_000, "{}", removed.get());
}

/// A refusal changes nothing, has value 0 and reports nothing; success has value 0 but for probe.
#[test]
fn refusals_change_nothing() {
    let refused = Cell::new(0);
    at_both(15, 20_000, |rng, xlen| {
        let start = gen::state(rng, xlen);
        let call = gen::call(rng, &start);
        let fid = xlen.cut(call.fid);
        let mut state = start.clone();
        let answer = calls::call(&mut state, call.eid, call.fid, call.args);
        if answer.code != 0 {
            assert_eq!(answer, Answer::plain(answer.code, 0));
            assert_eq!(state, start);
            refused.set(refused.get() + 1);
        } else {
            assert_eq!(answer.resumed, fid == SYNC_SRET);
            assert!(answer.value == 0 || fid == 0);
            assert!(state.hart.is_well_made());
        }
    });
    assert!(refused.get() > 10_000 && refused.get() < 30_000, "{}", refused.get());
}

/// At width 32 a call is the call with its numbers cut to 32 bits.
#[test]
fn upper_bits_of_calls() {
    let mut rng = Rng::new(35);
    for _ in 0..10_000 {
        let start = gen::state(&mut rng, Xlen::X32);
        let call = gen::call(&mut rng, &start);
        let low = |number: u64| number & 0xFFFF_FFFF;
        let (mut wide, mut narrow) = (start.clone(), start);
        let answer = calls::call(&mut wide, call.eid, call.fid, call.args);
        let args = call.args.map(low);
        assert_eq!(calls::call(&mut narrow, low(call.eid), low(call.fid), args), answer);
        assert_eq!(wide, narrow);
    }
}

/// The bytes of a page that an accepted call may change.
fn may_change(xlen: Xlen, fid: u64) -> Vec<bool> {
    let bytes = if xlen == Xlen::X32 { 4 } else { 8 };
    let mut may = vec![fid == SET; xlen.page_size()];
    if fid == SYNC_CSR || fid == SYNC_SRET {
        for csr in csr::turn_order(xlen) {
            let index = page::index_of_number(csr.number());
            may[0xF80 + index / 8] = true;
            may[0x1000 + bytes * index..][..bytes].fill(true);
        }
    }
    if fid == SYNC_FENCE || fid == SYNC_SRET {
        for number in 0..xlen.entry_count() {
            may[0x800 + 4 * bytes * number + bytes - 1] = true;
        }
    }
    if fid == SYNC_SRET {
        may[0x200 + bytes..][..bytes].fill(true);
    }
    may
}

/// No byte outside the page changes, and inside it only those the call writes. The page of a set is
/// the one that it names; a drop writes nothing.
#[test]
fn other_bytes_stay() {
    at_both(16, 10_000, |rng, xlen| {
        let start = gen::state(rng, xlen);
        let call = gen::call(rng, &start);
        let mut state = start.clone();
        calls::call(&mut state, call.eid, call.fid, call.args);
        assert_eq!(state.memory.base, start.memory.base);
        assert_eq!(state.memory.bytes.len(), start.memory.bytes.len());
        let mut after = state.memory.bytes.clone();
        let is_set = xlen.cut(call.fid) == SET;
        if let Some(at) = if is_set { state.page_start() } else { start.page_start() } {
            for (k, may) in may_change(xlen, xlen.cut(call.fid)).into_iter().enumerate() {
                if may {
                    after[at + k] = start.memory.bytes[at + k];
                }
            }
        }
        assert_eq!(after, start.memory.bytes);
        assert_eq!(state.table.len(), start.table.len());
    });
}

/// Set changes the page address and memory alone, a drop only the address; a register call no slot;
/// a fence call no record field.
#[test]
fn other_parts_stay() {
    at_both(17, 10_000, |rng, xlen| {
        let start = gen::state(rng, xlen);
        let call = gen::call(rng, &start);
        let mut state = start.clone();
        let answer = calls::call(&mut state, call.eid, call.fid, call.args);
        let lo = xlen.cut(call.args[0]);
        match xlen.cut(call.fid) {
            SET if answer.code == 0 => {
                let page = if lo == xlen.ones() { None } else { Some(lo) };
                let hart = Hart { page, ..start.hart.clone() };
                let memory = page.map_or(start.memory.clone(), |_| state.memory.clone());
                assert_eq!(state, State { hart, memory, ..start });
            }
            SYNC_CSR => assert_eq!(state.table, start.table),
            SYNC_FENCE => assert_eq!(state.hart, start.hart),
            SYNC_SRET => assert_eq!(state.hart.page, start.hart.page),
            _ => assert_eq!(state, start),
        }
    });
}

/// The stoppable form with no limit is the whole form, with the count and the reports.
#[test]
fn stoppable_without_limit() {
    at_both(18, 10_000, |rng, xlen| {
        let start = gen::state(rng, xlen);
        let fid = 2 + rng.below(2);
        let a0 = gen::sync_argument(rng, xlen, fid);
        let eid = if rng.one_in(16) { rng.bits() } else { EID };
        let mut whole = start.clone();
        let answer = calls::call(&mut whole, eid, fid, [a0, 0, 0]);
        let mut state = start.clone();
        let run = steps::run(&mut state, eid, fid, a0, u64::MAX);
        assert_eq!((run.code, run.value, run.finished), (answer.code, 0, answer.code == 0));
        assert_eq!((run.reports, state), (answer.reports, whole));
    });
}
