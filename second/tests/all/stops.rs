//! Demand 3: calls that are stopped, and the totals of steps.

use second::calls::{self, ALL, EID, SYNC_CSR, SYNC_FENCE};
use second::csr::{self, Csr};
use second::gen;
use second::hart::Hart;
use second::page;
use second::rng::Rng;
use second::state::State;
use second::steps::{self, Step};
use second::xlen::Xlen;

use crate::common::*;

/// A register or fence call of a width with its number and argument.
#[derive(Clone, Copy, Debug)]
struct Sync {
    xlen: Xlen,
    eid: u64,
    fid: u64,
    a0: u64,
}

impl Sync {
    /// Any register or fence call, mostly a good one.
    fn random(rng: &mut Rng, xlen: Xlen) -> Sync {
        let fid = 2 + rng.below(2);
        let eid = if rng.one_in(20) { rng.bits() } else { EID };
        Sync { xlen, eid, fid, a0: gen::sync_argument(rng, xlen, fid) }
    }

    /// The good call that asks for every register or every entry.
    fn all(xlen: Xlen, fid: u64) -> Sync {
        Sync { xlen, eid: EID, fid, a0: ALL }
    }

    /// The total of steps from this state; 0 for a refusal.
    fn total(&self, state: &State) -> u64 {
        steps::plan(state, self.eid, self.fid, self.a0).map_or(0, |plan| plan.len() as u64)
    }

    /// The registers that the call serves, in turn order.
    fn served(&self) -> Vec<Csr> {
        let a0 = self.xlen.cut(self.a0);
        let is_all = a0 == self.xlen.ones();
        let serves = |csr: &Csr| self.fid == SYNC_CSR && (is_all || a0 == csr.number());
        csr::turn_order(self.xlen).iter().copied().filter(serves).collect()
    }
}

/// The conditions on marks after a stop, told from the start and the present state alone. They
/// leave the count of dropped writes out.
fn assert_marks(start: &State, now: &State, call: Sync) {
    let Some(page_then) = start.page() else {
        assert_eq!(now, start);
        return;
    };
    let page_now = now.page().unwrap();
    let xlen = call.xlen;
    let mut written = Hart { dropped: now.hart.dropped, ..start.hart.clone() };
    for &csr in csr::turn_order(xlen) {
        if page::is_dirty(page_then, csr) && !page::is_dirty(page_now, csr) {
            csr::write(&mut written, csr, page::csr_word(xlen, page_then, csr));
        }
    }
    let next = call.served().into_iter().find(|&csr| page::is_dirty(page_now, csr));
    let mut one_more = written.clone();
    if let Some(csr) = next {
        csr::write(&mut one_more, csr, page::csr_word(xlen, page_then, csr));
    }
    assert!(now.hart == written || now.hart == one_more, "record after a stop of {call:x?}");
    for number in 0..xlen.entry_count() {
        let entry = get_entry(start, number);
        if entry.is_pending() && !get_entry(now, number).is_pending() {
            let left = now.table.chunks(4).any(|slot| entry.names(slot));
            assert!(!left, "entry {number} is marked done and names a slot that is left");
        }
    }
}

/// Runs the stops one after the other, then the whole call, and compares with one unbroken call.
/// The reports and the count are those of the writes that were made, some of them twice.
fn assert_demand_3(start: &State, call: Sync, stops: &[u64]) {
    let Sync { eid, fid, a0, .. } = call;
    let mut state = start.clone();
    let mut reports = 0;
    for &limit in stops {
        let total = call.total(&state);
        let run = steps::run(&mut state, eid, fid, a0, limit);
        let accepted = run.code == 0;
        assert_eq!(run.code, code_of(start, eid, fid, [a0, 0, 0]));
        assert_eq!((run.value, run.steps), (0, limit.min(total)));
        assert_eq!(run.finished, accepted && total <= limit);
        assert!(accepted || (state == *start && run.reports.is_empty()));
        assert_marks(start, &state, call);
        reports += run.reports.len();
        assert_eq!(state.hart.dropped, counted(start.hart.dropped, reports));
    }
    let mut unbroken = start.clone();
    let expected = calls::call(&mut unbroken, eid, fid, [a0, 0, 0]);
    let answer = calls::call(&mut state, eid, fid, [a0, 0, 0]);
    assert_eq!((answer.code, answer.value), (expected.code, expected.value));
    assert!(reports + answer.reports.len() >= expected.reports.len());
    unbroken.hart.dropped = counted(start.hart.dropped, reports + answer.reports.len());
    assert_eq!(state, unbroken, "end after stops {stops:?} of {call:x?}");
}

/// Every single stop position, for register calls.
#[test]
fn every_stop_of_registers() {
    for xlen in Xlen::BOTH {
        let mut rng = Rng::new(20);
        for round in 0..300 {
            let start = gen::good_state(&mut rng, xlen);
            let one = rng.pick(csr::turn_order(xlen)).number();
            let a0 = if round % 3 == 0 { one } else { ALL };
            let call = Sync { a0, ..Sync::all(xlen, SYNC_CSR) };
            for limit in 0..=call.total(&start) + 1 {
                assert_demand_3(&start, call, &[limit]);
            }
        }
    }
}

/// Every single stop position, for fence calls.
#[test]
fn every_stop_of_fences() {
    for xlen in Xlen::BOTH {
        let mut rng = Rng::new(21);
        for round in 0..150 {
            let start = gen::good_state(&mut rng, xlen);
            let one = rng.below(xlen.entry_count() as u64);
            let a0 = if round % 4 == 0 { one } else { ALL };
            let call = Sync { a0, ..Sync::all(xlen, SYNC_FENCE) };
            for limit in 0..=call.total(&start) + 1 {
                assert_demand_3(&start, call, &[limit]);
            }
        }
    }
}

/// Random lists of stops, perhaps empty, on any state and any call.
#[test]
fn random_lists_of_stops() {
    for xlen in Xlen::BOTH {
        let mut rng = Rng::new(22);
        for _ in 0..5000 {
            let start = gen::state(&mut rng, xlen);
            let call = Sync::random(&mut rng, xlen);
            let mut stops = Vec::new();
            for _ in 0..rng.below(8) {
                let small = rng.below(12);
                let some = rng.below(call.total(&start) + 2);
                let any = rng.bits();
                stops.push(rng.pick(&[small, some, some, some, any]));
            }
            assert_demand_3(&start, call, &stops);
        }
    }
}

/// Two stops, at all pairs of positions, on a few small states.
#[test]
fn all_pairs_of_stops() {
    let mut rng = Rng::new(23);
    for round in 0..12 {
        let xlen = Xlen::BOTH[round % 2];
        let mut start = gen::good_state(&mut rng, xlen);
        start.table.truncate(40);
        for fid in [SYNC_CSR, SYNC_FENCE] {
            let call = Sync::all(xlen, fid);
            let total = call.total(&start);
            for first in 0..=total {
                for second in 0..=total {
                    assert_demand_3(&start, call, &[first, second]);
                }
            }
        }
    }
}

/// A state in which exactly these registers are dirty.
fn dirty_state(xlen: Xlen, registers: &[Csr]) -> State {
    let mut state = small_state_at(xlen);
    for &csr in registers {
        mark(&mut state, csr, 0xFFFF);
    }
    state
}

/// The steps of hvip's and hip's turns, written out by hand.
#[test]
fn steps_by_hand() {
    let state = dirty_state(Xlen::X64, &[Csr::Hvip, Csr::Vsip]);
    let plan = |csr: Csr| steps::plan(&state, EID, SYNC_CSR, csr.number()).unwrap();
    let hvip = [
        Step::WriteRegister(Csr::Hvip),
        Step::ClearDirty(Csr::Hvip),
        Step::StoreOwn(Csr::Hvip),
        Step::StoreFollower(Csr::Hip),
    ];
    assert_eq!(plan(Csr::Hvip), hvip);
    assert_eq!(plan(Csr::Hip), [Step::StoreOwn(Csr::Hip)]);
    assert_eq!(plan(Csr::Hgeip), [Step::StoreOwn(Csr::Hgeip)]);
    let mut fences = state_with_slots(&[slot(false, 1, 0, 0, 0), slot(false, 2, 0, 0, 0)]);
    put_entry(&mut fences, 4, pending(3, 0, 2, 0, 0, 0));
    put_entry(&mut fences, 9, pending(1, 0, 0, 0, 0, 0));
    let expected =
        [Step::RemoveSlot(1), Step::ClearPending(4), Step::RemoveSlot(0), Step::ClearPending(9)];
    assert_eq!(steps::plan(&fences, EID, SYNC_FENCE, ALL).unwrap(), expected);
}

/// The total of a register call, counted from the set of dirty registers.
fn register_total(state: &State) -> u64 {
    let is_dirty = |csr: Csr| u64::from(dirty(state, csr));
    let order = csr::turn_order(state.hart.xlen);
    let turns: u64 = order.iter().map(|&csr| 1 + 2 * is_dirty(csr)).sum();
    // Followers that come later in turn order get no store while they are dirty.
    let lost = 3 * is_dirty(Csr::Hip) + 2 * is_dirty(Csr::Vsie) + 4 * is_dirty(Csr::Vsip);
    turns + 13 - lost
}

/// Register totals are as counted; bound, greatest total that is reached, and total of none dirty.
#[test]
fn register_totals() {
    for (xlen, bound, reached, clean) in [(Xlen::X32, 88, 82, 38), (Xlen::X64, 82, 76, 36)] {
        let call = Sync::all(xlen, SYNC_CSR);
        let mut rng = Rng::new(24);
        for _ in 0..3000 {
            let state = gen::good_state(&mut rng, xlen);
            let total = call.total(&state);
            assert_eq!(total, register_total(&state));
            assert!(total <= bound);
        }
        let mut most = 0;
        for spared in 0..8 {
            let keep = |csr: &Csr| match csr {
                Csr::Hip => spared & 1 == 0,
                Csr::Vsie => spared & 2 == 0,
                Csr::Vsip => spared & 4 == 0,
                _ => true,
            };
            let registers: Vec<Csr> = csr::turn_order(xlen).iter().copied().filter(keep).collect();
            most = most.max(call.total(&dirty_state(xlen, &registers)));
        }
        assert_eq!(most, reached);
        assert_eq!(call.total(&dirty_state(xlen, &[])), clean);
    }
}

/// Fence totals are the slots removed and the entries pending; the bound is reached.
#[test]
fn fence_totals() {
    let count = |state: &State| used(state).into_iter().filter(|&used| used).count() as u64;
    for (xlen, entries, bound) in [(Xlen::X32, 120, 376), (Xlen::X64, 60, 316)] {
        let call = Sync::all(xlen, SYNC_FENCE);
        let mut rng = Rng::new(25);
        for _ in 0..3000 {
            let start = gen::good_state(&mut rng, xlen);
            let mut state = start.clone();
            sync(&mut state, SYNC_FENCE, ALL);
            let is_pending = |number: &usize| get_entry(&start, *number).is_pending();
            let pending = (0..entries).filter(is_pending).count() as u64;
            let total = call.total(&start);
            assert_eq!(total, pending + count(&start) - count(&state));
            assert!(total <= bound);
        }
        let mut full = state_with_slots_at(xlen, &[slot(false, 1, 1, 1, 1); 256]);
        for number in 0..entries {
            put_entry(&mut full, number, pending_at(xlen, 1, 0, [0, 0], [0, 0]));
        }
        assert_eq!(call.total(&full), bound);
        let run = steps::run(&mut small_state_at(xlen), EID, SYNC_FENCE, ALL, 0);
        assert_eq!((run.code, run.steps, run.finished), (0, 0, true));
    }
}

/// One more step changes one thing: the record, one word of the page or its bit, or one slot.
#[test]
fn one_step_changes_one_thing() {
    let mut rng = Rng::new(26);
    for round in 0..80 {
        let xlen = Xlen::BOTH[round % 2];
        let start = gen::good_state(&mut rng, xlen);
        for fid in [SYNC_CSR, SYNC_FENCE] {
            let mut before = start.clone();
            for limit in 1..=Sync::all(xlen, fid).total(&start) {
                let mut after = start.clone();
                steps::run(&mut after, EID, fid, ALL, limit);
                let old = before.page().unwrap().chunks(xlen.bytes());
                let new = after.page().unwrap().chunks(xlen.bytes());
                let words = old.zip(new).filter(|(old, new)| old != new).count();
                let slots = before.table.chunks(4).zip(after.table.chunks(4));
                let slots = slots.filter(|(old, new)| old != new).count();
                assert!(words + slots + usize::from(before.hart != after.hart) <= 1);
                before = after;
            }
        }
    }
}
