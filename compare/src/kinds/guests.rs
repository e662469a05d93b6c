//! Chains that go into the guest and out of it.

use second::calls::{ALL, EID, PROBE, SET, SYNC_SRET};
use second::csr::{self, Csr};
use second::gen;
use second::hart::Mode;
use second::page;
use second::rng::Rng;
use second::state::State;

use super::tickets::fact;
use super::{calls, traps, Result};
use crate::case::Case;
use crate::input::{Action, Input};
use crate::record;

/// The hypervisor's turn: marks, a handler, where the guest begins, and mostly SPV, wherever hstatus
/// may come from: the record, its word or the swap word. Mode U is rare.
fn run_hypervisor(rng: &mut Rng, state: &mut State) {
    let hart = &mut state.hart;
    let xlen = hart.xlen;
    hart.mode = if rng.one_in(16) { Mode::U } else { Mode::S };
    (hart.sepc, hart.stvec) = (gen::word(rng, xlen) & !1, gen::word(rng, xlen) & !3);
    (hart.sie, hart.spie, hart.spp) = (rng.one_in(2), rng.one_in(2), rng.one_in(2));
    let Some(parts) = state.parts() else { return };
    if rng.one_in(2) {
        gen::fill_page(rng, xlen, parts.page);
    }
    if !rng.one_in(4) {
        parts.hart.hstatus |= csr::SPV;
        let word = page::csr_word(xlen, parts.page, Csr::Hstatus);
        page::set_csr_word(xlen, parts.page, Csr::Hstatus, word | csr::SPV);
        let place = page::hstatus_swap(xlen);
        let word = page::word(xlen, parts.page, place);
        page::set_word(xlen, parts.page, place, word | csr::SPV);
    }
}

/// The guest's turn: it is somewhere, in some mode. Now and then something marks words meanwhile, or
/// memory has moved, so that the page is not there.
fn run_guest(rng: &mut Rng, state: &mut State) {
    let xlen = state.hart.xlen;
    state.hart.pc = gen::word(rng, xlen);
    state.hart.mode = rng.pick(&[Mode::S, Mode::U]);
    (1..32).for_each(|i| state.hart.x[i] = xlen.cut(rng.bits()));
    match rng.below(4) {
        0 => traps::mark_some(rng, state),
        1 => state.memory.base ^= 1 << 20,
        _ => {}
    }
}

/// What comes next: in the guest mostly a trap, else mostly SRET, or set where there is no page.
fn event(rng: &mut Rng, state: &State, home: u64) -> Action {
    let trap = Action::Trap(gen::trap(rng, state.hart.xlen));
    let gen::Call { eid, fid, args } = gen::call(rng, state);
    let any = [trap, Action::Lines { lines: rng.bits() & 0xFE }, Action::Call { eid, fid, args }];
    if rng.one_in(3) {
        return rng.pick(&any);
    }
    match state.page_start() {
        _ if state.hart.virt => trap,
        Some(_) => Action::Call { eid: EID, fid: SYNC_SRET, args: [ALL; 3] },
        None => Action::Call { eid: EID, fid: SET, args: [home, 0, 0] },
    }
}

/// Probe is answered exactly with V off in mode S.
fn check_probe(case: &mut Case, state: &State) -> Result {
    let is_open = !state.hart.virt && state.hart.mode == Mode::S;
    let probe = Action::Call { eid: EID, fid: PROBE, args: [2, 0, 0] };
    let end = case.expect(&Input::new(state, probe), if is_open { 0 } else { -2 })?;
    fact(case, end.answer == [u64::from(is_open), 0, 0, 0, 0], "probe's value")
}

/// Sixteen events of a hart that has SRET and, by the case, any of the other features: calls, traps
/// and line changes, each on what the one before left, and probe after each. A trap is accepted
/// exactly with V on; in the guest and in mode U no call is.
pub fn chain(case: &mut Case) -> Result {
    let mut state = gen::good_state(&mut case.rng, case.xlen);
    state.hart.features = 4 | (case.index & 3) | (case.index & 4) << 1;
    let (base, home) = (state.memory.base, state.hart.page.unwrap_or_default());
    for _ in 0..16 {
        let rng = &mut case.rng;
        let is_guest = state.hart.virt;
        if is_guest {
            run_guest(rng, &mut state);
        } else {
            run_hypervisor(rng, &mut state);
        }
        let action = event(rng, &state, home);
        let mut input = Input::new(&state, action);
        input.route = calls::route(rng);
        let end = case.check(&input)?;
        let is_closed = is_guest || state.hart.mode == Mode::U;
        match action {
            Action::Trap(trap) => {
                fact(case, end.code == if is_guest { 0 } else { -2 }, "a trap's code")?;
                traps::check(case, &input, trap, &end)?;
            }
            Action::Call { .. } if is_closed => fact(case, end.code == -2, "a call's code")?,
            _ => {}
        }
        let Some(hart) = record::hart(&end.words) else {
            return fact(case, false, "no record is left");
        };
        (state.hart, state.memory.bytes, state.table) = (hart, end.memory, end.table);
        state.memory.base = base;
        check_probe(case, &state)?;
    }
    Ok(())
}
