//! Random calls, line changes and chains of both on random states.

use second::gen;
use second::rng::Rng;
use second::state::State;
use second::xlen::Xlen;

use super::Result;
use crate::case::Case;
use crate::input::{Action, Input, Route};
use crate::record;

/// Rooms for reports, in words: too little, odd, for all of them, and more.
pub const ROOMS: [usize; 7] = [0, 1, 2, 3, 51, 52, 60];

/// A state as the second program draws it, with any number of table words now and then.
pub fn state(rng: &mut Rng, xlen: Xlen) -> State {
    let mut state = gen::state(rng, xlen);
    if rng.one_in(8) {
        let any = rng.below(1033);
        let words = rng.pick(&[any, any & !3, any & !3]);
        let fill = if rng.one_in(2) { rng.bits() | 1 << 63 } else { 0 };
        state.table.resize(words as usize, fill);
    }
    state
}

/// Changes words of the record's block, also above bit 31: few, all of them, or the width's.
fn damage(rng: &mut Rng, words: &mut [u64]) {
    if rng.one_in(8) {
        words.iter_mut().for_each(|word| *word = gen::word(rng, Xlen::X64));
        return;
    }
    if rng.one_in(8) {
        words[record::XLEN] = width(rng);
        return;
    }
    for _ in 0..1 + rng.below(3) {
        let place = rng.below(words.len() as u64) as usize;
        words[place] = match rng.below(4) {
            0 => gen::word(rng, Xlen::X64),
            1 => words[place] ^ (1 << rng.below(64)),
            _ => rng.below(4),
        };
    }
}

/// What a width's word may hold: either width, something near, or anything.
pub fn width(rng: &mut Rng) -> u64 {
    let any = gen::word(rng, Xlen::X64);
    let bits = rng.pick(&[32, 64]);
    rng.pick(&[bits, bits ^ 1, 0, 128, bits | any << 32, any])
}

/// One of the three ways to the library; on blocks with any room for reports.
pub fn route(rng: &mut Rng) -> Route {
    let room = rng.pick(&ROOMS);
    rng.pick(&[Route::Names, Route::Numbers, Route::with_room(room)])
}

/// An input with this action on the state; the record is damaged now and then.
pub fn input(rng: &mut Rng, state: &State, action: Action) -> Input {
    let mut input = Input::new(state, action);
    if rng.one_in(12) {
        damage(rng, &mut input.words);
    }
    input.route = route(rng);
    input
}

/// A call, mostly one that fits the state, sometimes with any numbers of 64 bits.
fn action(rng: &mut Rng, state: &State) -> Action {
    let mut call = gen::call(rng, state);
    if rng.one_in(16) {
        match rng.below(3) {
            0 => call.eid = gen::word(rng, Xlen::X64),
            1 => call.fid = gen::word(rng, Xlen::X64),
            _ => {
                call.args = [
                    gen::word(rng, Xlen::X64),
                    gen::word(rng, Xlen::X64),
                    gen::word(rng, Xlen::X64),
                ]
            }
        }
    }
    Action::Call { eid: call.eid, fid: call.fid, args: call.args }
}

/// The platform's lines, mostly good ones.
fn any_lines(rng: &mut Rng) -> u64 {
    if rng.one_in(4) {
        gen::word(rng, Xlen::X64)
    } else {
        rng.bits() & 0xFE
    }
}

/// One call.
pub fn call(case: &mut Case) -> Result {
    let rng = &mut case.rng;
    let state = state(rng, case.xlen);
    let action = action(rng, &state);
    let input = input(rng, &state, action);
    case.check(&input).map(|_| ())
}

/// One line change.
pub fn lines(case: &mut Case) -> Result {
    let rng = &mut case.rng;
    let state = state(rng, case.xlen);
    let lines = any_lines(rng);
    let input = input(rng, &state, Action::Lines { lines });
    case.check(&input).map(|_| ())
}

/// A fresh record, for every small number of features and for any; and for any width's word.
pub fn fresh(case: &mut Case) -> Result {
    let features = if case.index < 32 { case.index } else { case.rng.bits() };
    let mut bits = case.xlen.bits().into();
    let state = gen::state(&mut case.rng, case.xlen);
    let mut route = route(&mut case.rng);
    if case.index % 4 == 3 && case.index > 32 {
        (bits, route) = (width(&mut case.rng), Route::BLOCKS);
    }
    let mut input = Input::new(&state, Action::Fresh { bits, features });
    input.route = route;
    let outcome = case.check(&input)?;
    let places = [29, record::XLEN, record::DROPPED];
    let made = places.map(|place| outcome.words[place]) == [features & 15, bits, 0];
    let kept = outcome.words == input.words;
    let good = if matches!(bits, 32 | 64) { outcome.code == 0 && made } else { kept };
    case.hold(good, || "the features, the width and the count of a fresh hart".to_string())
}

/// Up to sixteen calls, stoppable calls and line changes, each on what the one before left.
pub fn chain(case: &mut Case) -> Result {
    let xlen = case.xlen;
    let mut state = gen::good_state(&mut case.rng, xlen);
    for _ in 0..16 {
        let rng = &mut case.rng;
        let action = match rng.below(4) {
            0 => Action::Lines { lines: any_lines(rng) },
            1 => {
                let fid = 2 + rng.below(2);
                let a0 = gen::sync_argument(rng, xlen, fid);
                Action::Stoppable { eid: gen::call(rng, &state).eid, fid, a0, limit: rng.below(40) }
            }
            _ => action(rng, &state),
        };
        let mut input = Input::new(&state, action);
        input.route = route(rng);
        let outcome = case.check(&input)?;
        if let Some(hart) = record::hart(&outcome.words) {
            state.hart = hart;
        }
        state.memory.bytes = outcome.memory;
        state.table = outcome.table;
        refill(&mut case.rng, &mut state);
    }
    Ok(())
}

/// Lets the hypervisor mark registers and fences again, and leaves the guest.
fn refill(rng: &mut Rng, state: &mut State) {
    if rng.one_in(3) {
        if let Some(parts) = state.parts() {
            gen::fill_page(rng, parts.hart.xlen, parts.page);
        }
    }
    if rng.one_in(2) {
        state.hart.virt = false;
        state.hart.mode = second::hart::Mode::S;
    }
}
