//! Random traps back, and states for them.

use super::{good_state, state, widened, word};
use crate::hart::Mode;
use crate::rng::Rng;
use crate::state::State;
use crate::trap::Trap;
use crate::xlen::Xlen;

/// A cause: an exception that a guest often has, an interrupt, or any word.
fn cause(rng: &mut Rng, xlen: Xlen) -> u64 {
    match rng.below(3) {
        0 => rng.pick(&[2, 8, 10, 12, 13, 15, 20, 21, 22, 23]),
        1 => 1 << (xlen.bits() - 1) | rng.pick(&[1, 5, 9, 12]),
        _ => word(rng, xlen),
    }
}

/// Any trap; at width 32 its words sometimes have bits above 31. GVA is sometimes a number that is
/// neither 0 nor 1.
pub fn trap(rng: &mut Rng, xlen: Xlen) -> Trap {
    let words = [cause(rng, xlen), word(rng, xlen), word(rng, xlen), word(rng, xlen)];
    let [cause, tval, htval, htinst] = words.map(|word| widened(rng, xlen, word));
    let gva = if rng.one_in(4) { word(rng, Xlen::X64) } else { rng.below(2) };
    Trap { cause, tval, htval, htinst, gva }
}

/// A state in which every trap is accepted, with all features and the page in memory.
pub fn good_trap_state(rng: &mut Rng, xlen: Xlen) -> State {
    let mut state = good_state(rng, xlen);
    state.hart.virt = true;
    state.hart.mode = rng.pick(&[Mode::S, Mode::U]);
    state
}

/// Any state, mostly one with V on, in either mode and with any features.
pub fn trap_state(rng: &mut Rng, xlen: Xlen) -> State {
    let mut state = state(rng, xlen);
    state.hart.virt = !rng.one_in(8);
    state.hart.mode = rng.pick(&[Mode::S, Mode::U]);
    // Features that are damaged stay so.
    if rng.one_in(2) {
        state.hart.features ^= rng.below(16);
    }
    state
}
