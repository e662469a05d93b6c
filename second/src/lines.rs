//! A change of the guest interrupt lines, made by the platform.

use crate::calls::{Answer, FAILED, INVALID_PARAM, SUCCESS};
use crate::csr::Csr;
use crate::hart::Hart;
use crate::state::State;

/// Stores the lines and, if the page lies in memory, the clean words that show them.
pub fn change(state: &mut State, lines: u64) -> Answer {
    if !state.passes_check_1() {
        return Answer::plain(FAILED, 0);
    }
    if lines & !Hart::LINE_BITS != 0 {
        return Answer::plain(INVALID_PARAM, 0);
    }
    state.hart.lines = lines;
    if let Some(mut parts) = state.parts() {
        parts.store_clean_words(&[Csr::Hgeip, Csr::Hip, Csr::Vsip]);
    }
    Answer::plain(SUCCESS, 0)
}
