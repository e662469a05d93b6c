//! The trap back: the guest is left, and L1 goes on in its handler.

use crate::calls::{Answer, FAILED, NOT_SUPPORTED, SUCCESS};
use crate::csr::{self, Csr};
use crate::hart::{Hart, Mode};
use crate::state::State;
use crate::xlen::Xlen;

/// What a trap tells: four words, at width 32 not cut yet, and a number whose bit 0 is GVA.
#[derive(Clone, Copy, PartialEq, Eq, Debug)]
pub struct Trap {
    pub cause: u64,
    pub tval: u64,
    pub htval: u64,
    pub htinst: u64,
    pub gva: u64,
}

impl Trap {
    /// The trap as a hart of the width has it.
    fn cut(self, xlen: Xlen) -> Trap {
        Trap {
            cause: xlen.cut(self.cause),
            tval: xlen.cut(self.tval),
            htval: xlen.cut(self.htval),
            htinst: xlen.cut(self.htinst),
            gva: self.gva & 1,
        }
    }
}

/// Leaves the guest and, if the page lies in memory, swaps hstatus and stores the clean words that
/// show the trap. Neither the mode nor the features play a part in accepting it.
pub fn back(state: &mut State, trap: Trap) -> Answer {
    if !state.passes_check_1() {
        return Answer::plain(FAILED, 0);
    }
    if !state.hart.virt {
        return Answer::plain(NOT_SUPPORTED, 0);
    }
    emulate_trap(&mut state.hart, trap);
    let mut answer = Answer::plain(SUCCESS, 0);
    if let Some(mut parts) = state.parts() {
        parts.autoswap();
        parts.store_clean_words(&[Csr::Hstatus, Csr::Htval, Csr::Htinst, Csr::Hip, Csr::Vsip]);
        answer.reports = parts.reports;
    }
    answer
}

/// What the hart itself does at a trap from the guest.
fn emulate_trap(hart: &mut Hart, trap: Trap) {
    let trap = trap.cut(hart.xlen);
    let was_s = hart.mode == Mode::S;
    hart.virt = false;
    set_bit(&mut hart.hstatus, csr::GVA, trap.gva == 1);
    set_bit(&mut hart.hstatus, csr::SPV, true);
    set_bit(&mut hart.hstatus, csr::SPVP, was_s);
    hart.spp = was_s;
    hart.spie = hart.sie;
    hart.sie = false;
    hart.sepc = hart.pc & !1;
    hart.mode = Mode::S;
    hart.pc = hart.stvec;
    hart.htval = trap.htval;
    hart.htinst = trap.htinst;
    hart.scause = trap.cause;
    hart.stval = trap.tval;
}

/// Sets or clears one bit of a word.
fn set_bit(word: &mut u64, bit: u64, is_set: bool) {
    *word = if is_set { *word | bit } else { *word & !bit };
}
