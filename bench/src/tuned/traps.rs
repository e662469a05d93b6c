//! The trap back.

use second::calls::{FAILED, NOT_SUPPORTED, SUCCESS};
use second::trap::Trap;

use super::answers::Answer;
use super::calls::{autoswap, store_clean, SPV};
use super::record::State;
use super::words::{turn, HSTATUS, HTINST, HTVAL};

/// The bits GVA and SPVP of hstatus, as places.
const GVA: u64 = 6;
const SPVP: u64 = 8;

/// The guest is left, and the hart goes on in its handler.
pub fn trap(state: &mut State, trap: Trap) -> Answer {
    if !state.is_well_made() {
        return Answer::plain(FAILED, 0);
    }
    if !state.record.virt {
        return Answer::plain(NOT_SUPPORTED, 0);
    }
    let record = &mut state.record;
    let was_s = !record.user;
    let bits = ((trap.gva & 1) << GVA) | SPV | (u64::from(was_s) << SPVP);
    record.csrs[HSTATUS] = (record.csrs[HSTATUS] & !(1 << GVA | 1 << SPVP)) | bits;
    (record.virt, record.user) = (false, false);
    (record.spp, record.spie, record.sie) = (was_s, record.sie, false);
    (record.sepc, record.pc) = (record.pc & !1, record.stvec);
    (record.csrs[HTVAL], record.csrs[HTINST]) = (trap.htval, trap.htinst);
    (record.scause, record.stval) = (trap.cause, trap.tval);
    if let Some((record, page, _)) = state.parts() {
        autoswap(record, page);
        let shown = [turn::HSTATUS, turn::HTVAL, turn::HTINST, turn::HIP, turn::VSIP];
        store_clean(record, page, shown);
    }
    Answer::plain(SUCCESS, 0)
}
