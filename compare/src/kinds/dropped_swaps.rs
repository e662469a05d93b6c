//! The bits that the swap of hstatus drops, by hand.

use second::calls::{ALL, EID, SYNC_SRET};
use second::csr::Csr;
use second::hart::Mode;
use second::page;
use second::state::State;

use super::back::{guest, take, vsxl, FAULT};
use super::dropped::{are_told, check_rooms, is_count, COUNTS};
use super::tickets::{at, fact};
use super::Result;
use crate::case::Case;
use crate::input::{Action, Input, Outcome};
use crate::record;
use crate::scene::*;

/// Sets the flags of the swap and its word.
pub fn set_swap(state: &mut State, flags: u64, word: u64) {
    let (xlen, bytes) = (state.hart.xlen, &mut state.memory.bytes);
    page::set_word(xlen, bytes, page::AUTOSWAP_FLAGS, flags);
    page::set_word(xlen, bytes, page::hstatus_swap(xlen), word);
}

/// Swap words, and the bits of each that hstatus drops: VSXL reads 2 at width 64, VGEIN above 7 is not
/// taken, and the lowest bits read 0.
fn swaps(case: &Case) -> [(u64, u64); 6] {
    let (xl, top) = (vsxl(case), at(case, 1 << 31, 1 << 63));
    [
        (xl, 0),
        (xl | 0x80, 0),
        (0x80, xl),
        (xl | 0x9F, 0x1F),
        (xl | top | 0x3080, top),
        (xl | 8 << 12 | 0x80, 8 << 12),
    ]
}

/// The reports are these bits of 0x600, or none where there are none, and they are counted.
fn is_counted(case: &Case, end: &Outcome, bits: &[u64]) -> Result {
    let expected: Vec<[u64; 2]> =
        bits.iter().filter(|&&bits| bits != 0).map(|&bits| [0x600, bits]).collect();
    are_told(case, end, &expected)?;
    fact(case, end.words[record::DROPPED] == expected.len() as u64, "the count")
}

/// SRET's swap is judged by the reading right after its write, so SPV given 1 is not dropped. It comes
/// after the registers. Without feature 3 or the flag there is none, and feature 0 plays no part.
pub fn by_sret(case: &mut Case) -> Result {
    let sret = Action::Call { eid: EID, fid: SYNC_SRET, args: [0; 3] };
    for (word, bits) in swaps(case) {
        for (features, flags) in [(15, 1), (12, ALL), (7, 1), (15, 0), (15, ALL - 1)] {
            let mut state = small(case.xlen, &[]);
            state.hart.features = features;
            set_swap(&mut state, flags, word);
            let end = case.expect(&Input::new(&state, sret), 0)?;
            let is_swapped = features & 8 == 8 && flags & 1 == 1;
            is_counted(case, &end, &[if is_swapped { bits } else { 0 }])?;
            mark(&mut state, Csr::Hstatus, vsxl(case) | 2);
            let end = case.expect(&Input::new(&state, sret), 0)?;
            let written = if features & 1 == 1 { 2 } else { 0 };
            is_counted(case, &end, &[written, if is_swapped { bits } else { 0 }])?;
        }
    }
    Ok(())
}

/// The trap's swap; neither GVA, SPV and SPVP, which the trap sets, nor the words that are told are
/// writes. With no page in memory there is no swap, and without it no report.
pub fn by_trap(case: &mut Case) -> Result {
    for (word, bits) in swaps(case) {
        for (features, flags, page) in [
            (15, 1, Some(BASE)),
            (8, ALL, Some(BASE)),
            (7, 1, Some(BASE)),
            (15, 0, Some(BASE)),
            (15, 1, None),
            (15, 1, Some(BASE + 4096)),
        ] {
            let mut state = guest(case, Mode::S);
            // VGEIN 5 stays where the swap word's is not taken.
            let kept = if bits == 8 << 12 { 0xD << 12 } else { bits };
            (state.hart.features, state.hart.page) = (features, page);
            set_swap(&mut state, flags, word);
            let end = take(case, &state, FAULT, 0)?;
            let is_swapped = features & 8 == 8 && flags & 1 == 1 && page == Some(BASE);
            is_counted(case, &end, &[if is_swapped { kept } else { 0 }])?;
        }
    }
    let mut state = guest(case, Mode::S);
    set_swap(&mut state, 1, ALL);
    state.hart.virt = false;
    let end = take(case, &state, FAULT, -2)?;
    is_counted(case, &end, &[])
}

/// Any count and any room: SRET with hstatus marked, whose write and swap drop bits, and a trap whose
/// swap does. The count stays at 2^32-1, and the reports are made all the same.
pub fn counts_and_rooms(case: &mut Case) -> Result {
    let word = vsxl(case) | 0x9F;
    for before in COUNTS {
        let mut state = small(case.xlen, &[]);
        state.hart.dropped = before;
        set_swap(&mut state, 1, word);
        mark(&mut state, Csr::Hstatus, vsxl(case) | 2);
        let sret = Action::Call { eid: EID, fid: SYNC_SRET, args: [0; 3] };
        let input = Input::new(&state, sret);
        check_rooms(case, &input, &[[0x600, 2], [0x600, 0x1F]])?;
        let end = case.expect(&input, 0)?;
        is_count(case, &end, before.saturating_add(2))?;

        let mut state = guest(case, Mode::S);
        state.hart.dropped = before;
        set_swap(&mut state, 1, word);
        let input = Input::new(&state, Action::Trap(FAULT));
        check_rooms(case, &input, &[[0x600, 0x1F]])?;
        let end = case.expect(&input, 0)?;
        is_count(case, &end, before.saturating_add(1))?;
    }
    Ok(())
}
