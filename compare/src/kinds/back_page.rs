//! The trap back, by hand: what it leaves in the page, and the swap.

use second::calls::{ALL, EID, SYNC_CSR, SYNC_SRET};
use second::csr::Csr;
use second::hart::Mode;
use second::page;
use second::state::State;

use super::back::{guest, take, told, vsxl, words, FAULT};
use super::tickets::{at, fact};
use super::traps::SHOWN;
use super::Result;
use crate::case::Case;
use crate::input::{Action, Input};
use crate::record;
use crate::scene::*;

/// What the five words hold after the fault, from S and without the swap.
fn readings(case: &Case) -> [u64; 5] {
    [vsxl(case) | 0x20_53C0, 0x1402, 0x3003, 0x1404, 0x202]
}

/// Where the words of hstatus, htval, htinst, hip and vsip lie: index 0x100, 0x143, 0x14A, 0x144 and
/// 0x044.
const PLACES_32: [usize; 5] = [0x1400, 0x150C, 0x1528, 0x1510, 0x1110];
const PLACES_64: [usize; 5] = [0x1800, 0x1A18, 0x1A50, 0x1A20, 0x1220];

/// The clean words of hstatus, htval, htinst, hip and vsip are stored, and no other byte of memory.
/// The flags other than bit 0 do not count.
pub fn five_words(case: &mut Case) -> Result {
    let mut state = guest(case, Mode::S);
    state.memory.bytes = vec![0xA5; 4096 + case.xlen.page_size() + 100];
    state.hart.page = Some(BASE + 4096);
    state.memory.bytes[4096 + 0x200] = 0xFE;
    state.memory.bytes[4096 + 0xF80..][..0x80].fill(0);
    let mut expected = state.memory.bytes.clone();
    for (place, word) in at(case, PLACES_32, PLACES_64).into_iter().zip(readings(case)) {
        page::set_word(case.xlen, &mut expected, 4096 + place, word);
    }
    let end = take(case, &state, FAULT, 0)?;
    fact(case, end.memory == expected, "the bytes")
}

/// A dirty word stays with feature 0, each for itself, and is stored without it; its mark stays.
pub fn dirty_words(case: &mut Case) -> Result {
    for marked in 0..32 {
        for features in [15, 1, 14, 0] {
            let mut state = guest(case, Mode::S);
            state.hart.features = features;
            let mut expected = readings(case);
            for (k, csr) in SHOWN.into_iter().enumerate().filter(|(k, _)| marked >> k & 1 == 1) {
                mark(&mut state, csr, 0x5555);
                if features & 1 == 1 {
                    expected[k] = 0x5555;
                }
            }
            let end = take(case, &state, FAULT, 0)?;
            fact(case, words(&end.memory) == expected, "the words")?;
            let same = end.memory[0xF80..0x1000] == state.memory.bytes[0xF80..0x1000];
            fact(case, same, "the marks stay")?;
            let found = [0, 9, 10].map(|place| end.words[place]);
            fact(case, found == readings(case)[..3], "the registers whatever is marked")?;
        }
    }
    Ok(())
}

/// A dirty word is carried out by the next synchronization, over what the trap told.
pub fn carried_out(case: &mut Case) -> Result {
    let mut state = guest(case, Mode::S);
    mark(&mut state, Csr::Htval, 0x99);
    let trap = Input::new(&state, Action::Trap(FAULT));
    let trapped = case.expect(&trap, 0)?;
    fact(case, trapped.words[9] == 0x1402, "htval as the trap told")?;
    let sync = Action::Call { eid: EID, fid: SYNC_CSR, args: [ALL, 0, 0] };
    let end = case.expect(&trap.after(&trapped, sync), 0)?;
    let word = csr_word(&end.memory, Csr::Htval);
    fact(case, [end.words[9], word] == [0x99; 2], "htval as it was marked")?;
    fact(case, end.words[10] == 0x3003, "htinst as the trap told")
}

/// With no page in memory there is no store and no swap, and the record is as ever: none is set, it
/// lies elsewhere, or memory is one byte short, or empty.
pub fn no_page(case: &mut Case) -> Result {
    let size = case.xlen.page_size();
    for (page, bytes) in [
        (None, size),
        (Some(BASE - 4096), size),
        (Some(BASE + 4096), size),
        (Some(BASE), size - 1),
        (Some(BASE), 0),
        (None, 0),
    ] {
        let mut state = guest(case, Mode::U);
        (state.hart.page, state.memory.bytes) = (page, vec![0xFF; bytes]);
        let end = take(case, &state, FAULT, 0)?;
        fact(case, end.memory == state.memory.bytes, "no store")?;
        let found = [0, 9, record::VIRT, record::MODE, 24].map(|place| end.words[place]);
        let expected = [vsxl(case) | 0x20_52C0, 0x1402, 0, 1, 0x9000_0004];
        fact(case, found == expected, "the record")?;
    }
    Ok(())
}

/// Where the swap word lies.
fn swap_place(case: &Case) -> usize {
    at(case, 0x204, 0x208)
}

/// A guest in S with these flags and this swap word.
fn guest_with_swap(case: &Case, flags: u64, swap: u64) -> State {
    let mut state = guest(case, Mode::S);
    let (xlen, place) = (case.xlen, swap_place(case));
    page::set_word(xlen, &mut state.memory.bytes, page::AUTOSWAP_FLAGS, flags);
    page::set_word(xlen, &mut state.memory.bytes, place, swap);
    state
}

/// With feature 3 and the flag, hstatus is swapped: after the bits, which the swap word gets, and
/// before the words, so that hip and vsip show the line that the new VGEIN selects. Without either
/// there is no swap.
pub fn swap(case: &mut Case) -> Result {
    let xl = vsxl(case);
    for features in 0..16 {
        for flags in [0, 1, 2, 3, ALL - 1, ALL] {
            let mut state = guest_with_swap(case, flags, 0x10_0000);
            state.hart.features = features;
            let end = take(case, &state, FAULT, 0)?;
            let mut expected = (readings(case), 0x10_0000);
            if features & 8 == 8 && flags & 1 == 1 {
                expected = ([xl | 0x10_0000, 0x1402, 0x3003, 0x1004, 2], xl | 0x20_53C0);
            }
            let swap = page::word(case.xlen, &end.memory, swap_place(case));
            fact(case, (words(&end.memory), swap) == expected, "the words and the swap word")?;
            fact(case, end.words[0] == expected.0[0], "hstatus")?;
        }
    }
    Ok(())
}

/// The swap is a write of hstatus, which drops bits and keeps VGEIN where the new one is above 7. It
/// does not ask whether the word is dirty, which stays then; and V stays off, whatever SPV is now.
pub fn swap_by_the_rule(case: &mut Case) -> Result {
    let xl = vsxl(case);
    for (swap, hstatus) in [(ALL, 0x70_53C0), (0x3_F000, 0x5000), (0x7000, 0x7000), (0x80, 0x80)] {
        let mut state = guest_with_swap(case, 1, swap);
        mark(&mut state, Csr::Hstatus, 0x40);
        let end = take(case, &state, FAULT, 0)?;
        let found = [end.words[0], page::word(case.xlen, &end.memory, swap_place(case))];
        fact(case, found == [xl | hstatus, xl | 0x20_53C0], "hstatus and the swap word")?;
        fact(case, csr_word(&end.memory, Csr::Hstatus) == 0x40, "the word that is dirty")?;
        fact(case, end.words[record::VIRT] == 0 && end.words[28] == 1, "V and SPP")?;
    }
    Ok(())
}

/// With the swap on, SRET brings the guest's hstatus and the trap puts it back, ready for the next.
pub fn swapped_there_and_back(case: &mut Case) -> Result {
    let (xl, mut state) = (vsxl(case), small(case.xlen, &[]));
    state.hart.hstatus |= 0x200;
    state.memory.bytes[page::AUTOSWAP_FLAGS] = 1;
    page::set_word(case.xlen, &mut state.memory.bytes, swap_place(case), 0x3080);
    let sret = Action::Call { eid: EID, fid: SYNC_SRET, args: [0; 3] };
    let trap = Action::Trap(told([8, 0, 0, 0], 0));
    let mut input = Input::new(&state, sret);
    for round in 0..6 {
        let end = case.expect(&input, 0)?;
        let swap = page::word(case.xlen, &end.memory, swap_place(case));
        let (next, expected) = if round % 2 == 0 {
            (trap, [xl | 0x3000, 1, xl | 0x200])
        } else {
            (sret, [xl | 0x200, 0, xl | 0x3080])
        };
        let found = [end.words[0], end.words[record::VIRT], swap];
        fact(case, found == expected, "hstatus, V and the swap word")?;
        input = input.after(&end, next);
    }
    Ok(())
}
