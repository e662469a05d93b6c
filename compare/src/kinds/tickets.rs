//! The sample tickets and the cases that are run only, through the calls: at width 64 as the papers
//! have them, at width 32 with its own places and numbers.

use nathiroeng::LIST_BYTES;
use second::calls::{ALL, EID, PROBE, SET, SYNC_CSR, SYNC_FENCE, SYNC_SRET};
use second::csr::{self, Csr};
use second::fence::Entry;
use second::state::State;
use second::xlen::Xlen;

use super::Result;
use crate::case::{Case, Difference};
use crate::input::{Action, Input, Outcome, REPORTS};
use crate::scene::*;

/// A call of the extension on a state, with the code that it must give.
pub fn call(
    case: &mut Case,
    state: &State,
    fid: u64,
    args: [u64; 3],
    code: i64,
) -> std::result::Result<Outcome, Difference> {
    case.expect(&Input::new(state, Action::Call { eid: EID, fid, args }), code)
}

/// What is so at width 32, and what at width 64.
pub fn at<T>(case: &Case, narrow: T, wide: T) -> T {
    match case.xlen {
        Xlen::X32 => narrow,
        Xlen::X64 => wide,
    }
}

/// A fact that must hold.
pub fn fact(case: &Case, holds: bool, what: &str) -> Result {
    case.hold(holds, || what.to_string())
}

/// T1: hip's word is at 0x1A20, or at 0x1510; its bit is bit 4 of 0xFA8.
pub fn place_of_hip(case: &mut Case) -> Result {
    let mut state = small(case.xlen, &[]);
    state.memory.bytes[at(case, 0x1510, 0x1A20)] = 4;
    state.memory.bytes[0xFA8] = 0xFF;
    let end = call(case, &state, SYNC_CSR, [0x644, 0, 0], 0)?;
    fact(case, end.words[3] == 4 && end.memory[0xFA8] == 0xEF, "hip is taken from its place")
}

/// T2: hgeip's word is at 0x2890, or at 0x1C48; its bit is bit 2 of 0xFE2.
pub fn place_of_hgeip(case: &mut Case) -> Result {
    let mut state = small(case.xlen, &[]);
    state.hart.lines = 0x24;
    state.memory.bytes[0xFE2] = 0xFF;
    let end = call(case, &state, SYNC_CSR, [0xE12, 0, 0], 0)?;
    let word = end.memory[at(case, 0x1C48, 0x2890)];
    fact(case, word == 0x24 && end.memory[0xFE2] == 0xFB, "hgeip is at its place")
}

/// T3, T4, T5: a register number that is refused.
pub fn bad_number(case: &mut Case, number: u64) -> Result {
    call(case, &small(case.xlen, &[]), SYNC_CSR, [number, 0, 0], -3).map(|_| ())
}

/// T6: hvip written 0xFFFF reads 0x444; hideleg 0x004 then gives vsip 0x002.
pub fn hvip_and_vsip(case: &mut Case) -> Result {
    let mut state = small(case.xlen, &[]);
    mark(&mut state, Csr::Hvip, 0xFFFF);
    let end = call(case, &state, SYNC_CSR, [ALL, 0, 0], 0)?;
    fact(case, csr_word(&end.memory, Csr::Hvip) == 0x444, "hvip")?;
    fact(case, csr_word(&end.memory, Csr::Vsip) == 0, "vsip before")?;
    mark(&mut state, Csr::Hideleg, 4);
    let end = call(case, &state, SYNC_CSR, [ALL, 0, 0], 0)?;
    fact(case, csr_word(&end.memory, Csr::Vsip) == 2, "vsip after")
}

/// T7: line 3 up, VGEIN 3, hgeie 0x08, hvip 0: hip 0x1400.
pub fn hip_from_lines(case: &mut Case) -> Result {
    let mut state = small(case.xlen, &[]);
    mark(&mut state, Csr::Hstatus, 3 << 12);
    mark(&mut state, Csr::Hgeie, 8);
    mark(&mut state, Csr::Hvip, 0);
    let input = Input::new(&state, Action::Lines { lines: 8 });
    let lined = case.expect(&input, 0)?;
    let next = input.after(&lined, Action::Call { eid: EID, fid: SYNC_CSR, args: [ALL, 0, 0] });
    let end = case.expect(&next, 0)?;
    fact(case, csr_word(&end.memory, Csr::Hip) == 0x1400, "hip")
}

/// T8: a fresh hgatp written 0x9000000000000007 reads 4; width 32 takes any mode bit, and 0xFFFFFFFF
/// reads 0x9FFFFFFC.
pub fn mode_of_hgatp(case: &mut Case) -> Result {
    let mut state = small(case.xlen, &[]);
    mark(&mut state, Csr::Hgatp, at(case, 0xFFFF_FFFF, 0x9000_0000_0000_0007));
    let end = call(case, &state, SYNC_CSR, [0x680, 0, 0], 0)?;
    let word = csr_word(&end.memory, Csr::Hgatp);
    fact(case, [word, end.words[11]] == [at(case, 0x9FFF_FFFC, 4); 2], "hgatp")
}

/// T9: hvip dirty with 0, hip dirty with 4, all-ones: both words 4.
pub fn hvip_follows_hip(case: &mut Case) -> Result {
    let mut state = small(case.xlen, &[]);
    mark(&mut state, Csr::Hvip, 0);
    mark(&mut state, Csr::Hip, 4);
    let end = call(case, &state, SYNC_CSR, [ALL, 0, 0], 0)?;
    let words = [Csr::Hvip, Csr::Hip].map(|csr| csr_word(&end.memory, csr));
    fact(case, words == [4, 4] && end.words[3] == 4, "both words")
}

/// T10: Order 9, Page_Number 1, Page_Count 1: pages 512 to 1023.
pub fn order_9(case: &mut Case) -> Result {
    for kind in [0, 2, 4, 6] {
        let slots = [511, 512, 1023, 1024].map(|page| {
            let (virtual_page, physical) = if kind < 4 { (9999, page) } else { (page, 9999) };
            slot(false, 5, 0, virtual_page, physical)
        });
        let mut state = small(case.xlen, &slots);
        put(&mut state, 0, [kind, 9, 5, 0, 1, 1]);
        let end = call(case, &state, SYNC_FENCE, [0, 0, 0], 0)?;
        fact(case, used(&end.table) == [true, false, false, true], "the slots that are left")?;
    }
    Ok(())
}

/// T11: the greatest Page_Number, Page_Count 2, Order 0: not page 0. A slot can hold the pages after
/// width 32's greatest number: one of them is named.
pub fn no_wrap(case: &mut Case) -> Result {
    let last = case.xlen.ones();
    let pages = [0, last, last.saturating_add(1), last.saturating_add(2)];
    let slots = pages.map(|page| slot(false, 0, 0, page, page));
    for kind in [0, 2, 4, 6] {
        let mut state = small(case.xlen, &slots);
        put(&mut state, 0, [kind, 0, 0, 0, last, 2]);
        let end = call(case, &state, SYNC_FENCE, [ALL, 0, 0], 0)?;
        let left = [true, false, false, at(case, true, false)];
        fact(case, used(&end.table) == left, "the slots that are left")?;
    }
    Ok(())
}

/// T12: Config 0x8200000000050000 becomes 0x0200000000050000, and 0x82000A00 becomes 0x02000A00.
pub fn config_after(case: &mut Case) -> Result {
    let mut state = small(case.xlen, &[]);
    put(&mut state, 7, [2, 0, 5, 0, 16, 1]);
    let end = call(case, &state, SYNC_FENCE, [7, 0, 0], 0)?;
    let config = Entry::load(case.xlen, &end.memory, 7).config;
    fact(case, config == at(case, 0x0200_0A00, 0x0200_0000_0005_0000), "Config")
}

/// Index 59, or 119, is the last.
pub fn last_index(case: &mut Case) -> Result {
    let last = at(case, 119, 59);
    let mut state = small(case.xlen, &[slot(false, 1, 1, 1, 1)]);
    put(&mut state, last, [1, 0, 0, 0, 0, 0]);
    call(case, &state, SYNC_FENCE, [last as u64 + 1, 0, 0], -3)?;
    let end = call(case, &state, SYNC_FENCE, [last as u64, 0, 0], 0)?;
    let is_pending = Entry::load(case.xlen, &end.memory, last).is_pending();
    fact(case, !is_pending && used(&end.table) == [false], "the last entry is done")
}

/// Page_Count 0 names nothing, and the entry is done.
pub fn count_0(case: &mut Case) -> Result {
    for kind in [0, 2, 4, 6] {
        let mut state = small(case.xlen, &[slot(false, 0, 0, 3, 3)]);
        put(&mut state, 0, [kind, 0, 0, 0, 3, 0]);
        let end = call(case, &state, SYNC_FENCE, [0, 0, 0], 0)?;
        let done =
            !Entry::load(case.xlen, &end.memory, 0).is_pending() && used(&end.table) == [true];
        fact(case, done, "nothing is removed")?;
    }
    Ok(())
}

/// Arguments of set that are refused with -3.
pub fn bad_set(case: &mut Case, args: [u64; 3]) -> Result {
    call(case, &small(case.xlen, &[]), SET, args, -3).map(|_| ())
}

/// With no slots a fence is done at once.
pub fn no_slots(case: &mut Case) -> Result {
    let mut state = small(case.xlen, &[]);
    put(&mut state, 3, [1, 0, 0, 0, 0, 0]);
    for a0 in [3, ALL] {
        let end = call(case, &state, SYNC_FENCE, [a0, 0, 0], 0)?;
        fact(case, !Entry::load(case.xlen, &end.memory, 3).is_pending(), "the entry is done")?;
    }
    Ok(())
}

/// Memory that is one byte short holds no page.
pub fn one_byte_short(case: &mut Case) -> Result {
    let mut state = small(case.xlen, &[]);
    state.memory.bytes.pop();
    for fid in SYNC_CSR..=SYNC_SRET {
        call(case, &state, fid, [ALL, 0, 0], -9)?;
    }
    call(case, &state, SET, [BASE, 0, 0], -5).map(|_| ())
}

/// Everything is wrong at first, and then mended check by check.
pub fn order_of_checks(case: &mut Case) -> Result {
    for fid in [SYNC_CSR, SYNC_FENCE] {
        let mut state = small(case.xlen, &[]);
        state.table = vec![0; 3];
        state.hart.virt = true;
        state.hart.features = 0;
        state.hart.page = None;
        let foreign = Action::Call { eid: 0, fid, args: [0x344, 0, 0] };
        case.expect(&Input::new(&state, foreign), -1)?;
        state.table.clear();
        case.expect(&Input::new(&state, foreign), -2)?;
        state.hart.virt = false;
        case.expect(&Input::new(&state, foreign), -2)?;
        call(case, &state, fid, [0x344, 0, 0], -2)?;
        state.hart.features = 15;
        call(case, &state, fid, [0x344, 0, 0], -3)?;
        call(case, &state, fid, [ALL, 0, 0], -9)?;
        state.hart.page = Some(BASE);
        call(case, &state, fid, [ALL, 0, 0], 0)?;
    }
    let mut state = small(case.xlen, &[]);
    state.hart.virt = true;
    call(case, &state, PROBE, [0, 0, 0], -2).map(|_| ())
}

/// The greatest totals that are reached: 76 of registers and 316 of fences, or 82 and 376.
pub fn totals(case: &mut Case) -> Result {
    let mut state = small(case.xlen, &[slot(false, 1, 1, 1, 1); 256]);
    for &csr in csr::turn_order(case.xlen) {
        if csr != Csr::Hip && csr != Csr::Vsip {
            mark(&mut state, csr, 0);
        }
    }
    for number in 0..case.xlen.entry_count() {
        put(&mut state, number, [1, 0, 0, 0, 0, 0]);
    }
    for (fid, most) in [(SYNC_CSR, at(case, 82, 76)), (SYNC_FENCE, at(case, 376, 316))] {
        for (limit, finished) in [(most - 1, 0), (most, 1), (1 << 32, 1), (u64::MAX, 1)] {
            let action = Action::Stoppable { eid: EID, fid, a0: ALL, limit };
            let end = case.expect(&Input::new(&state, action), 0)?;
            let told = [0, 0, limit.min(most), finished];
            fact(case, end.answer[..REPORTS] == told, "steps and finished")?;
        }
    }
    Ok(())
}

/// The lister's sample, word for word; width 32 has eight digits.
pub fn listing(case: &mut Case) -> Result {
    let mut state = small(case.xlen, &[]);
    mark(&mut state, Csr::Hvip, 4);
    put(&mut state, 2, [2, 0, 5, 0, 16, 1]);
    let word = at(case, "00000004", "0000000000000004");
    let text = format!(
        "csr 645 {word}\n\
        fence 2 type 2 order 0 vmid 5 asid 0 page 16 count 1\n\
        dirty 1 pending 1\n"
    );
    let listing = case.check_listing(&state.memory.bytes, LIST_BYTES)?;
    fact(case, &listing.out[..listing.length] == text.as_bytes(), "the text")
}
