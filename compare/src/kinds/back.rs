//! The trap back, by hand: the record, the codes, and the way into the guest and out of it.

use second::calls::{ALL, EID, PROBE, SET, SYNC_CSR, SYNC_FENCE, SYNC_SRET};
use second::csr::Csr;
use second::hart::{Hart, Mode};
use second::state::State;
use second::trap::Trap;

use super::tickets::{at, call, fact};
use super::traps::SHOWN;
use super::Result;
use crate::case::{Case, Difference};
use crate::input::{Action, Input, Outcome, Route, REPORTS};
use crate::record;
use crate::scene::*;

/// What a trap tells in most rows: a load's guest-page fault at a guest virtual address.
pub const FAULT: Trap = told([21, 0x5009, 0x1402, 0x3003], 1);

/// A trap with these words: cause, tval, htval and htinst.
pub const fn told([cause, tval, htval, htinst]: [u64; 4], gva: u64) -> Trap {
    Trap { cause, tval, htval, htinst, gva }
}

/// A trap with the code that it must give, by both ways to the library.
pub fn take(
    case: &mut Case,
    state: &State,
    trap: Trap,
    code: i64,
) -> std::result::Result<Outcome, Difference> {
    let mut input = Input::new(state, Action::Trap(trap));
    let end = case.expect(&input, code)?;
    input.route = Route::BLOCKS;
    case.expect(&input, code)?;
    fact(
        case,
        end.answer[..REPORTS] == [0; REPORTS] && end.table == state.table,
        "the answer and the table",
    )?;
    Ok(end)
}

/// VSXL of hstatus, which width 64 has.
pub fn vsxl(case: &Case) -> u64 {
    at(case, 0, 0x2_0000_0000)
}

/// A hart in its guest, in this mode, with one slot. hstatus has VTW, VGEIN 5 and HU; line 5 is up
/// and enabled: hip reads 0x1404, vsip 0x202.
pub fn guest(case: &Case, mode: Mode) -> State {
    let mut state = small(case.xlen, &[slot(true, 5, 9, 16, 16)]);
    let hart = &mut state.hart;
    (hart.virt, hart.mode) = (true, mode);
    hart.hstatus |= 0x20_5200;
    (hart.lines, hart.hgeie, hart.hvip, hart.hideleg) = (0x20, 0x20, 4, 0x404);
    (hart.pc, hart.stvec) = (0x8000_1235, 0x9000_0004);
    (1..32).for_each(|i| hart.x[i] = 0x100 + i as u64);
    state
}

/// The five words of a page that is all of memory.
pub fn words(memory: &[u8]) -> [u64; 5] {
    SHOWN.map(|csr| csr_word(memory, csr))
}

/// V goes off, hstatus.SPV becomes 1, SPVP and SPP take the old mode, hstatus.GVA the bit, SPIE takes
/// SIE and SIE becomes 0, the mode becomes S; the other fields stay, the general registers among them.
pub fn fields(case: &mut Case) -> Result {
    let (s, u) = (Mode::S, Mode::U);
    for (mode, gva, sie) in [(s, 1, true), (s, 0, false), (u, 1, true), (u, 0, false)] {
        let mut state = guest(case, mode);
        let is_s = mode == Mode::S;
        // What a trap sets is the other way round before.
        state.hart.hstatus |= if gva == 1 { 0 } else { 0x40 };
        state.hart.hstatus |= if is_s { 0 } else { 0x100 };
        (state.hart.spp, state.hart.sie, state.hart.spie) = (!is_s, sie, !sie);
        let end = take(case, &state, Trap { gva, ..FAULT }, 0)?;
        let bits = 0x80 | gva << 6 | if is_s { 0x100 } else { 0 };
        let expected = Hart {
            virt: false,
            hstatus: vsxl(case) | 0x20_5200 | bits,
            spp: is_s,
            spie: sie,
            sie: false,
            sepc: 0x8000_1234,
            mode: Mode::S,
            pc: 0x9000_0004,
            htval: 0x1402,
            htinst: 0x3003,
            scause: 21,
            stval: 0x5009,
            ..state.hart.clone()
        };
        fact(case, end.words == record::words(&expected), "the record")?;
    }
    Ok(())
}

/// sepc takes pc with bit 0 cleared, and pc takes stvec.
pub fn addresses(case: &mut Case) -> Result {
    let ones = case.xlen.ones();
    for (pc, sepc) in [(0, 0), (1, 0), (2, 2), (3, 2), (ones, ones - 1), (ones - 1, ones - 1)] {
        for stvec in [0, 4, 8, ones - 3] {
            let mut state = guest(case, Mode::S);
            (state.hart.pc, state.hart.sepc, state.hart.stvec) = (pc, 0x6666, stvec);
            let end = take(case, &state, FAULT, 0)?;
            let found = [end.words[25], end.words[24], end.words[record::STVEC]];
            fact(case, found == [sepc, stvec, stvec], "sepc, pc and stvec")?;
        }
    }
    Ok(())
}

/// htval, htinst, scause and stval take theirs, at width 32 the low 32 bits; of the number for GVA
/// bit 0 counts.
pub fn words_told(case: &mut Case) -> Result {
    let wide = [1 << 63 | 9, 1 << 32 | 0x8000_0000, ALL, 0xFFFF_FFFE_0000_0001];
    let expected = at(case, [9, 0x8000_0000, 0xFFFF_FFFF, 1], wide);
    for (gva, bit) in [(0, 0), (1, 1), (2, 0), (3, 1), (1 << 32, 0), (ALL - 1, 0), (ALL, 1)] {
        let end = take(case, &guest(case, Mode::U), told(wide, gva), 0)?;
        let places = [record::SCAUSE, record::STVAL, 9, 10];
        fact(case, places.map(|place| end.words[place]) == expected, "the four words")?;
        fact(case, end.words[0] >> 6 & 1 == bit, "GVA")?;
        fact(case, words(&end.memory)[1..3] == expected[2..], "htval's word and htinst's")?;
    }
    Ok(())
}

/// Refusals: check 1, then -2 if V is off; neither the mode nor the features nor the page is asked.
pub fn codes(case: &mut Case) -> Result {
    for mode in [Mode::S, Mode::U] {
        for virt in [true, false] {
            let mut start = guest(case, mode);
            start.hart.virt = virt;
            for length in [1, 2, 3, 5, 1021, 1023, 1025, 1028, 2048] {
                let state = State { table: vec![1 << 63; length], ..start.clone() };
                take(case, &state, FAULT, -1)?;
            }
            let damages: [fn(&mut Hart); 6] = [
                |hart| hart.stvec |= 1,
                |hart| hart.sepc = 1,
                |hart| hart.lines = 1,
                |hart| hart.x[0] = 1,
                |hart| hart.features = 16,
                |hart| hart.hstatus |= 1,
            ];
            for damage in damages {
                let mut state = start.clone();
                damage(&mut state.hart);
                take(case, &state, FAULT, -1)?;
            }
            for length in [0, 4, 1024] {
                for features in 0..16 {
                    let mut state = State { table: vec![ALL; length], ..start.clone() };
                    state.hart.features = features;
                    state.hart.page = if features % 2 == 0 { None } else { Some(BASE) };
                    take(case, &state, FAULT, if virt { 0 } else { -2 })?;
                }
            }
        }
    }
    Ok(())
}

/// Well made now also wants stvec's two low bits 0, for every call; scause and stval take any word.
/// None of the three has a number, and no call changes it.
pub fn handler(case: &mut Case) -> Result {
    let mut state = small(case.xlen, &[]);
    let ones = case.xlen.ones();
    for stvec in [1, 2, 3, ones, ones - 1, ones - 2] {
        state.hart.stvec = stvec;
        for (fid, a0) in [(PROBE, 0), (SET, BASE), (SYNC_CSR, ALL), (SYNC_FENCE, ALL)] {
            call(case, &state, fid, [a0, 0, 0], -1)?;
            let stoppable = Action::Stoppable { eid: EID, fid, a0, limit: 9 };
            case.expect(&Input::new(&state, stoppable), -1)?;
        }
        call(case, &state, SYNC_SRET, [0; 3], -1)?;
        case.expect(&Input::new(&state, Action::Lines { lines: 8 }), -1)?;
        state.hart.virt = true;
        take(case, &state, FAULT, -1)?;
        state.hart.virt = false;
    }
    for (stvec, scause, stval) in [(ones - 3, ones, ones), (4, 1 << (case.xlen.bits() - 1), 3)] {
        let hart = &mut state.hart;
        (hart.stvec, hart.scause, hart.stval) = (stvec, scause, stval);
        for number in [0x105, 0x142, 0x143] {
            call(case, &state, SYNC_CSR, [number, 0, 0], -3)?;
        }
        for (fid, a0) in [(PROBE, 0), (SET, BASE), (SYNC_CSR, ALL), (SYNC_SRET, 0)] {
            let end = call(case, &state, fid, [a0, 0, 0], 0)?;
            let same = end.words[record::STVEC..=record::STVAL] == [stvec, scause, stval];
            fact(case, same, "stvec, scause and stval stay")?;
        }
    }
    Ok(())
}

/// SRET into the guest, where every call is -2, and a trap, after which every one is open; a second
/// trap in a row is -2. Then SRET goes on where the guest was, and so a second time.
pub fn there_and_back(case: &mut Case) -> Result {
    for mode in [Mode::S, Mode::U] {
        let mut state = small(case.xlen, &[]);
        let is_s = mode == Mode::S;
        let hart = &mut state.hart;
        (hart.stvec, hart.sepc, hart.spp, hart.spie) = (0x100, 0x4000, is_s, true);
        mark(&mut state, Csr::Hstatus, 0x80);
        let sret = Action::Call { eid: EID, fid: SYNC_SRET, args: [0; 3] };
        let mut input = Input::new(&state, sret);
        for (from, to) in [(0x4000, 0x4010), (0x4010, 0x4020)] {
            let end = case.expect(&input, 0)?;
            let place = [22, 23, 24, 26].map(|place| end.words[place]);
            fact(case, place == [1, u64::from(is_s), from, 1], "in the guest")?;
            input = input.after(&end, input.action);
            check_calls(case, &input, false)?;
            input.words[24] = to | 1;
            input.action = Action::Trap(FAULT);
            let end = case.expect(&input, 0)?;
            let place = [22, 23, 24, 25, 26, 27, 28].map(|place| end.words[place]);
            fact(case, place == [0, 1, 0x100, to, 0, 1, u64::from(is_s)], "in the handler")?;
            let hstatus = vsxl(case) | if is_s { 0x1C0 } else { 0xC0 };
            fact(case, words(&end.memory) == [hstatus, 0x1402, 0x3003, 0, 0], "the words")?;
            input = input.after(&end, input.action);
            case.expect(&input, -2)?;
            check_calls(case, &input, true)?;
            input.action = sret;
        }
    }
    Ok(())
}

/// Each call is accepted, or each is -2.
fn check_calls(case: &mut Case, input: &Input, is_open: bool) -> Result {
    let calls = [(PROBE, 0), (SET, BASE), (SYNC_CSR, ALL), (SYNC_FENCE, ALL), (SYNC_SRET, 0)];
    for (fid, a0) in calls {
        let mut input = input.clone();
        input.action = Action::Call { eid: EID, fid, args: [a0, 0, 0] };
        case.expect(&input, if is_open { 0 } else { -2 })?;
    }
    Ok(())
}

/// A record of another length, 64 or 67 words among them, is refused, and a bit above 31 in stvec,
/// scause or stval at width 32; width 64 takes it.
pub fn blocks(case: &mut Case) -> Result {
    let state = guest(case, Mode::S);
    for length in [62, 63, 64, 65, 66, 67, 69, 128] {
        let mut input = Input::new(&state, Action::Trap(FAULT));
        input.words.resize(length, 0);
        input.route = Route::BLOCKS;
        case.expect(&input, -1)?;
    }
    for place in [record::STVEC, record::SCAUSE, record::STVAL] {
        for bit in [32, 47, 63] {
            let mut input = Input::new(&state, Action::Trap(FAULT));
            input.words[place] |= 1 << bit;
            case.expect(&input, at(case, -1, 0))?;
        }
    }
    Ok(())
}
