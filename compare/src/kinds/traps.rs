//! Random traps back on random states, and what the papers say of each.

use second::csr::{self, Csr};
use second::gen;
use second::hart::{Hart, Mode};
use second::page;
use second::rng::Rng;
use second::state::State;
use second::trap::Trap;

use super::tickets::fact;
use super::{calls, Result};
use crate::case::Case;
use crate::input::{Action, Input, Outcome, REPORTS};
use crate::record;

/// The registers whose words a trap stores.
pub const SHOWN: [Csr; 5] = [Csr::Hstatus, Csr::Htval, Csr::Htinst, Csr::Hip, Csr::Vsip];

/// Marks some of the words that a trap stores; the flag of the swap is there or not.
pub fn mark_some(rng: &mut Rng, state: &mut State) {
    let Some(parts) = state.parts() else { return };
    let (xlen, bytes) = (parts.hart.xlen, parts.page);
    for csr in SHOWN {
        if rng.one_in(2) {
            page::set_dirty(bytes, csr);
        } else {
            page::clear_dirty(bytes, csr);
        }
        page::set_csr_word(xlen, bytes, csr, gen::word(rng, xlen));
    }
    let flags = gen::word(rng, xlen) & !1 | rng.below(2);
    page::set_word(xlen, bytes, page::AUTOSWAP_FLAGS, flags);
    // Small VGEIN numbers are rare among random words, so one is often chosen here.
    let mut swap = gen::word(rng, xlen);
    if rng.one_in(2) {
        swap = (swap & !csr::VGEIN) | (rng.below(8) << 12);
    }
    page::set_word(xlen, bytes, page::hstatus_swap(xlen), swap);
}

/// One trap on any state, mostly one with V on; the record is damaged now and then.
pub fn run(case: &mut Case) -> Result {
    let (rng, xlen) = (&mut case.rng, case.xlen);
    let mut state = match rng.below(3) {
        0 => gen::good_trap_state(rng, xlen),
        _ => gen::trap_state(rng, xlen),
    };
    if rng.one_in(2) {
        mark_some(rng, &mut state);
    }
    match rng.below(12) {
        0 => state.hart.page = None,
        1 => state.memory.bytes.truncate(rng.below(xlen.page_size() as u64) as usize),
        _ => {}
    }
    let trap = gen::trap(rng, xlen);
    let input = calls::input(rng, &state, Action::Trap(trap));
    let end = case.check(&input)?;
    check(case, &input, trap, &end)
}

/// What holds of every trap, beside the agreement of both programs: no slot changes; a refusal
/// changes nothing; -2 is for V off; an accepted trap leaves these fields and stores no byte but the
/// five words and the swap word, and none where the page is not in memory.
pub fn check(case: &Case, input: &Input, trap: Trap, end: &Outcome) -> Result {
    fact(case, end.table == input.table, "a trap changes no slot")?;
    let is_quiet = end.answer[..REPORTS] == [0; REPORTS] && end.report_count() < 2;
    fact(case, is_quiet, "the answer's block of a trap")?;
    if end.code != 0 {
        let same = end.words == input.words && end.memory == input.memory;
        fact(case, same, "a refusal that changes something")?;
    }
    let (Some(hart), Some(after)) = (record::hart(&input.words), record::hart(&end.words)) else {
        return fact(case, end.code == -1, "the code of a block that is no record");
    };
    match end.code {
        -1 => Ok(()),
        -2 => fact(case, !hart.virt, "-2 with V on"),
        _ => {
            fact(case, hart.virt, "a trap with V off")?;
            check_record(case, trap, &hart, &after)?;
            check_bytes(case, input, trap, [&hart, &after], end)
        }
    }
}

/// The record after an accepted trap, but for hstatus and the count.
fn check_record(case: &Case, trap: Trap, hart: &Hart, after: &Hart) -> Result {
    let cut = |word: u64| case.xlen.cut(word);
    let expected = Hart {
        virt: false,
        hstatus: after.hstatus,
        dropped: after.dropped,
        spp: hart.mode == Mode::S,
        spie: hart.sie,
        sie: false,
        sepc: hart.pc & !1,
        mode: Mode::S,
        pc: hart.stvec,
        htval: cut(trap.htval),
        htinst: cut(trap.htinst),
        scause: cut(trap.cause),
        stval: cut(trap.tval),
        ..hart.clone()
    };
    fact(case, *after == expected, "the record after a trap")
}

/// hstatus with the bits of a trap, before the swap.
fn with_bits(hart: &Hart, trap: Trap) -> u64 {
    let bit = |is_set: bool, bit: u64| if is_set { bit } else { 0 };
    let kept = hart.hstatus & !(csr::GVA | csr::SPV | csr::SPVP);
    let was_s = hart.mode == Mode::S;
    kept | bit(trap.gva & 1 == 1, csr::GVA) | csr::SPV | bit(was_s, csr::SPVP)
}

/// Where the page begins in memory, if it is set and lies there.
pub fn page_start(input: &Input, hart: &Hart) -> Option<usize> {
    let (base, bytes) = (u128::from(input.base), input.memory.len() as u128);
    let start = u128::from(hart.page?);
    let is_there = base <= start && start + hart.xlen.page_size() as u128 <= base + bytes;
    is_there.then(|| (start - base) as usize)
}

/// hstatus, memory and the swap's report after an accepted trap, from the record before it and the one
/// after.
fn check_bytes(
    case: &Case,
    input: &Input,
    trap: Trap,
    [hart, after]: [&Hart; 2],
    end: &Outcome,
) -> Result {
    let (xlen, bits, memory) = (case.xlen, with_bits(hart, trap), &end.memory);
    let Some(start) = page_start(input, hart) else {
        fact(case, after.hstatus == bits, "hstatus without a page")?;
        fact(case, end.report_count() == 0, "a report without a page")?;
        return fact(case, *memory == input.memory, "a store without a page");
    };
    let mut expected = input.memory.clone();
    let page = &mut expected[start..][..xlen.page_size()];
    let (mut hstatus, mut dropped, place) = (bits, 0, page::hstatus_swap(xlen));
    if hart.has_feature(3) && page[page::AUTOSWAP_FLAGS] & 1 == 1 {
        let word = page::word(xlen, page, place);
        hstatus = csr::legalize(xlen, Csr::Hstatus, bits, word);
        dropped = word ^ hstatus;
        page::set_word(xlen, page, place, bits);
    }
    for csr in SHOWN {
        if !hart.has_feature(0) || !page::is_dirty(page, csr) {
            page::set_csr_word(xlen, page, csr, csr::read(after, csr));
        }
    }
    let report: &[u64] = if dropped == 0 { &[] } else { &[0x600, dropped] };
    let length = end.reports.len().min(report.len());
    let is_told =
        2 * end.report_count() == report.len() && end.reports[..length] == report[..length];
    fact(case, is_told, "the swap's report")?;
    fact(case, after.hstatus == hstatus, "hstatus after a trap")?;
    fact(case, *memory == expected, "the bytes after a trap")
}
