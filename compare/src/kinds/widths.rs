//! What the two widths do not have in common, by hand.

use second::calls::{ALL, EID, PROBE, SET, SYNC_CSR, SYNC_FENCE};
use second::csr::Csr;
use second::fence::Entry;
use second::xlen::Xlen;

use super::tickets::{at, call, fact};
use super::Result;
use crate::case::Case;
use crate::input::{Action, Input};
use crate::record;
use crate::scene::*;

/// htimedeltah holds all that is written, henvcfgh reads 0 and its mark is served all the same;
/// width 64 has neither.
pub fn upper_halves(case: &mut Case) -> Result {
    let mut state = small(case.xlen, &[]);
    for number in [0x615, 0x61A] {
        call(case, &state, SYNC_CSR, [number, 0, 0], at(case, 0, -3))?;
    }
    mark(&mut state, Csr::Htimedeltah, 0xFFFF_FFFF);
    mark(&mut state, Csr::Henvcfgh, 0xFFFF_FFFF);
    let end = call(case, &state, SYNC_CSR, [ALL, 0, 0], 0)?;
    let stored = end.words[record::HTIMEDELTAH];
    fact(case, stored == at(case, 0xFFFF_FFFF, 0), "htimedeltah is stored")?;
    let words = [Csr::Htimedeltah, Csr::Henvcfgh].map(|csr| csr_word(&end.memory, csr));
    fact(case, words == at(case, [0xFFFF_FFFF, 0], [0xFFFF_FFFF; 2]), "their words")?;
    // Bit 5 of the byte of index 0x115, bit 2 of the one of 0x11A.
    let bits = [end.memory[0xFA2], end.memory[0xFA3]];
    fact(case, bits == at(case, [0, 0], [0x20, 4]), "their dirty bits")
}

/// The uppermost bit of vsstatus is set exactly if bits 14:13 are 3, whatever is written to it.
pub fn vsstatus(case: &mut Case) -> Result {
    let (top, uxl) = at(case, (1 << 31, 0), (1 << 63, 0x2_0000_0000));
    for (value, expected) in [
        (0x6000, top | 0x6000),
        (0x4000, 0x4000),
        (0x2000, 0x2000),
        (top, 0),
        (ALL, top | 0xC_6122),
        (ALL ^ 0x2000, 0xC_4122),
    ] {
        let mut state = small(case.xlen, &[]);
        mark(&mut state, Csr::Vsstatus, value);
        let end = call(case, &state, SYNC_CSR, [0x200, 0, 0], 0)?;
        fact(case, end.words[12] == uxl | expected, "vsstatus")?;
    }
    Ok(())
}

/// Each reserved bit of Config, a type above 7 and each bit of word 2: every used slot goes. All
/// other bits leave an entry readable, which names neither slot.
pub fn unreadable(case: &mut Case) -> Result {
    let xlen = case.xlen;
    // Slots of a VMID that no entry here has.
    let slots = [slot(false, 0x3000, 0, 16, 16), slot(true, 0x3000, 0, 16, 16)];
    let reserved: Vec<u32> = match xlen {
        Xlen::X32 => vec![23, 27, 28, 29, 30],
        Xlen::X64 => [55, 59, 60, 61, 62].into_iter().chain(30..48).collect(),
    };
    for bit in 0..2 * (xlen.bits() - 1) {
        let (in_config, bit) = (bit < xlen.bits() - 1, bit % (xlen.bits() - 1));
        let entry = pending(xlen, [6, 0, 0, 0, 16, 1]);
        let entry = if in_config {
            Entry { config: entry.config | 1 << bit, ..entry }
        } else {
            Entry { reserved: 1 << bit, ..entry }
        };
        let mut state = small(xlen, &slots);
        entry.store(&mut state.memory.bytes, 7);
        let end = call(case, &state, SYNC_FENCE, [ALL, 0, 0], 0)?;
        let is_readable = in_config && !reserved.contains(&bit);
        fact(case, used(&end.table) == [is_readable; 2], "the slots that are left")?;
        let config = Entry::load(xlen, &end.memory, 7).config;
        fact(case, config | 1 << (xlen.bits() - 1) == entry.config, "Config but for Pending")?;
    }
    Ok(())
}

/// The greatest VMID and ASID of an entry name the slot with the same numbers, and none whose numbers
/// only end in the same bits: at width 32 a slot has room for greater ones.
pub fn greatest_ids(case: &mut Case) -> Result {
    let (vmid, asid) = at(case, (127, 511), (0x3FFF, 0xFFFF));
    let ids = [(vmid, asid), (vmid, 0xFFFF), (0x3FFF, asid), (vmid >> 1, asid), (vmid, asid >> 1)];
    let slots = ids.map(|(vmid, asid)| slot(false, vmid, asid, 16, 16));
    for kind in 0..8 {
        let mut state = small(case.xlen, &slots);
        put(&mut state, 1, [kind, 0, vmid, asid, 16, 1]);
        let end = call(case, &state, SYNC_FENCE, [1, 0, 0], 0)?;
        let is_left = |slot: (u64, u64)| match kind {
            0 | 1 => false,
            2..=5 => slot.0 != vmid,
            _ => slot != (vmid, asid),
        };
        fact(case, used(&end.table) == ids.map(is_left), "the slots that are left")?;
    }
    Ok(())
}

/// A bit above 31 in any word of a record of width 32, stvec, scause and stval among them, and any
/// bit of htimedeltah in one of 64.
pub fn foreign_bits(case: &mut Case) -> Result {
    let places = at(case, 0..record::WORDS, record::HTIMEDELTAH..record::HTIMEDELTAH + 1);
    for place in places {
        for bit in at(case, 32..64, 0..64) {
            let probe = Action::Call { eid: EID, fid: PROBE, args: [0; 3] };
            let mut input = Input::new(&small(case.xlen, &[]), probe);
            input.words[place] |= 1 << bit;
            case.expect(&input, -1)?;
        }
    }
    Ok(())
}

/// A page whose last bytes are beyond the width's greatest address lies in memory, without wrap.
/// Memory that begins beyond it cannot be named.
pub fn end_of_addresses(case: &mut Case) -> Result {
    let mut state = small(case.xlen, &[]);
    let last = case.xlen.ones() & !0xFFF;
    state.memory.base = last;
    call(case, &state, SET, [last, 0, 0], 0)?;
    state.hart.page = Some(last);
    call(case, &state, SYNC_CSR, [ALL, 0, 0], 0)?;
    state.hart.page = Some(0);
    call(case, &state, SYNC_CSR, [ALL, 0, 0], -9)?;
    state.memory.base = 1 << 32;
    call(case, &state, SET, [1 << 32, 0, 0], at(case, -5, 0)).map(|_| ())
}
