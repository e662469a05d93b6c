//! The tables and examples of the extension's own text, at both widths.

use second::calls::{ALL, EID, PROBE, SET, SYNC_CSR, SYNC_FENCE, SYNC_SRET};
use second::csr::Csr;
use second::fence::Entry;
use second::page;

use super::tickets::{at, call, fact};
use super::Result;
use crate::case::Case;
use crate::input::{Action, Input};
use crate::scene::*;

/// Table 1: features 0 to 3 are told as they are, and none above is there.
pub fn features(case: &mut Case) -> Result {
    for features in 0..16 {
        let mut state = small(case.xlen, &[]);
        state.hart.features = features;
        for id in [0, 1, 2, 3, 4, 5, 31, 32, 64, 0xFFFF_FFFF, 1 << 32 | 1, ALL] {
            let end = call(case, &state, PROBE, [id, 0, 0], 0)?;
            let low = id & 0xFFFF_FFFF;
            let present = low < 4 && features >> low & 1 == 1;
            fact(case, end.answer == [u64::from(present), 0, 0, 0, 0], "probe's value")?;
        }
    }
    Ok(())
}

/// Table 5: which of these slots each type removes; types above 7 remove all used ones.
pub fn types(case: &mut Case) -> Result {
    let slots = [
        slot(false, 5, 9, 16, 99), // this VMID and ASID, virtual page in range
        slot(false, 5, 9, 99, 16), // physical page in range
        slot(false, 5, 8, 16, 16), // another ASID
        slot(false, 6, 9, 16, 16), // another VMID
        slot(true, 5, 9, 16, 16),  // global
        [16, 16, 16, 16],          // not used
    ];
    let removed: [&[usize]; 16] = [
        &[1, 2, 3, 4],
        &[0, 1, 2, 3, 4],
        &[1, 2, 4],
        &[0, 1, 2, 4],
        &[0, 2, 4],
        &[0, 1, 2, 4],
        &[0],
        &[0, 1],
        &[0, 1, 2, 3, 4],
        &[0, 1, 2, 3, 4],
        &[0, 1, 2, 3, 4],
        &[0, 1, 2, 3, 4],
        &[0, 1, 2, 3, 4],
        &[0, 1, 2, 3, 4],
        &[0, 1, 2, 3, 4],
        &[0, 1, 2, 3, 4],
    ];
    for (kind, removed) in removed.iter().enumerate() {
        let mut state = small(case.xlen, &slots);
        put(&mut state, 11, [kind as u64, 0, 5, 9, 16, 1]);
        let end = call(case, &state, SYNC_FENCE, [11, 0, 0], 0)?;
        let mut expected = slots;
        removed.iter().for_each(|&slot| expected[slot] = [0; 4]);
        fact(case, end.table == expected.concat(), "the slots that are left")?;
        fact(case, !Entry::load(case.xlen, &end.memory, 11).is_pending(), "Pending is cleared")?;
    }
    Ok(())
}

/// Table 6: X1 to X31 come from their places, X0 stays 0.
pub fn context(case: &mut Case) -> Result {
    let mut state = small(case.xlen, &[]);
    state.hart.spp = true;
    let size = at(case, 4, 8);
    for (offset, byte) in state.memory.bytes[..0x200].iter_mut().enumerate() {
        *byte = (offset / size + 1) as u8;
    }
    let end = call(case, &state, SYNC_SRET, [0; 3], 0)?;
    let words = (1..32).map(|i| (i + 1) * at(case, 0x0101_0101, 0x0101_0101_0101_0101));
    let expected: Vec<u64> = std::iter::once(0).chain(words).collect();
    fact(case, end.words[30..62] == expected, "the general registers")?;
    fact(case, end.answer == [0, 1, 0, 0, 0], "resumed")
}

/// Table 7: hstatus is swapped exactly where the feature and the flag are there. The swap word is at
/// 0x208, or at 0x204; width 32 has no VSXL.
pub fn autoswap(case: &mut Case) -> Result {
    let (swap, vsxl) = at(case, (0x204, 0), (0x208, 0x2_0000_0000));
    for features in [7, 15] {
        for flags in [0, 1, 2, 3, ALL] {
            let mut state = small(case.xlen, &[]);
            state.hart.features = features;
            state.hart.hstatus |= 0x40_0000;
            let bytes = &mut state.memory.bytes;
            page::set_word(case.xlen, bytes, page::AUTOSWAP_FLAGS, flags);
            page::set_word(case.xlen, bytes, swap, 0x3080);
            let end = call(case, &state, SYNC_SRET, [0; 3], 0)?;
            let swapped = features == 15 && flags & 1 == 1;
            let expected = if swapped { [vsxl | 0x3000, 1] } else { [vsxl | 0x40_0000, 0] };
            fact(case, [end.words[0], end.words[22]] == expected, "hstatus and V")?;
            let word = page::word(case.xlen, &end.memory, swap);
            fact(case, word == if swapped { vsxl | 0x40_0000 } else { 0x3080 }, "the swap word")?;
        }
    }
    Ok(())
}

/// Table 8, with the order that the house rules give. Width 32 does not see bits above 31.
pub fn set_errors(case: &mut Case) -> Result {
    let rows = [
        ([BASE, 0, 0], 0),
        ([ALL, ALL, 0], 0),
        ([BASE, 0, 1], -3),
        ([BASE, 0, 1 << 31], -3),
        ([BASE, 0, 1 << 63], at(case, 0, -3)),
        ([BASE, 1 << 63, 0], at(case, 0, -5)),
        ([BASE | 1 << 63, 0, 0], at(case, 0, -5)),
        ([BASE + 1, 0, 0], -3),
        ([BASE + 2048, 1, 0], -3),
        ([ALL, 1, 0], -3),
        ([BASE, 1, 0], -5),
        ([BASE, ALL, 0], -5),
        ([BASE + 4096, 0, 0], -5),
        ([BASE - 4096, 0, 0], -5),
        ([0, 0, 0], -5),
        ([0, ALL, 0], -5),
    ];
    for (args, code) in rows {
        call(case, &small(case.xlen, &[]), SET, args, code)?;
    }
    Ok(())
}

/// Tables 9 to 11: the feature is absent, the parameter is bad, there is no page. Parameters that
/// width 32 does not see whole are good there.
pub fn sync_errors(case: &mut Case) -> Result {
    for fid in SYNC_CSR..=SYNC_SRET {
        let mut state = small(case.xlen, &[]);
        state.hart.features = 15 & !(1 << (fid - SYNC_CSR));
        call(case, &state, fid, [ALL, 0, 0], -2)?;
        let mut state = small(case.xlen, &[]);
        state.hart.page = None;
        call(case, &state, fid, [ALL, 0, 0], -9)?;
        state.hart.page = Some(BASE + 4096);
        call(case, &state, fid, [ALL, 0, 0], -9)?;
        let (bad, wide): (&[u64], &[u64]) = match fid {
            SYNC_CSR => (
                &[0, 0x100, 0x300, 0x1600, 0x2FF, 0xFFFF_FFFE, ALL - 1],
                &[0x644 | 1 << 32, 0xFFFF_FFFF],
            ),
            SYNC_FENCE => (&[120, 121, 0xFFFF_FFFE, ALL - 1], &[60, 61, 119, 0xFFFF_FFFF, 1 << 32]),
            _ => (&[], &[]),
        };
        for &a0 in bad {
            call(case, &small(case.xlen, &[]), fid, [a0, 0, 0], -3)?;
        }
        for &a0 in wide {
            call(case, &small(case.xlen, &[]), fid, [a0, 0, 0], at(case, 0, -3))?;
        }
    }
    Ok(())
}

/// Table 12: the extension's number and its functions 0 to 4; no other is there. Width 32 has the
/// low 32 bits of both numbers.
pub fn functions(case: &mut Case) -> Result {
    for fid in [0, 1, 2, 3, 4] {
        let a0 = if fid == SET { BASE } else { ALL };
        call(case, &small(case.xlen, &[]), fid, [a0, 0, 0], 0)?;
        for eid in [0, EID - 1, EID + 1, EID | 1 << 32, ALL] {
            let code = if eid == EID | 1 << 32 { at(case, 0, -2) } else { -2 };
            let action = Action::Call { eid, fid, args: [a0, 0, 0] };
            case.expect(&Input::new(&small(case.xlen, &[]), action), code)?;
        }
    }
    for fid in [5, 6, ALL] {
        call(case, &small(case.xlen, &[]), fid, [ALL, 0, 0], -2)?;
    }
    for fid in [1 << 32, (1 << 32) + 2] {
        call(case, &small(case.xlen, &[]), fid, [ALL, 0, 0], at(case, 0, -2))?;
    }
    Ok(())
}

/// The example under feature 0: hvip is written first, followed by hip.
pub fn hvip_before_hip(case: &mut Case) -> Result {
    for (hvip, hip, expected) in [(0x444, 0, 0x440), (0, 0x444, 4), (0x40, 4, 0x44)] {
        let mut state = small(case.xlen, &[]);
        mark(&mut state, Csr::Hvip, hvip);
        mark(&mut state, Csr::Hip, hip);
        let end = call(case, &state, SYNC_CSR, [ALL, 0, 0], 0)?;
        let words = [Csr::Hvip, Csr::Hip].map(|csr| csr_word(&end.memory, csr));
        fact(case, words == [expected; 2] && end.words[3] == expected, "hvip and hip")?;
    }
    Ok(())
}
