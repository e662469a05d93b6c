//! Cases of width 32, worked by hand: the sample tickets again, and what the width changes.

use second::calls::{self, ALL, EID, SET, SYNC_CSR, SYNC_FENCE, SYNC_SRET};
use second::csr::Csr;
use second::hart::{Hart, Mode};
use second::page;
use second::state::State;
use second::steps;
use second::xlen::Xlen::X32;

use crate::common::*;

/// The little-endian word of four bytes.
fn word(bytes: &[u8], offset: usize) -> u32 {
    u32::from_le_bytes([0, 1, 2, 3].map(|k| bytes[offset + k]))
}

/// Stores a little-endian word of four bytes.
fn set_word(bytes: &mut [u8], offset: usize, value: u32) {
    bytes[offset..offset + 4].copy_from_slice(&value.to_le_bytes());
}

/// The small state with one register's bit and word set, by their places in the page.
fn marked(bit: (usize, u32), offset: usize, value: u32) -> State {
    let mut state = small_state_at(X32);
    state.memory.bytes[bit.0] = 1 << bit.1;
    set_word(&mut state.memory.bytes, offset, value);
    state
}

/// hip has index 0x144 and its word at 0x1510; its bit lies where it does at width 64.
#[test]
fn place_of_hip() {
    assert_eq!(page::word_offset(X32, 0x144), 0x1510);
    let mut state = marked((0xFA8, 4), 0x1510, 4);
    assert_eq!(sync(&mut state, SYNC_CSR, 0x644).code, 0);
    assert_eq!((state.hart.hvip, state.memory.bytes[0xFA8]), (4, 0));
    assert_eq!(word(&state.memory.bytes, 0x1000 + 4 * 0x145), 4);
}

/// hgeip has index 0x312 and its word at 0x1C48.
#[test]
fn place_of_hgeip() {
    let mut state = marked((0xFE2, 2), 0x1C48, 0xFFFF_FFFF);
    state.hart.lines = 0x24;
    assert_eq!(sync(&mut state, SYNC_CSR, 0xE12).code, 0);
    assert_eq!((word(&state.memory.bytes, 0x1C48), state.memory.bytes[0xFE2]), (0x24, 0));
}

/// htimedeltah is served from 0x1454 (index 0x115, bit 5 of 0xFA2) and stored there again.
#[test]
fn htimedeltah_is_served() {
    let mut state = marked((0xFA2, 5), 0x1454, 0x89AB_CDEF);
    assert_eq!(sync(&mut state, SYNC_CSR, 0x615).code, 0);
    assert_eq!((state.hart.htimedeltah, state.hart.htimedelta), (0x89AB_CDEF, 0));
    assert_eq!((word(&state.memory.bytes, 0x1454), state.memory.bytes[0xFA2]), (0x89AB_CDEF, 0));
}

/// henvcfgh is served from 0x1468 (index 0x11A, bit 2 of 0xFA3): its mark is cleared in two steps
/// and its word becomes 0; in the record only the count of dropped writes changes.
#[test]
fn henvcfgh_is_served() {
    let start = marked((0xFA3, 2), 0x1468, 0xFFFF_FFFF);
    let mut state = start.clone();
    let run = steps::run(&mut state, EID, SYNC_CSR, 0x61A, 9);
    assert_eq!((run.code, run.steps, run.finished), (0, 3, true));
    let hart = Hart { dropped: 1, ..start.hart.clone() };
    assert_eq!((&state.hart, run.reports), (&hart, vec![report(0x61A, 0xFFFF_FFFF)]));
    assert_eq!((word(&state.memory.bytes, 0x1468), state.memory.bytes[0xFA3]), (0, 0));
    let mut state = start.clone();
    assert_eq!(steps::run(&mut state, EID, SYNC_CSR, 0x61A, 1).steps, 1);
    assert_eq!(state, State { hart, ..start });
}

/// At width 64 the two upper halves are bad parameters, and all-ones leaves their marks.
#[test]
fn upper_halves_at_64() {
    let mut start = small_state();
    start.memory.bytes[0xFA2] = 1 << 5;
    start.memory.bytes[0xFA3] = 1 << 2;
    for number in [0x615, 0x61A] {
        let mut state = start.clone();
        assert_eq!(sync(&mut state, SYNC_CSR, number).code, -3);
        assert_eq!(steps::run(&mut state, EID, SYNC_CSR, number, 9).code, -3);
        assert_eq!(state, start);
    }
    assert_eq!(sync(&mut start, SYNC_CSR, ALL).code, 0);
    assert_eq!(start.memory.bytes[0xFA2..0xFA4], [1 << 5, 1 << 2]);
}

/// Words through the page: hgatp without bits 30:29 and 1:0, vsatp whole, vsstatus with bit 31.
#[test]
fn words_of_registers() {
    let cases = [
        (Csr::Hgatp, 0xFFFF_FFFF, 0x9FFF_FFFC),
        (Csr::Vsatp, 0xFFFF_FFFF, 0xFFFF_FFFF),
        (Csr::Vsatp, 0x8000_0001, 0x8000_0001),
        (Csr::Vsstatus, 0x0000_6000, 0x8000_6000),
        (Csr::Vsstatus, 0x8000_2000, 0x0000_2000),
        (Csr::Hstatus, 0xFFFC_7FFF, 0x0070_73C0),
        (Csr::Vsepc, 0xFFFF_FFFF, 0xFFFF_FFFE),
        (Csr::Hvip, 0xFFFF_FFFF, 0x444),
    ];
    for (csr, given, reading) in cases {
        for a0 in [csr.number(), 0xFFFF_FFFF] {
            let mut state = small_state_at(X32);
            mark(&mut state, csr, given);
            assert_eq!(sync(&mut state, SYNC_CSR, a0).code, 0);
            assert_eq!((csr_word(&state, csr), dirty(&state, csr)), (reading, false));
        }
    }
}

/// T6, T7 and T9 give what they give at width 64.
#[test]
fn interrupt_tickets() {
    let mut state = small_state_at(X32);
    mark(&mut state, Csr::Hvip, 0xFFFF);
    mark(&mut state, Csr::Hideleg, 4);
    assert_eq!(sync(&mut state, SYNC_CSR, ALL).code, 0);
    assert_eq!((csr_word(&state, Csr::Hvip), csr_word(&state, Csr::Vsip)), (0x444, 2));
    let mut state = small_state_at(X32);
    state.hart.lines = 8;
    mark(&mut state, Csr::Hstatus, 3 << 12);
    mark(&mut state, Csr::Hgeie, 8);
    assert_eq!(sync(&mut state, SYNC_CSR, ALL).code, 0);
    assert_eq!(csr_word(&state, Csr::Hip), 0x1400);
    let mut state = small_state_at(X32);
    mark(&mut state, Csr::Hvip, 0);
    mark(&mut state, Csr::Hip, 4);
    assert_eq!(sync(&mut state, SYNC_CSR, ALL).code, 0);
    assert_eq!((csr_word(&state, Csr::Hvip), csr_word(&state, Csr::Hip)), (4, 4));
}

/// Entry 119 is the last, at 0xF70; 120 is a bad parameter.
#[test]
fn last_entry() {
    let mut state = state_with_slots_at(X32, &[slot(false, 1, 1, 1, 1)]);
    set_word(&mut state.memory.bytes, 0xF70, 0x8100_0000);
    assert_eq!(sync(&mut state.clone(), SYNC_FENCE, 120).code, -3);
    assert_eq!(sync(&mut state, SYNC_FENCE, 119).code, 0);
    assert_eq!(used(&state), [false]);
    assert_eq!(word(&state.memory.bytes, 0xF70), 0x0100_0000);
}

/// T12: Config of type 2 and VMID 5, 0x82000A00, becomes 0x02000A00.
#[test]
fn config_after() {
    let mut state = state_with_slots_at(X32, &[slot(false, 5, 0, 9, 16), slot(false, 5, 0, 9, 17)]);
    for (k, value) in [0x8200_0A00, 16, 0, 1].into_iter().enumerate() {
        set_word(&mut state.memory.bytes, 0x870 + 4 * k, value);
    }
    assert_eq!(sync(&mut state, SYNC_FENCE, 7).code, 0);
    assert_eq!(word(&state.memory.bytes, 0x870), 0x0200_0A00);
    assert_eq!(used(&state), [false, true]);
}

/// An entry with bit 23, 28, 29 or 30 set names every used slot, also when it is global.
#[test]
fn reserved_bits() {
    let slots = [slot(true, 0x3FFF, 0xFFFF, u64::MAX, u64::MAX), slot(false, 1, 1, 1, 1)];
    for bit in [23, 28, 29, 30] {
        let mut state = state_with_slots_at(X32, &slots);
        set_word(&mut state.memory.bytes, 0x800, 0x8700_0000 | 1 << bit);
        assert_eq!(sync(&mut state, SYNC_FENCE, 0).code, 0);
        assert_eq!(used(&state), [false, false], "bit {bit}");
        assert_eq!(word(&state.memory.bytes, 0x800), 0x0700_0000 | 1 << bit);
    }
}

/// T10: Order 9, one page from number 1, is pages 512 to 1023.
#[test]
fn order_9() {
    for kind in [0, 2, 4, 6] {
        let slots = [511, 512, 1023, 1024].map(|page| slot(false, 5, 0, page, page));
        let mut state = state_with_slots_at(X32, &slots);
        put_entry(&mut state, 0, pending_at(X32, kind, 9, [5, 0], [1, 1]));
        assert_eq!(sync(&mut state, SYNC_FENCE, ALL).code, 0);
        assert_eq!(used(&state), [true, false, false, true]);
    }
}

/// T11: a range that passes 2^32 goes on there, and does not come round to page 0.
#[test]
fn no_wrap() {
    let pages = [0, 0xFFFF_FFFE, 0xFFFF_FFFF, 1 << 32, (1 << 32) + 1];
    for kind in [0, 2, 4, 6] {
        let mut state = state_with_slots_at(X32, &pages.map(|p| slot(false, 0, 0, p, p)));
        put_entry(&mut state, 0, pending_at(X32, kind, 0, [0, 0], [0xFFFF_FFFF, 2]));
        assert_eq!(sync(&mut state, SYNC_FENCE, ALL).code, 0);
        assert_eq!(used(&state), [true, true, false, false, true]);
    }
}

/// A slot's VMID above 127 and ASID above 511 are compared as numbers with an entry's.
#[test]
fn wide_ids_of_slots() {
    let slots = [
        slot(false, 1, 1, 0, 0),
        slot(false, 0x81, 1, 0, 0),
        slot(false, 1, 0x201, 0, 0),
        slot(false, 0x3FFF, 0xFFFF, 0, 0),
    ];
    let left = |kind: u64| {
        let mut state = state_with_slots_at(X32, &slots);
        put_entry(&mut state, 0, pending_at(X32, kind, 0, [1, 1], [0, 1]));
        sync(&mut state, SYNC_FENCE, 0);
        used(&state)
    };
    for kind in [0, 1] {
        assert_eq!(left(kind), [false, false, false, false]);
    }
    for kind in [2, 3, 4, 5] {
        assert_eq!(left(kind), [false, true, false, true]);
    }
    for kind in [6, 7] {
        assert_eq!(left(kind), [false, true, true, true]);
    }
}

/// A record word with bit 32 set is -1, also in the stoppable form, in a line change and in a trap.
#[test]
fn bit_32_of_the_record() {
    let mut refused = 0;
    for place in 0..63 {
        let mut state = small_state_at(X32);
        let hart = &mut state.hart;
        let stored = second::csr::REGISTERS.get(place).copied();
        match (stored.and_then(|csr| hart.stored_mut(csr)), place) {
            (Some(field), _) => *field |= 1 << 32,
            (None, 25..57) => hart.x[place - 25] |= 1 << 32,
            (None, 57) => hart.page = Some(1 << 32),
            (None, 58) => hart.pc |= 1 << 32,
            (None, 59) => hart.sepc |= 1 << 32,
            (None, 60) => hart.stvec |= 1 << 32,
            (None, 61) => hart.scause |= 1 << 32,
            (None, 62) => hart.stval |= 1 << 32,
            _ => continue,
        }
        refused += 1;
        let start = state.clone();
        assert_eq!(code_of(&state, EID, 0, [0; 3]), -1, "{place}");
        assert_eq!(steps::run(&mut state, EID, SYNC_CSR, ALL, 9).code, -1);
        assert_eq!(second::lines::change(&mut state, 0).code, -1);
        assert_eq!(second::trap::back(&mut state, trap_of([0; 4], 0)).code, -1);
        assert_eq!(state, start);
    }
    assert_eq!(refused, 20 + 32 + 6);
}

/// Set: a page at 0xFFFFF000 in memory that goes on above 2^32 is accepted; memory that begins
/// above 2^32 holds no page that can be named.
#[test]
fn set_near_the_end() {
    let mut state = small_state_at(X32);
    state.memory.base = 0xFFFF_F000;
    assert_eq!(calls::call(&mut state, EID, SET, [0xFFFF_F000, 0, 0]).code, 0);
    assert_eq!(state.hart.page, Some(0xFFFF_F000));
    assert_eq!(sync(&mut state, SYNC_CSR, ALL).code, 0);
    state.memory.base = 1 << 32;
    assert_eq!(sync(&mut state, SYNC_CSR, ALL).code, -9);
    for lo in [0, 1 << 32, 0xFFFF_F000] {
        assert_eq!(code_of(&state, EID, SET, [lo, 0, 0]), -5);
    }
    assert_eq!(code_of(&state, EID, SET, [0, 1, 0]), -5);
    state.memory.base = 0;
    assert_eq!(calls::call(&mut state, EID, SET, [1 << 32, 1 << 32, 1 << 32]).code, 0);
    assert_eq!(state.hart.page, Some(0));
}

/// SRET by hand: X1 to X31 at 4i, the swap word at 0x204, and the words that are stored.
#[test]
fn return_with_swap() {
    let mut state = small_state_at(X32);
    state.hart.sepc = 0x1234;
    state.hart.spp = true;
    for i in 0..128 {
        set_word(&mut state.memory.bytes, 4 * i, 0x8000_0000 + i as u32);
    }
    set_word(&mut state.memory.bytes, 0x200, 0xFFFF_FFFF);
    set_word(&mut state.memory.bytes, 0x204, 0xFFFC_3080);
    set_word(&mut state.memory.bytes, 0x208, 0x5555_5555);
    mark(&mut state, Csr::Hstatus, 0x40);
    put_entry(&mut state, 100, pending_at(X32, 1, 0, [0, 0], [0, 0]));
    let answer = calls::call(&mut state, EID, SYNC_SRET, [0; 3]);
    assert!(answer.resumed && answer.code == 0);
    let hart = &state.hart;
    assert!(hart.virt && hart.mode == Mode::S && hart.spie && !hart.spp);
    assert_eq!(hart.pc, 0x1234);
    assert_eq!(hart.x[0], 0);
    for i in 1..32 {
        assert_eq!(hart.x[i], 0x8000_0000 + i as u64);
    }
    assert_eq!(hart.hstatus, 0x0070_3000);
    let bytes = &state.memory.bytes;
    assert_eq!([0x200, 0x204, 0x208].map(|at| word(bytes, at)), [0xFFFF_FFFF, 0x40, 0x5555_5555]);
    assert_eq!(word(bytes, 0x1400), 0x0070_3000);
    assert!(!get_entry(&state, 100).is_pending());
}
