//! The trap back by hand: what it leaves in the record and in the page.

use second::csr::{self, Csr};
use second::hart::{Hart, Mode};
use second::page;
use second::state::{Memory, State};
use second::trap;
use second::xlen::Xlen;

use crate::common::*;

/// The registers whose words a trap stores.
const SHOWN: [Csr; 5] = [Csr::Hstatus, Csr::Htval, Csr::Htinst, Csr::Hip, Csr::Vsip];

/// A guest in this mode, with a record in which every field that a trap sets is to change.
fn busy_guest(xlen: Xlen, mode: Mode) -> State {
    let mut state = guest_at(xlen);
    let hart = &mut state.hart;
    (hart.mode, hart.spp) = (mode, mode == Mode::U);
    (hart.sie, hart.spie) = (true, false);
    (hart.pc, hart.sepc, hart.stvec) = (0x8000_1235, 0x6666, 0x9000_0004);
    (hart.htval, hart.htinst, hart.scause, hart.stval) = (0x71, 0x72, 0x73, 0x74);
    // HU, VGEIN 3 and the bits 22:20 stay.
    hart.hstatus |= 0x70_3200;
    (hart.hvip, hart.hideleg, hart.lines) = (0x404, 0x444, 0x40);
    for i in 1..32 {
        hart.x[i] = 0x100 + i as u64;
    }
    state.table = slot(true, 5, 9, 16, 16).to_vec();
    state
}

/// Makes a trap, which must be accepted.
fn take(state: &mut State, words: [u64; 4], gva: u64) {
    let answer = trap::back(state, trap_of(words, gva));
    assert_eq!((answer.code, answer.value, answer.resumed), (0, 0, false));
}

/// From S: GVA, SPV, SPVP, SPP and SPIE become 1, every other field of the trap is told or fixed,
/// and the rest of the record and the table stay.
#[test]
fn from_s() {
    for xlen in Xlen::BOTH {
        let mut state = busy_guest(xlen, Mode::S);
        let start = state.clone();
        take(&mut state, [21, 0x3333, 0x1111, 0x2222], 1);
        let expected = Hart {
            virt: false,
            hstatus: if xlen == Xlen::X32 { 0x70_33C0 } else { 0x2_0070_33C0 },
            spp: true,
            spie: true,
            sie: false,
            sepc: 0x8000_1234,
            mode: Mode::S,
            pc: 0x9000_0004,
            htval: 0x1111,
            htinst: 0x2222,
            scause: 21,
            stval: 0x3333,
            ..start.hart.clone()
        };
        assert_eq!(state.hart, expected);
        assert_eq!((state.table, state.hart.x[31]), (start.table, 0x11F));
    }
}

/// From U, with the three bits of hstatus the other way round before: GVA, SPVP, SPP and SPIE
/// become 0, SPV 1.
#[test]
fn from_u() {
    for xlen in Xlen::BOTH {
        let mut state = busy_guest(xlen, Mode::U);
        state.hart.hstatus |= 0x140;
        (state.hart.sie, state.hart.spie) = (false, true);
        let start = state.clone();
        take(&mut state, [8, 0, 0, 0], 0);
        let expected = Hart {
            virt: false,
            hstatus: if xlen == Xlen::X32 { 0x70_3280 } else { 0x2_0070_3280 },
            spp: false,
            spie: false,
            sie: false,
            sepc: 0x8000_1234,
            mode: Mode::S,
            pc: 0x9000_0004,
            htval: 0,
            htinst: 0,
            scause: 8,
            stval: 0,
            ..start.hart.clone()
        };
        assert_eq!(state.hart, expected);
    }
}

/// sepc takes pc without bit 0, whatever the other bits are; pc takes stvec, which stays.
#[test]
fn addresses() {
    for xlen in Xlen::BOTH {
        for (pc, sepc) in [(0, 0), (1, 0), (2, 2), (3, 2), (xlen.ones(), xlen.ones() - 1)] {
            for stvec in [0, 4, 8, xlen.ones() - 3] {
                let mut state = guest_at(xlen);
                (state.hart.pc, state.hart.stvec) = (pc, stvec);
                take(&mut state, [8, 0, 0, 0], 0);
                assert_eq!(
                    (state.hart.sepc, state.hart.pc, state.hart.stvec),
                    (sepc, stvec, stvec)
                );
            }
        }
    }
}

/// The four words are stored as told, at width 32 their low 32 bits; of GVA bit 0 counts.
#[test]
fn words_told() {
    let words = [1 << 63 | 9, 1 << 32 | 0x8000_0000, u64::MAX, 0xFFFF_FFFE_0000_0001];
    let cut = [9, 0x8000_0000, 0xFFFF_FFFF, 1];
    for (xlen, expected) in [(Xlen::X32, cut), (Xlen::X64, words)] {
        for (gva, bit) in [(0, 0), (1, 1), (2, 0), (3, 1), (1 << 32, 0), (u64::MAX, 1)] {
            let mut state = guest_at(xlen);
            take(&mut state, words, gva);
            let hart = &state.hart;
            assert_eq!([hart.scause, hart.stval, hart.htval, hart.htinst], expected);
            assert_eq!(hart.hstatus >> 6 & 1, bit, "{gva:x}");
            assert!(hart.is_well_made());
        }
    }
}

/// Where the words of SHOWN lie: index 0x100, 0x143, 0x14A, 0x144 and 0x44.
const PLACES_32: [usize; 5] = [0x1400, 0x150C, 0x1528, 0x1510, 0x1110];
const PLACES_64: [usize; 5] = [0x1800, 0x1A18, 0x1A50, 0x1A20, 0x1220];

/// Five words are stored and no other byte of the page or of the memory around it. The flags other
/// than bit 0 do not matter.
#[test]
fn five_words() {
    let last = [0x1111, 0x2222, 0x404, 0x202];
    for (xlen, places) in [(Xlen::X32, PLACES_32), (Xlen::X64, PLACES_64)] {
        let mut state = busy_guest(xlen, Mode::S);
        let size = xlen.page_size();
        state.memory = Memory { base: BASE, bytes: vec![0xA5; 4096 + size + 100] };
        state.hart.page = Some(BASE + 4096);
        state.memory.bytes[4096 + 0x200] = 0xFE;
        state.memory.bytes[4096 + 0xF80..][..0x80].fill(0);
        let mut expected = state.memory.clone();
        take(&mut state, [21, 0x3333, 0x1111, 0x2222], 1);
        let hstatus = if xlen == Xlen::X32 { 0x70_33C0 } else { 0x2_0070_33C0 };
        for (place, word) in places.into_iter().zip([hstatus].into_iter().chain(last)) {
            page::set_word(xlen, &mut expected.bytes, 4096 + place, word);
        }
        assert!(state.memory == expected);
    }
}

/// With no page, one elsewhere, or memory one byte short: the record as ever, no store and no swap.
#[test]
fn no_page() {
    for xlen in Xlen::BOTH {
        let mut start = busy_guest(xlen, Mode::U);
        let mut with_page = start.clone();
        take(&mut with_page, [20, 1, 2, 3], 1);
        start.memory.bytes.fill(0xA5);
        let size = xlen.page_size() as u64;
        for (page, bytes) in [
            (None, size),
            (Some(BASE - 4096), size),
            (Some(BASE + 4096), size),
            (Some(BASE), size - 1),
            (Some(BASE), 0),
        ] {
            let mut state = start.clone();
            state.hart.page = page;
            state.memory.bytes.truncate(bytes as usize);
            let before = state.memory.clone();
            take(&mut state, [20, 1, 2, 3], 1);
            assert_eq!(state.hart, Hart { page, ..with_page.hart.clone() });
            assert!(state.memory == before);
        }
    }
}

/// A guest with the flag set and this swap word.
fn guest_with_swap(xlen: Xlen, swap: u64) -> State {
    let mut state = guest_at(xlen);
    state.memory.bytes[0x200] = 1;
    page::set_word(xlen, &mut state.memory.bytes, swap_place(xlen), swap);
    state
}

/// Where the swap word lies.
fn swap_place(xlen: Xlen) -> usize {
    if xlen == Xlen::X32 {
        0x204
    } else {
        0x208
    }
}

/// The swap word of the state's page.
fn swap_word(state: &State) -> u64 {
    page::word(state.hart.xlen, state.page().unwrap(), swap_place(state.hart.xlen))
}

/// The swap comes after the bits, which the swap word gets and hstatus loses, and before the words,
/// so that hip and vsip show the line that the new VGEIN selects.
#[test]
fn swap_in_order() {
    for xlen in Xlen::BOTH {
        let xl = if xlen == Xlen::X32 { 0 } else { 0x2_0000_0000 };
        let mut state = guest_with_swap(xlen, 0x30_5000);
        state.hart.hstatus |= 0x200;
        (state.hart.lines, state.hart.hideleg) = (0x20, 0x400);
        take(&mut state, [21, 1, 2, 3], 1);
        assert_eq!((state.hart.hstatus, swap_word(&state)), (xl | 0x30_5000, xl | 0x3C0));
        let words = SHOWN.map(|csr| csr_word(&state, csr));
        assert_eq!(words, [xl | 0x30_5000, 2, 3, 0x400, 0x200]);
        assert!(state.hart.spp && !state.hart.virt && state.hart.is_well_made());
    }
}

/// The swap is a register write: it drops bits and keeps VGEIN if the new one is above 7.
#[test]
fn swap_by_the_rule() {
    for xlen in Xlen::BOTH {
        let xl = if xlen == Xlen::X32 { 0 } else { 0x2_0000_0000 };
        let mut state = guest_with_swap(xlen, u64::MAX);
        state.hart.hstatus |= 0x3000;
        state.hart.mode = Mode::U;
        take(&mut state, [21, 1, 2, 3], 0);
        assert_eq!((state.hart.hstatus, swap_word(&state)), (xl | 0x70_33C0, xl | 0x3080));
    }
}

/// No swap without feature 3, and none without the flag; the other features do not matter.
#[test]
fn swap_off() {
    for (features, xlen) in (0..16).flat_map(|features| Xlen::BOTH.map(|xlen| (features, xlen))) {
        for flags in [0, 1, 0xFE, 0xFF] {
            let mut state = guest_with_swap(xlen, 0x1000);
            state.hart.features = features;
            state.memory.bytes[0x200] = flags;
            take(&mut state, [21, 1, 2, 3], 1);
            let bits = [swap_word(&state), state.hart.hstatus].map(|word| word & 0xFFFF_FFFF);
            let swapped = features >= 8 && flags & 1 == 1;
            assert_eq!(bits, if swapped { [0x1C0, 0x1000] } else { [0x1000, 0x1C0] });
            assert_eq!(csr_word(&state, Csr::Hstatus), state.hart.hstatus);
        }
    }
}

/// With feature 0 a dirty word stays, each for itself; without it all five are stored. The dirty
/// bits stay in either case.
#[test]
fn dirty_words() {
    for xlen in Xlen::BOTH {
        for marked in [&SHOWN[..1], &SHOWN[1..2], &SHOWN[2..3], &SHOWN[3..4], &SHOWN[4..], &SHOWN] {
            for features in [1, 15, 0, 14] {
                let mut state = busy_guest(xlen, Mode::S);
                state.hart.features = features;
                marked.iter().for_each(|&csr| mark(&mut state, csr, 0x5555));
                let bitmap = state.memory.bytes[0xF80..0x1000].to_vec();
                take(&mut state, [21, 0x3333, 0x1111, 0x2222], 1);
                for csr in SHOWN {
                    let stays = features & 1 == 1 && marked.contains(&csr);
                    let expected = if stays { 0x5555 } else { csr::read(&state.hart, csr) };
                    assert_eq!(csr_word(&state, csr), expected, "{features} {csr:?}");
                }
                assert_eq!(state.memory.bytes[0xF80..0x1000], bitmap);
            }
        }
    }
}

/// The swap does not ask whether hstatus's word is dirty: hstatus is swapped, the word stays.
#[test]
fn swap_beside_a_dirty_word() {
    for xlen in Xlen::BOTH {
        let xl = if xlen == Xlen::X32 { 0 } else { 0x2_0000_0000 };
        let mut state = guest_with_swap(xlen, 0x7000);
        mark(&mut state, Csr::Hstatus, 0x40);
        take(&mut state, [21, 1, 2, 3], 1);
        assert_eq!((state.hart.hstatus, swap_word(&state)), (xl | 0x7000, xl | 0x1C0));
        assert_eq!((csr_word(&state, Csr::Hstatus), dirty(&state, Csr::Hstatus)), (0x40, true));
    }
}
