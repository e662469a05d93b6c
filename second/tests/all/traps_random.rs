//! The trap back on random states of both widths.

use second::calls::{self, Answer};
use second::csr::{self, Csr};
use second::gen;
use second::hart::{Hart, Mode};
use second::lines;
use second::page;
use second::rng::Rng;
use second::state::State;
use second::steps;
use second::trap::{self, Trap};
use second::xlen::Xlen;

use crate::common::*;

/// The record after an accepted trap, before any swap.
fn expected_record(hart: &Hart, trap: &Trap) -> Hart {
    let low = |word: u64| if hart.xlen == Xlen::X32 { word & 0xFFFF_FFFF } else { word };
    let old_mode = u64::from(hart.mode == Mode::S);
    let bits = (trap.gva & 1) << 6 | 1 << 7 | old_mode << 8;
    Hart {
        virt: false,
        hstatus: hart.hstatus & !0x1C0 | bits,
        spp: old_mode == 1,
        spie: hart.sie,
        sie: false,
        sepc: hart.pc / 2 * 2,
        mode: Mode::S,
        pc: hart.stvec,
        htval: low(trap.htval),
        htinst: low(trap.htinst),
        scause: low(trap.cause),
        stval: low(trap.tval),
        ..hart.clone()
    }
}

/// The answer and the end of an accepted trap, told from its beginning.
fn expected_trap(start: &State, trap: &Trap) -> (Answer, State) {
    let mut state = start.clone();
    let mut answer = Answer::plain(0, 0);
    state.hart = expected_record(&start.hart, trap);
    let Some(parts) = state.parts() else {
        return (answer, state);
    };
    let (hart, bytes) = (parts.hart, parts.page);
    let (xlen, size) = (hart.xlen, if hart.xlen == Xlen::X32 { 4 } else { 8 });
    if hart.features & 8 != 0 && bytes[0x200] & 1 == 1 {
        let old = hart.hstatus;
        answer.reports = write_told(hart, Csr::Hstatus, page::word(xlen, bytes, 0x200 + size));
        page::set_word(xlen, bytes, 0x200 + size, old);
    }
    for (csr, index) in [
        (Csr::Hstatus, 0x100),
        (Csr::Htval, 0x143),
        (Csr::Htinst, 0x14A),
        (Csr::Hip, 0x144),
        (Csr::Vsip, 0x44),
    ] {
        if hart.features & 1 == 0 || bytes[0xF80 + index / 8] >> (index % 8) & 1 == 0 {
            page::set_word(xlen, bytes, 0x1000 + size * index, csr::read(hart, csr));
        }
    }
    (answer, state)
}

/// The code that a trap must have.
fn expected_code(start: &State) -> i64 {
    let length = start.table.len();
    if length > 1024 || !length.is_multiple_of(4) || !start.hart.is_well_made() {
        -1
    } else if !start.hart.virt {
        -2
    } else {
        0
    }
}

/// On any state: the code, and then the end that is told, or nothing changed.
#[test]
fn closed_form() {
    for xlen in Xlen::BOTH {
        let mut rng = Rng::new(51);
        for _ in 0..8000 {
            let start = gen::trap_state(&mut rng, xlen);
            let trap = gen::trap(&mut rng, xlen);
            let mut state = start.clone();
            let answer = trap::back(&mut state, trap);
            let expected = match expected_code(&start) {
                0 => expected_trap(&start, &trap),
                code => (Answer::plain(code, 0), start),
            };
            assert_eq!((&answer, &state), (&expected.0, &expected.1));
            assert!(answer.code == -1 || state.hart.is_well_made());
        }
    }
}

/// With every set of features, and the page there: the end that is told; swaps turn up.
#[test]
fn features() {
    for xlen in Xlen::BOTH {
        let mut rng = Rng::new(52);
        let mut swapped = 0;
        for round in 0..3200 {
            let mut start = gen::good_trap_state(&mut rng, xlen);
            start.hart.features = round % 16;
            let trap = gen::trap(&mut rng, xlen);
            let mut state = start.clone();
            let answer = trap::back(&mut state, trap);
            let expected = expected_trap(&start, &trap);
            assert_eq!((&answer, &state), (&expected.0, &expected.1));
            let is_swapped = state.hart.hstatus != expected_record(&start.hart, &trap).hstatus;
            assert!(round % 16 >= 8 || !is_swapped);
            swapped += u32::from(is_swapped);
        }
        assert!(swapped > 400, "{swapped}");
    }
}

/// At width 32 a trap is the trap with its words cut to 32 bits; of GVA only bit 0 counts.
#[test]
fn upper_bits_of_traps() {
    for xlen in Xlen::BOTH {
        let mut rng = Rng::new(53);
        for _ in 0..2000 {
            let start = gen::trap_state(&mut rng, xlen);
            let trap = gen::trap(&mut rng, xlen);
            let low = |word: u64| if xlen == Xlen::X32 { word & 0xFFFF_FFFF } else { word };
            let words = [trap.cause, trap.tval, trap.htval, trap.htinst].map(low);
            let (mut wide, mut narrow) = (start.clone(), start);
            let answer = trap::back(&mut wide, trap);
            assert_eq!(trap::back(&mut narrow, trap_of(words, trap.gva & 1)), answer);
            assert_eq!(wide, narrow);
        }
    }
}

/// The features change the page's bytes, hstatus and the count at most, never another field or a
/// slot.
#[test]
fn features_in_the_record() {
    for xlen in Xlen::BOTH {
        let mut rng = Rng::new(54);
        for _ in 0..2000 {
            let start = gen::good_trap_state(&mut rng, xlen);
            let trap = gen::trap(&mut rng, xlen);
            let mut plain = start.clone();
            plain.hart.features = 0;
            assert_eq!(trap::back(&mut plain, trap).code, 0);
            let mut state = start.clone();
            assert_eq!(trap::back(&mut state, trap).code, 0);
            assert_eq!(state.table, start.table);
            let Hart { hstatus, dropped, .. } = state.hart;
            assert_eq!(state.hart, Hart { hstatus, dropped, features: 15, ..plain.hart });
        }
    }
}

/// The fields that no register shows: stvec, scause and stval.
fn trap_fields(state: &State) -> [u64; 3] {
    [state.hart.stvec, state.hart.scause, state.hart.stval]
}

/// No call, whole or stopped, and no line change writes stvec, scause or stval.
#[test]
fn trap_fields_stay() {
    for xlen in Xlen::BOTH {
        let mut rng = Rng::new(55);
        for round in 0..8000 {
            let mut state = gen::state(&mut rng, xlen);
            let before = trap_fields(&state);
            let call = gen::call(&mut rng, &state);
            let code = match round % 4 {
                0 => lines::change(&mut state, rng.bits() & 0xFE).code,
                1 => {
                    let limit = rng.below(100);
                    steps::run(&mut state, call.eid, call.fid, call.args[0], limit).code
                }
                _ => calls::call(&mut state, call.eid, call.fid, call.args).code,
            };
            assert_eq!(trap_fields(&state), before, "code {code}");
        }
    }
}
