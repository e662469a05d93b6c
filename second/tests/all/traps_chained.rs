//! The trap back among calls: into the guest, out of it, and what a synchronization makes of it.

use second::calls::{self, ALL, EID, SET, SYNC_CSR, SYNC_SRET};
use second::csr::Csr;
use second::gen;
use second::hart::{Hart, Mode};
use second::lines;
use second::page;
use second::rng::Rng;
use second::state::{Memory, State};
use second::trap;
use second::xlen::Xlen;

use crate::codes::six_codes;
use crate::common::*;

/// A fresh hart with a handler and memory of old bytes; its page is set by a call.
fn fresh_state(xlen: Xlen) -> State {
    let hart = Hart { stvec: 0x100, sepc: 0x4000, ..Hart::fresh_at(xlen, 15) };
    let memory = Memory { base: BASE, bytes: vec![0xA5; xlen.page_size()] };
    let mut state = State { hart, memory, table: Vec::new() };
    assert_eq!(calls::call(&mut state, EID, SET, [BASE, 0, 0]).code, 0);
    state
}

/// Set, SRET into the guest, where every call is -2, then a trap: the calls are open again, and the
/// next SRET goes on where the guest was, in its mode.
#[test]
fn there_and_back() {
    for (xlen, mode) in Xlen::BOTH.map(|xlen| [(xlen, Mode::U), (xlen, Mode::S)]).concat() {
        let is_s = mode == Mode::S;
        let mut state = fresh_state(xlen);
        state.hart.spp = is_s;
        mark(&mut state, Csr::Hstatus, 0x80);
        assert!(sync(&mut state, SYNC_SRET, 0).resumed);
        assert_eq!((state.hart.virt, state.hart.mode, state.hart.pc), (true, mode, 0x4000));
        assert_eq!(six_codes(&state), [-2; 6]);
        state.hart.pc = 0x4011;
        assert_eq!(trap::back(&mut state, trap_of([21, 0x77, 0x1D, 0], 1)).code, 0);
        assert_eq!((state.hart.virt, state.hart.mode, state.hart.pc), (false, Mode::S, 0x100));
        assert_eq!((state.hart.sepc, state.hart.spp), (0x4010, is_s));
        assert_eq!((state.hart.scause, state.hart.stval), (21, 0x77));
        let told = if is_s { 0x1C0 } else { 0xC0 };
        assert_eq!(csr_word(&state, Csr::Hstatus) & 0xFFFF_FFFF, told);
        assert_eq!(csr_word(&state, Csr::Htval), 0x1D);
        assert_eq!(six_codes(&state), [0, 0, 0, 0, 0, -2]);
        assert!(sync(&mut state, SYNC_SRET, 0).resumed);
        assert_eq!((state.hart.virt, state.hart.mode, state.hart.pc), (true, mode, 0x4010));
        assert_eq!(csr_word(&state, Csr::Hstatus) & 0xFFFF_FFFF, told & !0x80);
        assert_eq!(six_codes(&state), [-2; 6]);
    }
}

/// SIE goes off at a trap and comes back with SRET.
#[test]
fn interrupts_off_and_on() {
    for (xlen, sie) in Xlen::BOTH.map(|xlen| [(xlen, false), (xlen, true)]).concat() {
        let mut state = fresh_state(xlen);
        state.hart.virt = true;
        state.hart.sie = sie;
        assert_eq!(trap::back(&mut state, trap_of([8, 0, 0, 0], 0)).code, 0);
        assert_eq!((state.hart.sie, state.hart.spie), (false, sie));
        assert!(sync(&mut state, SYNC_SRET, 0).resumed);
        assert_eq!((state.hart.sie, state.hart.spie), (sie, true));
    }
}

/// With the swap on, SRET brings the guest's hstatus and the trap puts it back, ready for the next.
#[test]
fn swapped_there_and_back() {
    for (xlen, at, xl) in [(Xlen::X32, 0x204, 0), (Xlen::X64, 0x208, 0x2_0000_0000)] {
        let mut state = fresh_state(xlen);
        mark(&mut state, Csr::Hstatus, 0x200);
        state.memory.bytes[0x200] = 1;
        page::set_word(xlen, &mut state.memory.bytes, at, 0x3080);
        for _ in 0..3 {
            assert!(sync(&mut state, SYNC_SRET, 0).resumed);
            assert!(state.hart.virt);
            assert_eq!(state.hart.hstatus, xl | 0x3000);
            assert_eq!(page::word(xlen, &state.memory.bytes, at), xl | 0x200);
            assert_eq!(trap::back(&mut state, trap_of([8, 0, 0, 0], 0)).code, 0);
            assert_eq!(state.hart.hstatus, xl | 0x200);
            assert_eq!(page::word(xlen, &state.memory.bytes, at), xl | 0x3080);
            assert_eq!(csr_word(&state, Csr::Hstatus), xl | 0x200);
        }
    }
}

/// Dirty words stay at the trap and are carried out by the next synchronization, which overwrites
/// what the trap told.
#[test]
fn dirty_words_are_carried_out() {
    for (xlen, a0) in Xlen::BOTH.map(|xlen| [(xlen, ALL), (xlen, 0x600)]).concat() {
        let xl = if xlen == Xlen::X32 { 0 } else { 0x2_0000_0000 };
        let mut state = fresh_state(xlen);
        state.hart.virt = true;
        mark(&mut state, Csr::Hstatus, 0x240);
        mark(&mut state, Csr::Htval, 0x99);
        assert_eq!(trap::back(&mut state, trap_of([21, 0, 5, 6], 0)).code, 0);
        assert_eq!((state.hart.hstatus, state.hart.htval), (xl | 0x180, 5));
        assert_eq!([Csr::Hstatus, Csr::Htval].map(|csr| csr_word(&state, csr)), [0x240, 0x99]);
        assert_eq!(sync(&mut state, SYNC_CSR, a0).code, 0);
        assert_eq!((state.hart.hstatus, csr_word(&state, Csr::Hstatus)), (xl | 0x240, xl | 0x240));
        assert!(!dirty(&state, Csr::Hstatus));
        let all = a0 == ALL;
        assert_eq!(
            (state.hart.htval, dirty(&state, Csr::Htval)),
            (if all { 0x99 } else { 5 }, !all)
        );
        assert_eq!((state.hart.htinst, csr_word(&state, Csr::Htinst)), (6, 6));
    }
}

/// Lines change while the guest runs; the trap leaves them, and the calls then see them.
#[test]
fn lines_in_the_guest() {
    for xlen in Xlen::BOTH {
        let mut state = fresh_state(xlen);
        state.hart.virt = true;
        state.hart.hgeie = 0x08;
        assert_eq!(lines::change(&mut state, 0x08).code, 0);
        assert_eq!(
            trap::back(&mut state, trap_of([1 << (xlen.bits() - 1) | 12, 0, 0, 0], 0)).code,
            0
        );
        assert_eq!((state.hart.lines, csr_word(&state, Csr::Hip)), (0x08, 0x1000));
        assert_eq!(sync(&mut state, SYNC_CSR, 0x644).code, 0);
    }
}

/// From any state that SRET leaves with V on: the trap is accepted once, and every call is then.
#[test]
fn random_chains() {
    for xlen in Xlen::BOTH {
        let mut rng = Rng::new(50);
        let mut entered = 0;
        for _ in 0..3000 {
            let mut state = gen::good_state(&mut rng, xlen);
            assert!(sync(&mut state, SYNC_SRET, 0).resumed);
            let is_guest = state.hart.virt;
            let (mode, pc, sie) = (state.hart.mode, state.hart.pc, state.hart.sie);
            let trap = gen::trap(&mut rng, xlen);
            assert_eq!(trap::back(&mut state, trap).code, if is_guest { 0 } else { -2 });
            if is_guest {
                entered += 1;
                assert!(state.hart.is_well_made());
                assert_eq!(trap::back(&mut state, trap).code, -2);
                assert_eq!(calls::check(&state, EID, SYNC_CSR, [ALL, 0, 0]).map(|_| ()), Ok(()));
                assert!(sync(&mut state, SYNC_SRET, 0).resumed);
                let after = (state.hart.mode, state.hart.pc, state.hart.sie);
                assert_eq!(after, (mode, pc, sie));
            }
        }
        assert!(entered > 500, "{entered}");
    }
}
