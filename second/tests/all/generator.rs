//! The random states: that every kind of state and answer turns up often enough.

use std::collections::BTreeMap;

use second::calls;
use second::csr::Csr;
use second::gen;
use second::hart::Mode;
use second::rng::Rng;
use second::state::State;
use second::trap;
use second::xlen::Xlen;

use crate::common::*;

/// The generator gives the known numbers of splitmix64.
#[test]
fn known_numbers() {
    let mut rng = Rng::new(1234567);
    let expected = [6457827717110365317, 3203168211198807973, 9817491932198370423];
    assert_eq!([rng.bits(), rng.bits(), rng.bits()], expected);
}

/// Every call meets every code that it can have.
#[test]
fn codes_turn_up() {
    let expected = [
        (0, &[-2, -1, 0][..]),
        (1, &[-5, -3, -2, -1, 0]),
        (2, &[-9, -3, -2, -1, 0]),
        (3, &[-9, -3, -2, -1, 0]),
        (4, &[-9, -2, -1, 0]),
        (5, &[-2, -1]),
    ];
    for xlen in Xlen::BOTH {
        let mut rng = Rng::new(30);
        let mut seen: BTreeMap<(u64, i64), u32> = BTreeMap::new();
        for _ in 0..40_000 {
            let state = gen::state(&mut rng, xlen);
            let call = gen::call(&mut rng, &state);
            let code = code_of(&state, call.eid, call.fid, call.args);
            *seen.entry((xlen.cut(call.fid).min(5), code)).or_default() += 1;
        }
        for (fid, codes) in expected {
            let found: Vec<i64> = seen.keys().filter(|key| key.0 == fid).map(|key| key.1).collect();
            assert_eq!(found, codes);
            for &code in codes {
                assert!(seen[&(fid, code)] > 50, "{fid} {code} {}", seen[&(fid, code)]);
            }
        }
    }
}

/// What a state shows of the kinds that must turn up.
fn kinds_of(state: &State) -> [bool; 12] {
    let xlen = state.hart.xlen;
    let last = u128::from(xlen.ones()) + 1;
    let end = u128::from(state.memory.base) + state.memory.bytes.len() as u128;
    let used = used(state).into_iter().filter(|&used| used).count();
    let slots = state.table.len() / 4;
    let entries: Vec<_> = (0..xlen.entry_count()).map(|n| get_entry(state, n)).collect();
    let pending = entries.iter().filter(|entry| entry.is_pending()).count();
    let unreadable = entries.iter().filter(|entry| !entry.is_readable()).count();
    [
        state.memory.base < 0x4000,
        end >= last,
        end > last,
        state.memory.bytes.len() == xlen.page_size(),
        state.page_start() != Some(0),
        slots == 0,
        slots == 256 && used == 256,
        used * 4 < slots,
        pending == 0,
        pending == xlen.entry_count(),
        unreadable == 0,
        unreadable > 0,
    ]
}

/// Pages, memories, tables and entries of every kind turn up.
#[test]
fn kinds_turn_up() {
    for xlen in Xlen::BOTH {
        let mut rng = Rng::new(31);
        let mut counts = [0; 12];
        let mut kinds = [0; 16];
        let rounds = 4000;
        for _ in 0..rounds {
            let state = gen::good_state(&mut rng, xlen);
            assert!(calls::check(&state, calls::EID, 4, [0; 3]).is_ok());
            for (count, yes) in counts.iter_mut().zip(kinds_of(&state)) {
                *count += u32::from(yes);
            }
            for number in 0..xlen.entry_count() {
                kinds[get_entry(&state, number).kind() as usize] += 1;
            }
        }
        assert!(counts.iter().all(|&count| count > rounds / 200), "{xlen:?} {counts:?}");
        assert!(kinds[..8].iter().all(|&count| count > rounds), "{kinds:?}");
        assert!(kinds[8..].iter().all(|&count| count > 0), "{kinds:?}");
    }
}

/// At width 32 numbers with bits above 31 turn up: in calls, in traps, in records that are damaged,
/// as first addresses, and in slots VMIDs and ASIDs that no entry has.
#[test]
fn wide_numbers_turn_up() {
    let mut rng = Rng::new(33);
    let mut counts = [0; 17];
    for _ in 0..4000 {
        let state = gen::state(&mut rng, Xlen::X32);
        let call = gen::call(&mut rng, &state);
        let trap = gen::trap(&mut rng, Xlen::X32);
        let damaged = gen::damaged_hart(&mut rng, Xlen::X32);
        let slot = gen::slot(&mut rng, Xlen::X32);
        let is_wide = |number: u64| number >> 32 != 0;
        let turned_up = [
            is_wide(call.eid),
            is_wide(call.fid),
            is_wide(call.args[0]),
            is_wide(damaged.pc),
            is_wide(damaged.x[0]) || damaged.x.iter().any(|&word| is_wide(word)),
            is_wide(damaged.page.unwrap_or(0)),
            is_wide(gen::memory(&mut rng, Xlen::X32).base),
            slot[0] >> 16 & 0x3FFF > 127,
            slot[0] & 0xFFFF > 511,
            is_wide(damaged.stvec),
            is_wide(damaged.scause),
            is_wide(damaged.stval),
            is_wide(trap.cause),
            is_wide(trap.tval),
            is_wide(trap.htval),
            is_wide(trap.htinst),
            is_wide(trap.gva),
        ];
        for (count, yes) in counts.iter_mut().zip(turned_up) {
            *count += u32::from(yes);
        }
    }
    assert!(counts.iter().all(|&count| count > 50), "{counts:?}");
}

/// Damaged records are mostly not well made, guests are never accepted, others always well made.
#[test]
fn records() {
    for xlen in Xlen::BOTH {
        let mut rng = Rng::new(32);
        let mut damaged = 0;
        for _ in 0..2000 {
            assert!(gen::hart(&mut rng, xlen).is_well_made());
            let guest = gen::guest_hart(&mut rng, xlen);
            assert!(guest.is_well_made());
            let state = State { hart: guest, ..small_state_at(xlen) };
            assert_eq!(code_of(&state, calls::EID, 0, [0; 3]), -2);
            damaged += u32::from(!gen::damaged_hart(&mut rng, xlen).is_well_made());
        }
        assert!(damaged > 1000, "{damaged}");
    }
}

/// Records have stvec, scause and stval of many kinds; damaged ones also have stvec's low bits.
#[test]
fn trap_fields() {
    for xlen in Xlen::BOTH {
        let mut rng = Rng::new(34);
        let mut counts = [0; 7];
        for _ in 0..4000 {
            let hart = gen::hart(&mut rng, xlen);
            let damaged = gen::damaged_hart(&mut rng, xlen);
            let top = 1 << (xlen.bits() - 1);
            let turned_up = [
                hart.stvec != 0,
                hart.stvec & top != 0,
                hart.scause & top != 0,
                hart.stval & top != 0,
                hart.stval & 1 != 0,
                damaged.stvec & 1 != 0,
                damaged.stvec & 2 != 0,
            ];
            for (count, yes) in counts.iter_mut().zip(turned_up) {
                *count += u32::from(yes);
            }
        }
        assert!(counts.iter().all(|&count| count > 100), "{xlen:?} {counts:?}");
    }
}

/// What a trap that is accepted shows of the kinds that must turn up.
fn kinds_of_trap(state: &State, trap: &trap::Trap) -> [bool; 14] {
    let (hart, xlen) = (&state.hart, state.hart.xlen);
    let page = state.page();
    let has = |feature: u64| hart.features >> feature & 1 == 1;
    let is_dirty = |csr: Csr| page.is_some() && dirty(state, csr);
    let flag = page.is_some_and(|page| page[0x200] & 1 == 1);
    [
        hart.mode == Mode::S,
        hart.mode == Mode::U,
        hart.sie,
        hart.pc & 1 == 1,
        trap.gva == 0,
        trap.gva == 1,
        trap.gva > 1,
        trap.cause >> (xlen.bits() - 1) & 1 == 1,
        hart.page.is_none(),
        hart.page.is_some() && page.is_none(),
        has(3) && flag,
        has(3) && has(0) && flag && is_dirty(Csr::Hstatus),
        !has(3) && flag,
        !has(0) && is_dirty(Csr::Htinst),
    ]
}

/// Traps of every kind and every code turn up.
#[test]
fn traps_turn_up() {
    for xlen in Xlen::BOTH {
        let mut rng = Rng::new(36);
        let mut counts = [0; 14];
        let mut codes: BTreeMap<i64, u32> = BTreeMap::new();
        for _ in 0..8000 {
            let mut state = gen::trap_state(&mut rng, xlen);
            let trap = gen::trap(&mut rng, xlen);
            let kinds = kinds_of_trap(&state, &trap);
            let code = trap::back(&mut state, trap).code;
            *codes.entry(code).or_default() += 1;
            for (count, yes) in counts.iter_mut().zip(kinds) {
                *count += u32::from(code == 0 && yes);
            }
            let mut good = gen::good_trap_state(&mut rng, xlen);
            assert!(good.page().is_some());
            assert_eq!(trap::back(&mut good, trap).code, 0);
        }
        assert_eq!(codes.keys().copied().collect::<Vec<_>>(), [-2, -1, 0]);
        assert!(codes.values().all(|&count| count > 400), "{xlen:?} {codes:?}");
        assert!(counts.iter().all(|&count| count > 150), "{xlen:?} {counts:?}");
    }
}
