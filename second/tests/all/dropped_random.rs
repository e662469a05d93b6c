//! Dropped bits on random states of both widths.

use std::collections::BTreeMap;

use second::calls::{self, Answer, ALL, EID, SYNC_CSR, SYNC_SRET};
use second::csr::{self, Csr};
use second::dropped::Report;
use second::gen;
use second::lines;
use second::rng::Rng;
use second::state::State;
use second::steps::{self, Step};
use second::trap;
use second::xlen::Xlen;

use crate::common::*;

/// Something that is done to a state: any call, whole or stopped, a line change or a trap. Gives
/// its code and its reports.
fn some_act(rng: &mut Rng, state: &mut State) -> (i64, Vec<Report>) {
    let xlen = state.hart.xlen;
    let call = gen::call(rng, state);
    match rng.below(5) {
        0 => {
            let answer = lines::change(state, rng.bits() & 0xFE);
            assert_eq!(answer, Answer::plain(answer.code, 0));
            (answer.code, answer.reports)
        }
        1 => {
            let answer = trap::back(state, gen::trap(rng, xlen));
            (answer.code, answer.reports)
        }
        2 => {
            let limit = rng.below(100);
            let run = steps::run(state, call.eid, call.fid, call.args[0], limit);
            (run.code, run.reports)
        }
        _ => {
            let answer = calls::call(state, call.eid, call.fid, call.args);
            (answer.code, answer.reports)
        }
    }
}

/// The count grows by the number of reports, up to 2^32-1; each report names a register of the
/// width and has bits, none above the width; a refusal has none.
#[test]
fn count_and_reports() {
    for xlen in Xlen::BOTH {
        let mut rng = Rng::new(70);
        let mut at_the_end = 0;
        for round in 0..10_000 {
            let mut state = match round % 2 {
                0 => gen::state(&mut rng, xlen),
                _ => gen::trap_state(&mut rng, xlen),
            };
            let before = state.hart.dropped;
            let (code, reports) = some_act(&mut rng, &mut state);
            assert_eq!(state.hart.dropped, counted(before, reports.len()));
            assert!(code == 0 || reports.is_empty());
            assert!(reports.len() <= csr::turn_order(xlen).len() + 1);
            for Report { csr, bits } in &reports {
                assert!(Csr::from_number(xlen, *csr).is_some());
                assert!(*bits != 0 && xlen.holds(*bits));
            }
            let is_first = before != u32::MAX && state.hart.dropped == u32::MAX;
            at_the_end += u32::from(is_first);
        }
        assert!(at_the_end > 50, "{at_the_end}");
    }
}

/// The count plays no part: from any other count the same is done, answered and reported.
#[test]
fn count_plays_no_part() {
    for xlen in Xlen::BOTH {
        let mut rng = Rng::new(71);
        for round in 0..6000 {
            let start = match round % 2 {
                0 => gen::state(&mut rng, xlen),
                _ => gen::trap_state(&mut rng, xlen),
            };
            let mut other = start.clone();
            other.hart.dropped = rng.pick(&[0, 1, u32::MAX - 1, u32::MAX]);
            let other_count = other.hart.dropped;
            let mut state = start.clone();
            let told = some_act(&mut rng.clone(), &mut state);
            assert_eq!(some_act(&mut rng, &mut other), told);
            assert_eq!(other.hart.dropped, counted(other_count, told.1.len()));
            other.hart.dropped = state.hart.dropped;
            assert_eq!(other, state);
        }
    }
}

/// A stopped run reports the first of what the unbroken call reports: as many as its writes among
/// the first steps have.
#[test]
fn stopped_runs() {
    for xlen in Xlen::BOTH {
        let mut rng = Rng::new(72);
        for round in 0..150 {
            let start = gen::good_state(&mut rng, xlen);
            let one = rng.pick(csr::turn_order(xlen)).number();
            let a0 = if round % 4 == 0 { one } else { ALL };
            let plan = steps::plan(&start, EID, SYNC_CSR, a0).unwrap();
            let unbroken = sync(&mut start.clone(), SYNC_CSR, a0).reports;
            for limit in 0..=plan.len() {
                let mut state = start.clone();
                let run = steps::run(&mut state, EID, SYNC_CSR, a0, limit as u64);
                let is_written = |told: &&Report| {
                    let is_its_write = |step: &Step| match step {
                        Step::WriteRegister(csr) => csr.number() == told.csr,
                        _ => false,
                    };
                    plan[..limit].iter().any(is_its_write)
                };
                let expected: Vec<Report> = unbroken.iter().filter(is_written).copied().collect();
                assert_eq!(run.reports, expected);
                assert!(unbroken.starts_with(&expected));
                assert_eq!(state.hart.dropped, counted(start.hart.dropped, expected.len()));
            }
        }
    }
}

/// Run after run: the reports and the record of each are those of its own writes, told from what
/// the one before left.
#[test]
fn each_run_its_own() {
    for xlen in Xlen::BOTH {
        let mut rng = Rng::new(73);
        for _ in 0..1500 {
            let mut state = gen::good_state(&mut rng, xlen);
            for _ in 0..4 {
                let limit = rng.below(60);
                let plan = steps::plan(&state, EID, SYNC_CSR, ALL).unwrap();
                let mut hart = state.hart.clone();
                let mut expected = Vec::new();
                for step in plan.into_iter().take(limit as usize) {
                    if let Step::WriteRegister(csr) = step {
                        expected.extend(write_told(&mut hart, csr, csr_word(&state, csr)));
                    }
                }
                let run = steps::run(&mut state, EID, SYNC_CSR, ALL, limit);
                assert_eq!((run.reports, &state.hart), (expected, &hart));
            }
        }
    }
}

/// Every register that can drop bits does so often, at SRET as well; one that takes all never does.
#[test]
fn reports_turn_up() {
    for xlen in Xlen::BOTH {
        let mut rng = Rng::new(74);
        let mut seen: BTreeMap<u64, u32> = BTreeMap::new();
        let mut swaps = [0; 3];
        for _ in 0..4000 {
            let mut state = gen::good_state(&mut rng, xlen);
            let mut guest = gen::good_trap_state(&mut rng, xlen);
            let reports = sync(&mut state, SYNC_SRET, 0).reports;
            let hstatus = reports.iter().filter(|told| told.csr == 0x600).count();
            let is_swap_last = reports.last().is_some_and(|told| told.csr == 0x600);
            let trapped = trap::back(&mut guest, gen::trap(&mut rng, xlen)).reports;
            let turned_up = [hstatus == 2, is_swap_last && reports.len() > 2, trapped.len() == 1];
            swaps.iter_mut().zip(turned_up).for_each(|(count, yes)| *count += u32::from(yes));
            for Report { csr, .. } in reports {
                *seen.entry(csr).or_default() += 1;
            }
        }
        let whole = [Csr::Htimedelta, Csr::Htimedeltah, Csr::Htval, Csr::Htinst, Csr::Vsscratch];
        let takes_all = |csr: Csr| {
            let is_vsatp_32 = csr == Csr::Vsatp && xlen == Xlen::X32;
            whole.contains(&csr) || matches!(csr, Csr::Vscause | Csr::Vstval) || is_vsatp_32
        };
        for &csr in csr::turn_order(xlen) {
            let count = seen.get(&csr.number()).copied().unwrap_or(0);
            assert_eq!(count == 0, takes_all(csr), "{csr:?} {count}");
            assert!(count == 0 || count > 200, "{csr:?} {count}");
        }
        assert!(swaps.iter().all(|&count| count > 200), "{swaps:?}");
    }
}
