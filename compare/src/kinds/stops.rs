//! Stopped synchronizations: every stop of a call, and lists of stops with the whole call after.

use second::calls::{ALL, EID, SYNC_CSR, SYNC_FENCE};
use second::csr;
use second::gen;
use second::rng::Rng;
use second::state::State;
use second::steps;
use second::xlen::Xlen;

use super::calls;
use super::Result;
use crate::case::Case;
use crate::input::{Action, Input, Outcome, Route, REPORTS};
use crate::record;

/// The total of steps from a state; 0 for a refusal.
fn total(state: &State, eid: u64, fid: u64, a0: u64) -> u64 {
    steps::plan(state, eid, fid, a0).map_or(0, |plan| plan.len() as u64)
}

/// The argument of an accepted call: mostly all-ones, at width 32 also with any upper half.
fn good_argument(rng: &mut Rng, xlen: Xlen, fid: u64) -> u64 {
    let argument = match rng.below(4) {
        0 if fid == SYNC_FENCE => rng.below(xlen.entry_count() as u64),
        0 => rng.pick(csr::turn_order(xlen)).number(),
        _ => ALL,
    };
    widened(rng, xlen, argument)
}

/// The number, at width 32 now and then with any upper half.
pub fn widened(rng: &mut Rng, xlen: Xlen, number: u64) -> u64 {
    if xlen == Xlen::X32 && rng.one_in(4) {
        xlen.cut(number) | rng.bits() << 32
    } else {
        number
    }
}

/// Every stop of one accepted call: N from 0 to one more than the total.
pub fn every(case: &mut Case) -> Result {
    let (rng, xlen) = (&mut case.rng, case.xlen);
    let start = gen::good_state(rng, xlen);
    let fid = if case.index.is_multiple_of(2) { SYNC_CSR } else { SYNC_FENCE };
    let a0 = good_argument(rng, xlen, fid);
    let total = total(&start, EID, fid, a0);
    let mut whole = Input::new(&start, Action::Call { eid: EID, fid, args: [a0, 0, 0] });
    whole.route = Route::BLOCKS;
    let unbroken = case.check(&whole)?;
    for limit in 0..=total + 1 {
        let mut input = Input::new(&start, Action::Stoppable { eid: EID, fid, a0, limit });
        if limit % 2 == 0 {
            input.route = Route::with_room(calls::ROOMS[limit as usize / 2 % calls::ROOMS.len()]);
        }
        let outcome = case.check(&input)?;
        let told = [0, 0, limit.min(total), u64::from(total <= limit)];
        case.hold(outcome.code == 0 && outcome.answer[..REPORTS] == told, || {
            format!("stop {limit} of {total} told as {:?}", outcome.answer)
        })?;
        check_first(case, &outcome, &unbroken)?;
    }
    Ok(())
}

/// A run from the start of a call reports the first of what the unbroken call does, no more.
fn check_first(case: &Case, run: &Outcome, unbroken: &Outcome) -> Result {
    let (count, of_all) = (run.report_count(), unbroken.report_count());
    let length = run.reports.len().min(2 * count);
    let is_first = count <= of_all && run.reports[..length] == unbroken.reports[..length];
    case.hold(is_first, || format!("reports {:x?}", run.reports))?;
    let is_all = run.answer[REPORTS - 1] == 0 || count == of_all;
    case.hold(is_all, || format!("{count} of {of_all} reports of a finished run"))
}

/// A list of stops, perhaps empty, on any state, then the whole call: it ends as if unbroken, but for
/// the count and the reports. The count then has the writes of every run.
pub fn list(case: &mut Case) -> Result {
    let (rng, xlen) = (&mut case.rng, case.xlen);
    let start = calls::state(rng, xlen);
    let fid = if rng.one_in(32) { rng.below(6) } else { 2 + rng.below(2) };
    let eid = if rng.one_in(20) { rng.bits() } else { EID };
    let a0 = if rng.one_in(2) { ALL } else { gen::sync_argument(rng, xlen, fid) };
    let [eid, fid] = [eid, fid].map(|number| widened(rng, xlen, number));
    let most = total(&start, eid, fid, a0) + 2;
    let mut limits = Vec::new();
    for _ in 0..rng.below(8) {
        let any = rng.bits();
        limits.push(rng.pick(&[any, any << 32, any % 12, any % most, any % most]));
    }
    let whole = Action::Call { eid, fid, args: [a0, 0, 0] };
    let mut input = Input::new(&start, whole);
    input.route = calls::route(rng);
    let unbroken = case.check(&input)?;
    let (before, mut counted) = (input.words.get(record::DROPPED).copied(), 0);
    for limit in limits {
        input.action = Action::Stoppable { eid, fid, a0, limit };
        let outcome = case.check(&input)?;
        counted += outcome.answer[REPORTS];
        input = input.after(&outcome, whole);
    }
    input.action = whole;
    let outcome = case.check(&input)?;
    counted += outcome.answer[REPORTS];
    let count = before.map(|before| u64::from(u32::MAX).min(before + counted));
    let same_count = count == outcome.words.get(record::DROPPED).copied();
    case.hold(same_count, || format!("{counted} reports from {before:?} on"))?;
    let is_sync = matches!(xlen.cut(fid), SYNC_CSR | SYNC_FENCE);
    let (end, unbroken) = (outcome.without_reports(), unbroken.without_reports());
    case.hold(!is_sync || end == unbroken, || "the end after stops".to_string())
}
