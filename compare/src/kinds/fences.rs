//! Lists of fences: the call for all entries, the same call in steps, SRET and a replay, each on a copy
//! of the same state. They leave the same slots and entries.

use nathiroeng::{REPLAY_LINE_BYTES, REPLAY_MEMORY_BYTES, REPLAY_TABLE_WORDS};
use second::calls::{ALL, EID, SYNC_FENCE, SYNC_SRET};
use second::fence::{self, Entry, SLOT_WORDS};
use second::page;
use second::recording;
use second::replay::{self, BASE};
use second::rng::Rng;
use second::state::State;

use super::inside::{self, are_same, ask, left};
use super::stops::widened;
use super::tickets::fact;
use super::{calls, fences_by_hand, fences_drawn, Result};
use crate::case::{Case, Difference};
use crate::input::{Action, Input, Outcome, REPORTS};
use crate::record;
use crate::replay::{Lent, Side};
use crate::scene::used;

/// The cases by hand, then so many random ones.
pub fn cases(random: u64) -> u64 {
    fences_by_hand::ROWS.len() as u64 + random
}

/// One list, by hand or a random one, every fourth in the sizes of a replay.
pub fn run(case: &mut Case) -> Result {
    if let Some(row) = fences_by_hand::ROWS.get(case.index as usize) {
        return row(case);
    }
    let is_replayed = case.index.is_multiple_of(4);
    let state = fences_drawn::state(&mut case.rng, case.xlen, is_replayed);
    serve(case, &state).map(|_| ())
}

/// The call for all entries on a state with features 1 and 2, beside all that must leave the same; gives
/// what it leaves.
pub fn serve(case: &mut Case, state: &State) -> std::result::Result<Outcome, Difference> {
    let action = ask(&mut case.rng, case.xlen, SYNC_FENCE, ALL);
    let route = calls::route(&mut case.rng);
    let input = Input { route, ..Input::new(state, action) };
    let end = case.expect(&input, 0)?;
    let steps = check_left(case, state, &end)?;
    check_stops(case, &input, &end, steps)?;
    check_sret(case, state, &end)?;
    check_replay(case, state, &end, steps)?;
    Ok(end)
}

/// What the papers leave: a slot is removed exactly if a pending entry names it, Pending is cleared, and
/// all else stays. Gives the steps: a slot removed or a Pending cleared.
fn check_left(case: &Case, state: &State, end: &Outcome) -> std::result::Result<u64, Difference> {
    let (mut expected, mut steps) = (state.clone(), 0);
    if let Some(parts) = expected.parts() {
        let xlen = parts.hart.xlen;
        let mut list: Vec<(usize, Entry)> = (0..xlen.entry_count())
            .map(|number| (number, Entry::load(xlen, parts.page, number)))
            .collect();
        list.retain(|(_, entry)| entry.is_pending());
        for slot in parts.table.chunks_mut(SLOT_WORDS) {
            if list.iter().any(|(_, entry)| entry.names(slot)) {
                slot.fill(0);
                steps += 1;
            }
        }
        for (number, _) in list {
            fence::clear_pending(xlen, parts.page, number);
            steps += 1;
        }
    }
    let words = record::words(&expected.hart);
    let world = (words.as_slice(), expected.memory.bytes.as_slice(), expected.table.as_slice());
    are_same(case, "the call for all entries", left(end), world)?;
    Ok(steps)
}

/// Where a call with so many steps is stopped, perhaps never; the last number lets it end.
fn limits(rng: &mut Rng, steps: u64) -> Vec<u64> {
    let mut limits = Vec::new();
    for _ in 0..rng.below(5) {
        let any = rng.bits();
        limits.push(rng.pick(&[any % 4, any % (steps + 2), any % (steps / 2 + 1)]));
    }
    limits.push(rng.pick(&[steps, steps + 1, ALL]));
    limits
}

/// The same call in steps: each run tells how many it made, and all together those of the call; it ends
/// where the call ends, and so does the whole call from any stop.
fn check_stops(case: &mut Case, whole: &Input, end: &Outcome, steps: u64) -> Result {
    let [eid, fid, a0] =
        [EID, SYNC_FENCE, ALL].map(|number| widened(&mut case.rng, case.xlen, number));
    let (mut input, mut to_do) = (whole.clone(), steps);
    for limit in limits(&mut case.rng, steps) {
        input.action = Action::Stoppable { eid, fid, a0, limit };
        let run = case.expect(&input, 0)?;
        let told = [0, 0, limit.min(to_do), u64::from(to_do <= limit)];
        case.hold(run.answer[..REPORTS] == told, || {
            format!("{limit} of {to_do} steps told as {:?}", run.answer)
        })?;
        to_do -= limit.min(to_do);
        input = input.after(&run, whole.action);
        if case.rng.one_in(4) {
            let rest = case.expect(&input, 0)?;
            are_same(case, "the call after a stop", left(&rest), left(end))?;
        }
    }
    let world = (input.words.as_slice(), input.memory.as_slice(), input.table.as_slice());
    are_same(case, "the end of the steps", world, left(end))
}

/// SRET leaves the slots and the entries as the call does, and without feature 1 as they were; in some
/// cases also all that is said of the two calls inside it.
fn check_sret(case: &mut Case, state: &State, end: &Outcome) -> Result {
    let Some(start) = state.page_start() else {
        return fact(case, false, "the list has no page");
    };
    let entries = |memory: &[u8]| memory[start + page::ENTRIES..start + page::BITMAP].to_vec();
    let action = ask(&mut case.rng, case.xlen, SYNC_SRET, ALL);
    let route = case.rng.pick(&inside::ROUTES);
    let mut input = Input { route, ..Input::new(state, action) };
    let is_offered = !case.rng.one_in(8);
    let (table, memory) = match is_offered {
        true => (&end.table, &end.memory),
        false => (&state.table, &state.memory.bytes),
    };
    if !is_offered {
        input.words[record::FEATURES] &= !2;
    }
    let sret = case.expect(&input, 0)?;
    let is_same = sret.table == *table && entries(&sret.memory) == entries(memory);
    fact(case, is_same, "the slots and the entries after SRET")?;
    if case.rng.one_in(4) {
        inside::accepted(case, &input, &sret, &inside::ORDERS[..1])?;
    }
    Ok(())
}

/// A replay that goes on from a state of its sizes tells the steps of the call and the slots removed, as
/// the second program's does, and leaves the same.
fn check_replay(case: &mut Case, state: &State, end: &Outcome, steps: u64) -> Result {
    let (bytes, words) = (state.memory.bytes.len(), state.table.len());
    if (state.memory.base, bytes, words) != (BASE, REPLAY_MEMORY_BYTES, REPLAY_TABLE_WORDS) {
        return Ok(());
    }
    let record = recording::call(EID, SYNC_FENCE, ALL, 0, 0);
    let mut lent = Lent::at(state, [1, 0, 0], REPLAY_LINE_BYTES);
    let done = lent.feed(&record).and_then(|_| lent.view());
    let view = done.map_err(Difference::line)?;
    let (second, _) = replay::replayed_from(state.clone(), 1, &record);
    case.counts.compared += 1;
    let slots = |table: &[u64]| used(table).into_iter().filter(|&is_used| is_used).count();
    let line = format!("1 1 0 {steps} {}\n", slots(&state.table) - slots(&end.table));
    let [ours, second] = [view.lines, &second].map(String::from_utf8_lossy);
    case.hold([&ours, &second] == [&line; 2], || {
        format!("a replay's line: ours {ours:?}, second {second:?}, and not {line:?}")
    })?;
    are_same(case, "a replay", (&view.words, view.memory, view.table), left(end))
}
