//! SRET beside the two calls inside it: where SRET is accepted so are they, by their own features.

use second::calls::{ALL, EID, SYNC_CSR, SYNC_FENCE, SYNC_SRET};
use second::csr::{self, Csr};
use second::gen;
use second::page;
use second::rng::Rng;
use second::state::State;
use second::xlen::Xlen;

use super::back::vsxl;
use super::dropped::{are_told, hgatp, is_count, reports, COUNTS};
use super::dropped_swaps::set_swap;
use super::stops::widened;
use super::tickets::{at, fact};
use super::{calls, traps, Result};
use crate::case::{Case, Difference};
use crate::input::{Action, Input, Outcome, Route, World, REPORTS};
use crate::record;
use crate::scene::*;

/// How many cases are built by hand, one for each set of features.
const BY_HAND: u64 = 16;

/// The ways to the library, each with room for all reports.
pub const ROUTES: [Route; 3] = [Route::Names, Route::Numbers, Route::BLOCKS];

/// The two calls in SRET's order, and the other way round.
pub const ORDERS: [[u64; 2]; 2] = [[SYNC_CSR, SYNC_FENCE], [SYNC_FENCE, SYNC_CSR]];

/// The cases by hand, then so many random ones.
pub fn cases(random: u64) -> u64 {
    BY_HAND + random
}

/// SRET on a state, and the two calls and SRET after them on copies of it.
pub fn run(case: &mut Case) -> Result {
    if case.index < BY_HAND {
        return by_hand(case, case.index);
    }
    let input = start(case);
    let sret = case.check(&input)?;
    if sret.code != 0 {
        return refused(case, &input, sret.code);
    }
    let orders = 1 + case.rng.below(2) as usize;
    accepted(case, &input, &sret, &ORDERS[..orders])
}

/// A call of the extension; these three do not read the second and the third argument.
pub fn ask(rng: &mut Rng, xlen: Xlen, fid: u64, a0: u64) -> Action {
    let [eid, fid, a0] = [EID, fid, a0].map(|number| widened(rng, xlen, number));
    let [a1, a2] = [(); 2].map(|_| gen::word(rng, Xlen::X64));
    Action::Call { eid, fid, args: [a0, a1, a2] }
}

/// A state that SRET mostly accepts, with these features, mostly also SRET's own.
fn state(rng: &mut Rng, xlen: Xlen, features: u64) -> State {
    let mut state =
        if rng.one_in(4) { calls::state(rng, xlen) } else { gen::good_state(rng, xlen) };
    // Features that are damaged stay so.
    if state.hart.features < 16 {
        state.hart.features = features | if rng.one_in(8) { 0 } else { 4 };
    }
    if rng.one_in(2) {
        traps::mark_some(rng, &mut state);
    }
    // Random swap words mostly drop bits, so one that is taken whole is chosen here now and then.
    if let (true, Some(parts)) = (rng.one_in(4), state.parts()) {
        let word = parts.hart.hstatus ^ csr::SPV;
        page::set_word(xlen, parts.page, page::hstatus_swap(xlen), word);
    }
    state
}

/// SRET on a random state; the record is damaged now and then.
fn start(case: &mut Case) -> Input {
    let (rng, xlen) = (&mut case.rng, case.xlen);
    let state = state(rng, xlen, case.index % 16);
    let any = gen::word(rng, Xlen::X64);
    let action = ask(rng, xlen, SYNC_SRET, any);
    Input { route: rng.pick(&ROUTES), ..calls::input(rng, &state, action) }
}

/// The same input with this call for all instead, by any way.
fn for_all(case: &mut Case, input: &Input, fid: u64) -> Input {
    let action = ask(&mut case.rng, case.xlen, fid, ALL);
    Input { action, route: case.rng.pick(&ROUTES), ..input.clone() }
}

/// Where SRET is refused, it is by a check that each of the two calls has as well: a call whose feature
/// is there beside SRET's own is refused with the same code.
fn refused(case: &mut Case, input: &Input, code: i64) -> Result {
    for fid in ORDERS[0] {
        let input = for_all(case, input, fid);
        let end = case.check(&input)?;
        let is_shared = has(&input, 2) && has(&input, fid - SYNC_CSR);
        let is_right = !is_shared || end.code == code;
        case.hold(is_right, || format!("code {code} of SRET, {} of call {fid}", end.code))?;
    }
    Ok(())
}

/// Where SRET is accepted: the two calls in each order, SRET's own part beside them, and SRET on what
/// they leave.
pub fn accepted(case: &mut Case, input: &Input, sret: &Outcome, orders: &[[u64; 2]]) -> Result {
    is_resumed(case, sret)?;
    for &order in orders {
        let both = two_calls(case, input, order)?;
        check_own_part(case, input, sret, &both)?;
        check_again(case, input, sret, &both)?;
    }
    Ok(())
}

/// The answer says resumed, and beside it only how many reports there are.
fn is_resumed(case: &Case, end: &Outcome) -> Result {
    fact(case, end.answer[..REPORTS] == [0, 1, 0, 0], "resumed")
}

/// Whether the record has this feature.
fn has(input: &Input, feature: u64) -> bool {
    input.words[record::FEATURES] >> feature & 1 == 1
}

/// What the two calls leave, and what they report.
struct Both {
    end: Outcome,
    said: Vec<[u64; 2]>,
}

/// The two calls, the second on what the first leaves.
fn two_calls(
    case: &mut Case,
    input: &Input,
    [first, second]: [u64; 2],
) -> std::result::Result<Both, Difference> {
    let one = call_for_all(case, input, first)?;
    let end = call_for_all(case, &input.after(&one, input.action), second)?;
    let said = [reports(&one), reports(&end)].concat();
    Ok(Both { end, said })
}

/// One of the two calls for all: accepted if its feature is there, else -2, and nothing has changed.
fn call_for_all(
    case: &mut Case,
    input: &Input,
    fid: u64,
) -> std::result::Result<Outcome, Difference> {
    let code = if has(input, fid - SYNC_CSR) { 0 } else { -2 };
    let input = for_all(case, input, fid);
    case.expect(&input, code)
}

/// SRET leaves what the two calls leave, but for its own words in the record and in the page; the
/// count has one more if the swap's write drops bits.
fn check_own_part(case: &Case, input: &Input, sret: &Outcome, both: &Both) -> Result {
    let Some((start, is_swapped)) = page_and_swap(input) else {
        return fact(case, false, "SRET without a page");
    };
    let swaps = swap_reports(case, sret, both, is_swapped)?;
    let mut expected = both.end.clone();
    for place in own_words() {
        expected.words[place] = sret.words[place];
    }
    let count = &mut expected.words[record::DROPPED];
    *count = u64::from(u32::MAX).min(*count + swaps);
    for offset in own_offsets(case.xlen, is_swapped) {
        let bytes = start + offset..start + offset + case.xlen.bytes();
        expected.memory[bytes.clone()].copy_from_slice(&sret.memory[bytes]);
    }
    are_same(case, "SRET beside the two calls", left(sret), left(&expected))
}

/// Where the page begins in memory, if it is there, and whether SRET swaps hstatus.
fn page_and_swap(input: &Input) -> Option<(usize, bool)> {
    let hart = record::hart(&input.words)?;
    let start = traps::page_start(input, &hart)?;
    let flags = page::word(hart.xlen, &input.memory[start..], page::AUTOSWAP_FLAGS);
    Some((start, has(input, 3) && flags & 1 == 1))
}

/// How many reports SRET has beside those of the two calls, which come first: one of hstatus where it
/// is swapped, or none.
fn swap_reports(
    case: &Case,
    sret: &Outcome,
    both: &Both,
    is_swapped: bool,
) -> std::result::Result<u64, Difference> {
    let (told, said) = (reports(sret), &both.said);
    let own = told.strip_prefix(said.as_slice());
    let is_right = match own {
        Some([]) => true,
        Some([[number, _]]) => is_swapped && *number == Csr::Hstatus.number(),
        _ => false,
    };
    case.hold(is_right, || format!("reports {told:x?} of SRET, {said:x?} of the two calls"))?;
    Ok(own.map_or(0, |own| own.len() as u64))
}

/// SRET's own words of the record: hstatus, V, the mode, pc, SIE, SPIE, SPP, and X1 to X31.
fn own_words() -> impl Iterator<Item = usize> {
    [0, record::VIRT, record::MODE, 24, 26, 27, 28].into_iter().chain(31..record::XLEN)
}

/// Where SRET's own words of the page are: those of hstatus, hip and vsip, and with the swap its word.
fn own_offsets(xlen: Xlen, is_swapped: bool) -> impl Iterator<Item = usize> {
    let place = |csr: Csr| page::word_offset(xlen, page::index_of_number(csr.number()));
    let stored = [Csr::Hstatus, Csr::Hip, Csr::Vsip].map(place);
    stored.into_iter().chain(is_swapped.then(|| page::hstatus_swap(xlen)))
}

/// SRET on what the two calls leave is accepted and leaves what SRET alone does, the count as well;
/// what SRET alone reports is theirs and then its own.
fn check_again(case: &mut Case, input: &Input, sret: &Outcome, both: &Both) -> Result {
    let route = case.rng.pick(&ROUTES);
    let again = case.expect(&Input { route, ..input.after(&both.end, input.action) }, 0)?;
    is_resumed(case, &again)?;
    are_same(case, "SRET after the two calls", left(&again), left(sret))?;
    are_told(case, sret, &[both.said.clone(), reports(&again)].concat())
}

/// The record, memory and the table that an outcome has.
pub fn left(end: &Outcome) -> World<'_> {
    (&end.words, &end.memory, &end.table)
}

/// Both worlds are the same; else the first place of each part that differs is named.
pub fn are_same(case: &Case, what: &str, found: World, expected: World) -> Result {
    let word = |place| format!("record {}", record::name(place));
    let byte = |place| format!("memory byte {place:#x}");
    let slot = |place| format!("slot {} word {}", place / 4, place % 4);
    let places = [
        first(word, found.0, expected.0),
        first(byte, found.1, expected.1),
        first(slot, found.2, expected.2),
    ];
    let named = places.into_iter().flatten().collect::<Vec<_>>().join(", ");
    case.hold(named.is_empty(), || format!("{what}: {named}"))
}

/// The first place where a list is not as expected, and what is there.
fn first<T: PartialEq + std::fmt::LowerHex>(
    name: impl Fn(usize) -> String,
    found: &[T],
    expected: &[T],
) -> Option<String> {
    if found.len() != expected.len() {
        return Some(format!("lengths {} and {}", found.len(), expected.len()));
    }
    let place = found.iter().zip(expected).position(|(a, b)| a != b)?;
    Some(format!("{} is {:#x} and not {:#x}", name(place), found[place], expected[place]))
}

/// A small state with these features: hgatp marked with a word that drops bits, a pending fence that
/// names the first of two slots, and the flag of the swap with a word that drops bits and has SPV.
fn marked(case: &Case, features: u64) -> State {
    let mut state = small(case.xlen, &[slot(false, 5, 0, 16, 16), slot(false, 6, 0, 16, 16)]);
    state.hart.features = features;
    mark(&mut state, Csr::Hgatp, hgatp(case).0);
    put(&mut state, 2, [2, 0, 5, 0, 16, 1]);
    set_swap(&mut state, 1, vsxl(case) | 0x9F);
    state
}

/// A set of features, with any count and by any way: the code of each call by its own feature, and what
/// SRET leaves where it is accepted.
fn by_hand(case: &mut Case, features: u64) -> Result {
    for (count, route) in COUNTS.into_iter().zip(ROUTES.into_iter().cycle()) {
        let mut state = marked(case, features);
        state.hart.dropped = count;
        let action = Action::Call { eid: EID, fid: SYNC_SRET, args: [0; 3] };
        let input = Input { route, ..Input::new(&state, action) };
        let sret = case.expect(&input, if features & 4 == 4 { 0 } else { -2 })?;
        if features & 4 == 4 {
            accepted(case, &input, &sret, &ORDERS)?;
            check_end(case, features, count, &sret)?;
        }
        for fid in ORDERS[0] {
            call_for_all(case, &input, fid)?;
        }
    }
    Ok(())
}

/// What SRET leaves of the small state.
fn check_end(case: &Case, features: u64, count: u32, sret: &Outcome) -> Result {
    let [has_csrs, has_fences, _, has_swap] = [1, 2, 4, 8].map(|bit| features & bit != 0);
    let registers = has_csrs.then_some([0x680, hgatp(case).1]);
    let told: Vec<[u64; 2]> =
        registers.into_iter().chain(has_swap.then_some([0x600, 0x1F])).collect();
    are_told(case, sret, &told)?;
    is_count(case, sret, count.saturating_add(told.len() as u32))?;
    let taken = if has_csrs { at(case, 0x9FFF_FFFC, 4) } else { 0 };
    fact(case, sret.words[11] == taken, "hgatp")?;
    fact(case, page::is_dirty(&sret.memory, Csr::Hgatp) != has_csrs, "the mark of hgatp")?;
    fact(case, used(&sret.table) == [!has_fences, true], "the slots that are left")?;
    let old = if has_swap { vsxl(case) } else { vsxl(case) | 0x9F };
    let swap = page::word(case.xlen, &sret.memory, page::hstatus_swap(case.xlen));
    fact(case, swap == old && sret.words[record::VIRT] == u64::from(has_swap), "the swap and V")
}
