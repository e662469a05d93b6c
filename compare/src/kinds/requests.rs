//! Random requests of the hypervisor on random pages, chains of them on one page, and the monitor's
//! calls on what they leave.

use second::calls::{ALL, DENIED, EID, SYNC_CSR, SYNC_FENCE, SYNC_SRET};
use second::fence::Entry;
use second::gen;
use second::hart::Hart;
use second::hypervisor::Request;
use second::rng::Rng;
use second::state::{Memory, State};
use second::xlen::Xlen;

use super::{calls, Result};
use crate::case::{Case, Difference};
use crate::input::{Action, Input};
use crate::request::Ask;
use crate::scene::BASE;

/// A request on a page; now and then the page has another length, or the width other bits.
fn ask(rng: &mut Rng, xlen: Xlen) -> Ask {
    let mut ask = Ask {
        bits: xlen.bits().into(),
        page: gen::request_page(rng, xlen),
        request: gen::request(rng, xlen),
        by_names: rng.one_in(2),
    };
    let any = rng.below(13_000) as usize;
    match rng.below(24) {
        0 => ask.bits = calls::width(rng),
        1 => {
            let lengths = [0, 1, 4096, 8191, 8192, 8193, 12_287, 12_288, 12_289, 24_576, any];
            ask.page.resize(rng.pick(&lengths), 0x5A);
        }
        _ => {}
    }
    ask
}

/// A hart with all features whose memory is this page, and a table.
fn state(rng: &mut Rng, xlen: Xlen, page: &[u8]) -> State {
    let hart = Hart { features: 15, page: Some(BASE), ..gen::hart(rng, xlen) };
    let memory = Memory { base: BASE, bytes: page.to_vec() };
    State { hart, memory, table: gen::table(rng, xlen) }
}

/// The calls for all registers and for all fences, and SRET, each on this page.
fn serve(case: &mut Case, page: &[u8]) -> Result {
    let state = state(&mut case.rng, case.xlen, page);
    for fid in [SYNC_CSR, SYNC_FENCE, SYNC_SRET] {
        let mut input = Input::new(&state, Action::Call { eid: EID, fid, args: [ALL, 0, 0] });
        input.route = calls::route(&mut case.rng);
        case.check(&input)?;
    }
    Ok(())
}

/// One request, and the monitor's calls on the page that it leaves.
pub fn run(case: &mut Case) -> Result {
    let ask = ask(&mut case.rng, case.xlen);
    let reply = case.check_request(&ask)?;
    case.hold(reply.told >= 0 || reply.page == ask.page, || "a refusal that stores".to_string())?;
    serve(case, &reply.page)
}

/// Serves one fence or all, as the monitor does, and gives the page after it.
fn sync(case: &mut Case, page: &[u8]) -> std::result::Result<Vec<u8>, Difference> {
    let state = state(&mut case.rng, case.xlen, page);
    let one = case.rng.below(case.xlen.entry_count() as u64);
    let a0 = case.rng.pick(&[one, one, one, ALL]);
    let action = Action::Call { eid: EID, fid: SYNC_FENCE, args: [a0, 0, 0] };
    Ok(case.check(&Input::new(&state, action))?.memory)
}

/// The requests of a chain: in every fourth one to ten more than would fill a blank page, in the
/// others any number up to that.
fn length(case: &Case) -> u64 {
    let (entries, place) = (case.xlen.entry_count() as u64, case.index / 4);
    if case.index.is_multiple_of(4) {
        entries + 1 + place % 10
    } else {
        1 + place % (entries + 10)
    }
}

/// The entries of a page that are not pending, ascending.
fn free_entries(case: &Case, page: &[u8]) -> Vec<i64> {
    let is_free = |&number: &usize| !Entry::load(case.xlen, page, number).is_pending();
    (0..case.xlen.entry_count()).filter(is_free).map(|number| number as i64).collect()
}

/// Requests of which each is on what the one before left. Every other chain has good fences only,
/// which take the free entries one by one and are -4 from then on: every fourth on any page, and
/// until that is full for sure, the rest on a blank one. In the others requests of all kinds come
/// between, and the monitor serves some.
pub fn chain(case: &mut Case) -> Result {
    let xlen = case.xlen;
    let is_plain = case.index.is_multiple_of(2);
    let mut page = gen::request_page(&mut case.rng, xlen);
    if case.index % 4 == 2 {
        page.fill(0);
    }
    let free = free_entries(case, &page);
    for place in 0..length(case) {
        let rng = &mut case.rng;
        let request = match rng.below(4) {
            0 if !is_plain => gen::request(rng, xlen),
            _ => Request::QueueFence(gen::good_fence(rng, xlen)),
        };
        let ask = Ask { bits: xlen.bits().into(), page, request, by_names: rng.one_in(2) };
        let reply = case.check_request(&ask)?;
        let told = free.get(place as usize).copied().unwrap_or(DENIED);
        case.hold(!is_plain || reply.told == told, || format!("request {place} of a chain"))?;
        page = reply.page;
        if !is_plain && case.rng.one_in(8) {
            page = sync(case, &page)?;
        }
    }
    serve(case, &page)
}
