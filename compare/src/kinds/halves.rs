//! The two halves of the page, one after the other: set, the hypervisor's requests on the page where
//! it lies in memory, and the calls that serve them, each on what the one before left.

use second::calls::{ALL, DENIED, EID, SET, SYNC_CSR, SYNC_FENCE, SYNC_SRET};
use second::gen;
use second::hypervisor::Request;

use super::tickets::fact;
use super::{calls, Result};
use crate::case::{Case, Difference};
use crate::input::{Action, Input, Outcome};
use crate::request::Ask;

/// A call that must be accepted; the input goes on from what it leaves.
fn call(
    case: &mut Case,
    input: &mut Input,
    fid: u64,
    a0: u64,
) -> std::result::Result<Outcome, Difference> {
    input.action = Action::Call { eid: EID, fid, args: [a0, 0, 0] };
    input.route = calls::route(&mut case.rng);
    let end = case.expect(input, 0)?;
    *input = input.after(&end, input.action);
    Ok(end)
}

/// What requests have asked for so far.
#[derive(Default)]
struct Asked {
    /// How many fences are queued.
    fences: u64,
    /// The last context that was filled.
    context: Vec<u64>,
}

impl Asked {
    /// A request on a page that was blank; each is accepted but a fence that finds no entry.
    fn ask(&mut self, case: &mut Case, page: &mut [u8]) -> Result {
        let (rng, bits) = (&mut case.rng, case.xlen.bits().into());
        let request = gen::good_request(rng, case.xlen);
        let ask = Ask { bits, page: page.to_vec(), request, by_names: rng.one_in(2) };
        let is_full = self.fences == case.xlen.entry_count() as u64;
        let told = match &ask.request {
            Request::QueueFence(_) if is_full => DENIED,
            Request::QueueFence(_) => {
                self.fences += 1;
                self.fences as i64 - 1
            }
            Request::FillContext(words) => {
                self.context.clone_from(words);
                0
            }
            Request::WriteCsr { .. } => 0,
        };
        let reply = case.expect_request(&ask, told)?;
        page.copy_from_slice(&reply.page);
        Ok(())
    }
}

/// How many requests there are: mostly few, now and then more than fill the page.
fn length(case: &mut Case) -> u64 {
    let most = if case.index.is_multiple_of(8) { 5 * case.xlen.entry_count() as u64 } else { 40 };
    case.rng.below(most)
}

/// Set, random requests that are accepted, FID 2 and FID 3 for all, and SRET.
pub fn run(case: &mut Case) -> Result {
    let state = gen::good_state(&mut case.rng, case.xlen);
    let address = state.hart.page.unwrap_or_default();
    let mut input = Input::new(&state, Action::Lines { lines: 0 });
    call(case, &mut input, SET, address)?;
    let (start, mut asked) = ((address - input.base) as usize, Asked::default());
    for _ in 0..length(case) {
        asked.ask(case, &mut input.memory[start..][..case.xlen.page_size()])?;
    }
    call(case, &mut input, SYNC_CSR, ALL)?;
    let page = &input.memory[start..];
    fact(case, page[0xF80..0x1000].iter().all(|&byte| byte == 0), "no register is dirty")?;
    call(case, &mut input, SYNC_FENCE, ALL)?;
    let end = call(case, &mut input, SYNC_SRET, 0)?;
    asked.context.resize(32, 0);
    let x = &end.words[30..62];
    fact(case, x[0] == 0 && x[1..] == asked.context[1..], "the general registers")
}
