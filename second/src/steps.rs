//! The stoppable form of the register and fence calls: the steps listed first, then done one by one.

use crate::calls::{self, Request, NOT_SUPPORTED, SUCCESS, SYNC_CSR, SYNC_FENCE};
use crate::csr::{self, Csr};
use crate::dropped::Report;
use crate::fence::{self, Entry, SLOT_WORDS};
use crate::page;
use crate::state::{Parts, State};
use crate::xlen::Xlen;

/// One step; a stop falls between two of them.
#[derive(Clone, Copy, PartialEq, Eq, Debug)]
pub enum Step {
    /// A: writes a dirty register from its word.
    WriteRegister(Csr),
    /// B: clears the register's dirty bit.
    ClearDirty(Csr),
    /// C: stores the register's reading in its own word.
    StoreOwn(Csr),
    /// D: stores the reading of one follower in the follower's word.
    StoreFollower(Csr),
    /// Removes one slot.
    RemoveSlot(usize),
    /// Clears Pending of one entry.
    ClearPending(usize),
}

/// What a stoppable run gives back.
#[derive(Clone, PartialEq, Eq, Debug)]
pub struct Run {
    pub code: i64,
    pub value: u64,
    pub steps: u64,
    pub finished: bool,
    /// The register writes of this run with dropped bits, in the order of the writes.
    pub reports: Vec<Report>,
}

/// Runs the call for its first `limit` steps, or for all of them if there are no more than that.
pub fn run(state: &mut State, eid: u64, fid: u64, a0: u64, limit: u64) -> Run {
    let plan = match plan(state, eid, fid, a0) {
        Ok(plan) => plan,
        Err(code) => return Run { code, value: 0, steps: 0, finished: false, reports: Vec::new() },
    };
    let total = plan.len() as u64;
    let steps = limit.min(total);
    let mut reports = Vec::new();
    if let Some(mut parts) = state.parts() {
        for &step in &plan[..steps as usize] {
            perform(&mut parts, step);
        }
        reports = parts.reports;
    }
    Run { code: SUCCESS, value: 0, steps, finished: total <= limit, reports }
}

/// The steps of the unbroken call from the present state, or the code of its refusal.
pub fn plan(state: &State, eid: u64, fid: u64, a0: u64) -> Result<Vec<Step>, i64> {
    let xlen = state.hart.xlen;
    if state.passes_check_1() && !matches!(xlen.cut(fid), SYNC_CSR | SYNC_FENCE) {
        return Err(NOT_SUPPORTED);
    }
    let request = calls::check(state, eid, fid, [a0, 0, 0])?;
    let page = state.page().unwrap_or(&[]);
    Ok(match request {
        Request::SyncCsr(registers) => register_steps(xlen, page, &registers),
        Request::SyncFence(entries) => fence_steps(xlen, page, &state.table, &entries),
        _ => Vec::new(),
    })
}

/// The steps of a register call, told from the dirty bits at its beginning.
fn register_steps(xlen: Xlen, page: &[u8], registers: &[Csr]) -> Vec<Step> {
    let mut dirty = csr::turn_order(xlen).to_vec();
    dirty.retain(|&csr| page::is_dirty(page, csr));
    let mut steps = Vec::new();
    for &csr in registers {
        if dirty.contains(&csr) {
            steps.push(Step::WriteRegister(csr));
            steps.push(Step::ClearDirty(csr));
            dirty.retain(|&other| other != csr);
        }
        steps.push(Step::StoreOwn(csr));
        for &follower in csr.followers() {
            if !dirty.contains(&follower) {
                steps.push(Step::StoreFollower(follower));
            }
        }
    }
    steps
}

/// The steps of a fence call, told from the entries and the table at its beginning.
fn fence_steps(xlen: Xlen, page: &[u8], table: &[u64], entries: &[usize]) -> Vec<Step> {
    let mut left: Vec<usize> = (0..table.len() / SLOT_WORDS).collect();
    let mut steps = Vec::new();
    for &number in entries {
        let entry = Entry::load(xlen, page, number);
        if !entry.is_pending() {
            continue;
        }
        let is_named = |slot: &usize| entry.names(&table[SLOT_WORDS * slot..][..SLOT_WORDS]);
        steps.extend(left.iter().copied().filter(is_named).map(Step::RemoveSlot));
        left.retain(|slot| !is_named(slot));
        steps.push(Step::ClearPending(number));
    }
    steps
}

/// Does one step.
fn perform(parts: &mut Parts, step: Step) {
    match step {
        Step::WriteRegister(csr) => parts.write_from_word(csr),
        Step::ClearDirty(csr) => page::clear_dirty(parts.page, csr),
        Step::StoreOwn(csr) | Step::StoreFollower(csr) => parts.store_reading(csr),
        Step::RemoveSlot(slot) => {
            parts.table[SLOT_WORDS * slot..][..SLOT_WORDS].fill(0);
        }
        Step::ClearPending(entry) => fence::clear_pending(parts.hart.xlen, parts.page, entry),
    }
}
