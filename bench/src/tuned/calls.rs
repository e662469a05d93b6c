//! The five calls, the stoppable form, and the line change.

use second::calls::{
    ALL, EID, FAILED, INVALID_ADDRESS, INVALID_PARAM, NOT_SUPPORTED, NO_SHMEM, PROBE, SET, SUCCESS,
    SYNC_CSR, SYNC_FENCE, SYNC_SRET,
};

use super::answers::{Answer, Run};
use super::fences::{self, NARROW, WIDE};
use super::page::{self, NarrowPage, Page};
use super::record::{Record, State};
use super::words::{self, turn, HSTATUS, TURNS, TURN_AT};
use super::{registers, Budget, Limited, Whole};

/// The bit SPV of hstatus.
pub const SPV: u64 = 1 << 7;

impl State {
    /// Check 1.
    #[inline(always)]
    pub fn is_well_made(&self) -> bool {
        self.has_table() && self.record.is_well_made()
    }

    /// The part of check 1 that is of the table.
    #[inline(always)]
    fn has_table(&self) -> bool {
        self.table.len().is_multiple_of(4) && self.table.len() <= 1024
    }

    /// Checks 1 to 4: the code of the first that fails, or none.
    #[inline(always)]
    fn refuses(&self, eid: u64, fid: u64) -> Option<i64> {
        if !self.is_well_made() {
            return Some(FAILED);
        }
        if self.record.virt || self.record.user || eid != EID || fid > SYNC_SRET {
            return Some(NOT_SUPPORTED);
        }
        if fid >= SYNC_CSR && !self.record.has(fid - SYNC_CSR) {
            return Some(NOT_SUPPORTED);
        }
        None
    }

    /// The record, the page and the table, if the page is set and lies in memory.
    #[inline(always)]
    pub fn parts(&mut self) -> Option<(&mut Record, &mut Page, &mut [u64])> {
        let page = page::find(&mut self.memory, self.base, self.record.page?)?;
        Some((&mut self.record, page, &mut self.table))
    }
}

/// One call, whole.
pub fn call(state: &mut State, eid: u64, fid: u64, args: [u64; 3]) -> Answer {
    if let Some(code) = state.refuses(eid, fid) {
        return Answer::plain(code, 0);
    }
    match fid {
        PROBE => {
            let feature = args[0] & 0xFFFF_FFFF;
            Answer::plain(SUCCESS, u64::from(feature < 4 && state.record.has(feature)))
        }
        SET => Answer::plain(set(state, args), 0),
        SYNC_CSR => Answer::plain(code(sync_csr(state, args[0], &mut Whole)), 0),
        SYNC_FENCE => Answer::plain(code(sync_fence(state, args[0], &mut Whole)), 0),
        _ => sync_sret(state),
    }
}

/// The first steps of a register or fence call.
pub fn stoppable(state: &mut State, eid: u64, fid: u64, a0: u64, limit: u64) -> Run {
    let mut steps = Limited { left: limit };
    let done = match state.refuses(eid, fid) {
        Some(code) => Err(code),
        None if fid == SYNC_CSR => sync_csr(state, a0, &mut steps),
        None if fid == SYNC_FENCE => sync_fence(state, a0, &mut steps),
        None => Err(NOT_SUPPORTED),
    };
    match done {
        Ok(finished) => Run { code: SUCCESS, value: 0, steps: limit - steps.left, finished },
        Err(code) => Run { code, value: 0, steps: 0, finished: false },
    }
}

/// The code of a call that was made or refused.
#[inline(always)]
fn code(done: Result<bool, i64>) -> i64 {
    done.err().unwrap_or(SUCCESS)
}

/// Sets the page, which becomes blank, or drops it; gives the code.
#[inline(always)]
fn set(state: &mut State, [lo, hi, flags]: [u64; 3]) -> i64 {
    if flags != 0 {
        return INVALID_PARAM;
    }
    if lo == ALL && hi == ALL {
        state.record.page = None;
        return SUCCESS;
    }
    if lo % 4096 != 0 {
        return INVALID_PARAM;
    }
    if hi != 0 {
        return INVALID_ADDRESS;
    }
    let Some(page) = page::find(&mut state.memory, state.base, lo) else {
        return INVALID_ADDRESS;
    };
    page.fill(0);
    registers::store_all(&state.record, page);
    state.record.page = Some(lo);
    SUCCESS
}

/// The register call: whether it was finished, or its refusal.
#[inline(always)]
fn sync_csr<B: Budget>(state: &mut State, a0: u64, steps: &mut B) -> Result<bool, i64> {
    let mut t = TURNS;
    if a0 != ALL {
        if a0 >= 0x1000 || a0 & 0x300 != 0x200 {
            return Err(INVALID_PARAM);
        }
        t = usize::from(TURN_AT[words::index(a0 as usize)]);
        if t == TURNS {
            return Err(INVALID_PARAM);
        }
    }
    let (record, page, _) = state.parts().ok_or(NO_SHMEM)?;
    if t != TURNS {
        return Ok(registers::one(t, record, page, steps));
    }
    if B::WHOLE {
        registers::all(record, page);
        return Ok(true);
    }
    Ok(registers::all_steps(record, page, steps))
}

/// The fence call: whether it was finished, or its refusal.
#[inline(always)]
fn sync_fence<B: Budget>(state: &mut State, a0: u64, steps: &mut B) -> Result<bool, i64> {
    let only = match a0 {
        ALL => None,
        0..=59 => Some(a0 as usize),
        _ => return Err(INVALID_PARAM),
    };
    let (_, page, table) = state.parts().ok_or(NO_SHMEM)?;
    Ok(fences::turns::<WIDE, B>(only, page, table, steps))
}

/// The whole fence call at width 32. Its check 1 is of the table alone.
pub fn narrow_fence(state: &mut State, eid: u64, a0: u64) -> Answer {
    Answer::plain(narrow_fence_code(state, eid as u32, a0 as u32), 0)
}

/// Its code.
#[inline(always)]
fn narrow_fence_code(state: &mut State, eid: u32, a0: u32) -> i64 {
    if !state.has_table() {
        return FAILED;
    }
    let record = &state.record;
    if record.virt || record.user || u64::from(eid) != EID || !record.has(1) {
        return NOT_SUPPORTED;
    }
    let only = match a0 {
        u32::MAX => None,
        0..=119 => Some(a0 as usize),
        _ => return INVALID_PARAM,
    };
    let found = record.page.and_then(|at| page::find(&mut state.memory, state.base, at));
    let Some::<&mut NarrowPage>(page) = found else {
        return NO_SHMEM;
    };
    fences::turns::<NARROW, Whole>(only, page, &mut state.table, &mut Whole);
    SUCCESS
}

/// The SRET call.
#[inline(always)]
fn sync_sret(state: &mut State) -> Answer {
    let Some((record, page, table)) = state.parts() else {
        return Answer::plain(NO_SHMEM, 0);
    };
    if record.has(0) {
        registers::all(record, page);
    }
    if record.has(1) {
        fences::turns::<WIDE, Whole>(None, page, table, &mut Whole);
    }
    for i in 1..32 {
        record.x[i] = page::word(page, 8 * i);
    }
    autoswap(record, page);
    record.virt = record.csrs[HSTATUS] & SPV != 0;
    record.user = !record.spp;
    record.csrs[HSTATUS] &= !SPV;
    (record.sie, record.spie, record.spp) = (record.spie, true, false);
    record.pc = record.sepc;
    store_clean(record, page, [turn::HSTATUS, turn::HIP, turn::VSIP]);
    Answer { code: SUCCESS, value: 0, resumed: true }
}

/// Swaps hstatus where the feature and the flag are there.
#[inline(always)]
pub fn autoswap(record: &mut Record, page: &mut Page) {
    if record.has(3) && page[page::FLAGS] & 1 == 1 {
        let old = record.csrs[HSTATUS];
        registers::write(record, turn::HSTATUS, page::word(page, page::SWAP));
        page::set_word(page, page::SWAP, old);
    }
}

/// Stores the readings of those registers whose words are clean.
#[inline(always)]
pub fn store_clean<const N: usize>(record: &Record, page: &mut Page, turns: [usize; N]) {
    let all = !record.has(0);
    for t in turns {
        if all || !page::is_dirty(page, t) {
            registers::store(record, page, t);
        }
    }
}

/// The platform's lines are now these.
pub fn line_change(state: &mut State, lines: u64) -> Answer {
    if !state.is_well_made() {
        return Answer::plain(FAILED, 0);
    }
    if lines & !0xFE != 0 {
        return Answer::plain(INVALID_PARAM, 0);
    }
    state.record.lines = lines;
    if let Some((record, page, _)) = state.parts() {
        store_clean(record, page, [turn::HGEIP, turn::HIP, turn::VSIP]);
    }
    Answer::plain(SUCCESS, 0)
}
