//! The five calls: the checks in their order, then the work of each call.

use crate::csr::{self, Csr};
use crate::dropped::Report;
use crate::fence;
use crate::hart::{Hart, Mode};
use crate::page;
use crate::state::{Parts, State};
use crate::xlen::Xlen;

/// The number of the nested acceleration extension.
pub const EID: u64 = 0x4E41_434C;

/// The call to probe a feature.
pub const PROBE: u64 = 0;

/// The call to set or drop the shared page.
pub const SET: u64 = 1;

/// The call to synchronize registers.
pub const SYNC_CSR: u64 = 2;

/// The call to synchronize fences.
pub const SYNC_FENCE: u64 = 3;

/// The call to synchronize all and return to the guest.
pub const SYNC_SRET: u64 = 4;

/// The parameter that asks for every register or every entry: all ones, at width 32 the low 32.
pub const ALL: u64 = u64::MAX;

/// The code of success.
pub const SUCCESS: i64 = 0;

/// The code of a record, table or page that is not as it must be.
pub const FAILED: i64 = -1;

/// The code of something that is not offered.
pub const NOT_SUPPORTED: i64 = -2;

/// The code of a bad parameter.
pub const INVALID_PARAM: i64 = -3;

/// The code of a fence for which no entry is free.
pub const DENIED: i64 = -4;

/// The code of a bad page address.
pub const INVALID_ADDRESS: i64 = -5;

/// The code of a missing page.
pub const NO_SHMEM: i64 = -9;

/// What a call gives back; `resumed` says that the guest runs on instead.
#[derive(Clone, PartialEq, Eq, Debug)]
pub struct Answer {
    pub code: i64,
    pub value: u64,
    pub resumed: bool,
    /// The register writes with dropped bits, in the order of the writes.
    pub reports: Vec<Report>,
}

impl Answer {
    /// An answer that does not resume and has nothing to report.
    pub fn plain(code: i64, value: u64) -> Answer {
        Answer { code, value, resumed: false, reports: Vec::new() }
    }
}

/// A call that has passed the checks.
#[derive(Clone, PartialEq, Eq, Debug)]
pub enum Request {
    Probe(u64),
    Drop,
    Set(u64),
    SyncCsr(Vec<Csr>),
    SyncFence(Vec<usize>),
    Sret,
}

/// Makes the seven checks in their order; gives the request, or the code of the first that fails.
/// A hart of width 32 has only the low 32 bits of the numbers.
pub fn check(state: &State, eid: u64, fid: u64, args: [u64; 3]) -> Result<Request, i64> {
    let hart = &state.hart;
    let (eid, fid) = (hart.xlen.cut(eid), hart.xlen.cut(fid));
    let args = args.map(|arg| hart.xlen.cut(arg));
    if !state.passes_check_1() {
        return Err(FAILED);
    }
    if hart.virt || hart.mode == Mode::U {
        return Err(NOT_SUPPORTED);
    }
    if eid != EID || fid > SYNC_SRET {
        return Err(NOT_SUPPORTED);
    }
    if fid >= SYNC_CSR && !hart.has_feature(fid - SYNC_CSR) {
        return Err(NOT_SUPPORTED);
    }
    let request = check_parameters(hart.xlen, fid, args).ok_or(INVALID_PARAM)?;
    if let Request::Set(lo) = request {
        if args[1] != 0 || state.memory.find_page(hart.xlen, lo).is_none() {
            return Err(INVALID_ADDRESS);
        }
    }
    if fid >= SYNC_CSR && state.page_start().is_none() {
        return Err(NO_SHMEM);
    }
    Ok(request)
}

/// Check 5: the request that the parameters ask for, or none if one of them is bad.
fn check_parameters(xlen: Xlen, fid: u64, args: [u64; 3]) -> Option<Request> {
    let [a0, a1, a2] = args;
    let all = xlen.cut(ALL);
    let entries = xlen.entry_count();
    match fid {
        PROBE => Some(Request::Probe(a0 & 0xFFFF_FFFF)),
        SET if a2 != 0 => None,
        SET if a0 == all && a1 == all => Some(Request::Drop),
        SET if a0 % 4096 != 0 => None,
        SET => Some(Request::Set(a0)),
        SYNC_CSR if a0 == all => Some(Request::SyncCsr(csr::turn_order(xlen).to_vec())),
        SYNC_CSR if a0 & 0x300 != 0x200 || a0 >= 0x1000 => None,
        SYNC_CSR => Csr::from_number(xlen, a0).map(|csr| Request::SyncCsr(vec![csr])),
        SYNC_FENCE if a0 == all => Some(Request::SyncFence((0..entries).collect())),
        SYNC_FENCE if a0 >= entries as u64 => None,
        SYNC_FENCE => Some(Request::SyncFence(vec![a0 as usize])),
        _ => Some(Request::Sret),
    }
}

/// One call, whole.
pub fn call(state: &mut State, eid: u64, fid: u64, args: [u64; 3]) -> Answer {
    match check(state, eid, fid, args) {
        Ok(request) => carry_out(state, request),
        Err(code) => Answer::plain(code, 0),
    }
}

/// Does the work of an accepted call.
fn carry_out(state: &mut State, request: Request) -> Answer {
    let mut answer = Answer::plain(SUCCESS, 0);
    match request {
        Request::Probe(feature) => answer.value = u64::from(state.hart.has_feature(feature)),
        Request::Drop => state.hart.page = None,
        Request::Set(address) => {
            state.hart.page = Some(address);
            if let Some(mut parts) = state.parts() {
                blank_page(&mut parts);
            }
        }
        Request::SyncCsr(registers) => {
            if let Some(mut parts) = state.parts() {
                for csr in registers {
                    register_turn(&mut parts, csr);
                }
                answer.reports = parts.reports;
            }
        }
        Request::SyncFence(entries) => {
            if let Some(parts) = state.parts() {
                for entry in entries {
                    fence::entry_turn(parts.hart.xlen, parts.page, parts.table, entry);
                }
            }
        }
        Request::Sret => {
            if let Some(mut parts) = state.parts() {
                sync_and_return(&mut parts);
                answer.reports = parts.reports;
            }
            answer.resumed = true;
        }
    }
    answer
}

/// Makes the page a new one: zeroes all bytes, then stores each register's reading in its word,
/// whatever the features.
fn blank_page(parts: &mut Parts) {
    parts.page.fill(0);
    for &csr in csr::turn_order(parts.hart.xlen) {
        parts.store_reading(csr);
    }
}

/// A register's turn: write and clean it if dirty, then store its word and its followers' words.
fn register_turn(parts: &mut Parts, csr: Csr) {
    if page::is_dirty(parts.page, csr) {
        parts.write_from_word(csr);
        page::clear_dirty(parts.page, csr);
    }
    parts.store_reading(csr);
    for &follower in csr.followers() {
        if !page::is_dirty(parts.page, follower) {
            parts.store_reading(follower);
        }
    }
}

/// The SRET call: synchronizes what the features allow, loads X1 to X31, and returns to the guest.
fn sync_and_return(parts: &mut Parts) {
    let xlen = parts.hart.xlen;
    if parts.hart.has_feature(0) {
        for &csr in csr::turn_order(xlen) {
            register_turn(parts, csr);
        }
    }
    if parts.hart.has_feature(1) {
        for entry in 0..xlen.entry_count() {
            fence::entry_turn(xlen, parts.page, parts.table, entry);
        }
    }
    for i in 1..32 {
        parts.hart.x[i] = page::word(xlen, parts.page, page::context_offset(xlen, i));
    }
    parts.autoswap();
    emulate_sret(parts.hart);
    parts.store_clean_words(&[Csr::Hstatus, Csr::Hip, Csr::Vsip]);
}

/// The SRET instruction itself.
fn emulate_sret(hart: &mut Hart) {
    hart.virt = hart.hstatus & csr::SPV != 0;
    hart.mode = if hart.spp { Mode::S } else { Mode::U };
    hart.hstatus &= !csr::SPV;
    hart.sie = hart.spie;
    hart.spie = true;
    hart.spp = false;
    hart.pc = hart.sepc;
}
