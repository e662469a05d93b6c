//! The two sides: the proved library through the wrapper, and the second program.

use nathiroeng::ANSWER_WORDS;
use nathiroeng::{blocks, fid, Hart, Memory, Monitor, SbiRet, Sret, Xlen, EID, LIST_BYTES};
use second::calls::{self, Answer};
use second::csr::{Csr, REGISTERS};
use second::dropped::Report;
use second::state::{self, State};
use second::trap::{self, Trap};
use second::{lines, steps, xlen};

use crate::guard::Guarded;
use crate::input::{Action, Input, Outcome, Route, UNTOLD};
use crate::record;

/// The library's outcome.
pub fn ours(input: &Input) -> Outcome {
    let mut memory = Guarded::new(&input.memory);
    let mut table = Guarded::new(&input.table);
    let mut words = Guarded::new(&input.words);
    let mut answer = Guarded::new(&vec![UNTOLD; input.answer_words()]);
    let mut reports = Guarded::new(&vec![UNTOLD; input.report_words()]);
    let code = if let Route::Blocks { .. } = input.route {
        let world = (words.lend(), memory.lend(), table.lend());
        by_blocks(input, world, answer.lend(), reports.lend())
    } else {
        let block = input.words.as_slice().try_into().unwrap_or([0; record::WORDS]);
        let mut hart = Hart::from_words(block);
        let mut monitor = Monitor {
            hart: &mut hart,
            memory: Memory { base: input.base, bytes: memory.lend() },
            table: table.lend(),
        };
        let told = if input.route == Route::Names {
            by_names(&mut monitor, input.action)
        } else {
            by_numbers(&mut monitor, input.action)
        };
        words.lend().copy_from_slice(hart.words());
        answer.lend().copy_from_slice(&told.answer);
        put(reports.lend(), &told.reports);
        told.code
    };
    let kept = words.is_kept() && memory.is_kept() && table.is_kept();
    let kept = kept && answer.is_kept() && reports.is_kept();
    Outcome {
        code,
        kept,
        answer: answer.take(),
        reports: reports.take(),
        words: words.take(),
        memory: memory.take(),
        table: table.take(),
    }
}

/// Puts words at the start of a buffer, as far as there is room.
fn put(buffer: &mut [u64], words: &[u64]) {
    buffer.iter_mut().zip(words).for_each(|(place, word)| *place = *word);
}

/// Through the functions on blocks.
fn by_blocks(
    input: &Input,
    (words, memory, table): (&mut [u64], &mut [u8], &mut [u64]),
    answer: &mut [u64],
    reports: &mut [u64],
) -> i64 {
    let base = input.base;
    match input.action {
        Action::Fresh { bits, features } => blocks::fresh(words, bits, features),
        Action::Call { eid, fid, args } => {
            blocks::call(words, base, memory, table, eid, fid, args, answer, reports)
        }
        Action::Stoppable { eid, fid, a0, limit } => {
            blocks::sync_stoppable(words, base, memory, table, eid, fid, a0, limit, answer, reports)
        }
        Action::Lines { lines } => blocks::line_change(words, base, memory, table, lines, answer),
        Action::Trap(Trap { cause, tval, htval, htinst, gva }) => {
            let told = [cause, tval, htval, htinst];
            blocks::trap(words, base, memory, table, told, gva, answer, reports)
        }
    }
}

/// A code, the answer's words, and those of the reports.
struct Told {
    code: i64,
    answer: [u64; ANSWER_WORDS],
    reports: Vec<u64>,
}

/// What is told by a code, the first four words of an answer, and reports.
fn told(code: i64, [value, resumed, steps, finished]: [u64; 4], reports: &[[u64; 2]]) -> Told {
    let answer = [value, resumed, steps, finished, reports.len() as u64];
    Told { code, answer, reports: reports.concat() }
}

/// What is told without reports.
fn plain(ret: SbiRet) -> Told {
    told(ret.error, [ret.value, 0, 0, 0], &[])
}

/// The words of the wrapper's reports.
fn pairs(reports: nathiroeng::Reports) -> Vec<[u64; 2]> {
    reports.as_slice().iter().map(|report| [report.csr, report.bits]).collect()
}

/// The answer of a call or a trap.
fn answered(answer: nathiroeng::Answer) -> Told {
    let nathiroeng::Answer { ret, resumed, reports } = answer;
    told(ret.error, [ret.value, u64::from(resumed), 0, 0], &pairs(reports))
}

/// The answer of a stoppable run.
fn run(run: nathiroeng::Run) -> Told {
    let nathiroeng::Run { ret, steps, finished, reports } = run;
    told(ret.error, [ret.value, 0, steps, u64::from(finished)], &pairs(reports))
}

/// Through the wrapper's methods with the calls' names.
fn by_names(monitor: &mut Monitor, action: Action) -> Told {
    match action {
        Action::Call { eid: EID, fid, args: [a0, a1, a2] } => match fid {
            fid::PROBE_FEATURE => match u32::try_from(a0) {
                Ok(id) => plain(monitor.probe_feature(id)),
                Err(_) => by_numbers(monitor, action),
            },
            fid::SET_SHMEM => plain(monitor.set_shmem(a0, a1, a2)),
            fid::SYNC_CSR => answered(monitor.sync_csr(a0)),
            fid::SYNC_HFENCE => plain(monitor.sync_hfence(a0)),
            fid::SYNC_SRET => match monitor.sync_sret() {
                Sret::Resumed(reports) => told(0, [0, 1, 0, 0], &pairs(reports)),
                Sret::Refused(ret) => plain(ret),
            },
            _ => by_numbers(monitor, action),
        },
        Action::Stoppable { eid: EID, fid: fid::SYNC_CSR, a0, limit } => {
            run(monitor.sync_csr_stoppable(a0, limit))
        }
        Action::Stoppable { eid: EID, fid: fid::SYNC_HFENCE, a0, limit } => {
            run(monitor.sync_hfence_stoppable(a0, limit))
        }
        _ => by_numbers(monitor, action),
    }
}

/// A code alone.
fn untold(code: i64) -> Told {
    Told { code, answer: [UNTOLD; ANSWER_WORDS], reports: Vec::new() }
}

/// Through the wrapper's methods that take the numbers.
fn by_numbers(monitor: &mut Monitor, action: Action) -> Told {
    match action {
        Action::Fresh { bits, features } => match Xlen::from_bits(bits) {
            Some(xlen) => {
                *monitor.hart = Hart::fresh(xlen, features);
                untold(0)
            }
            None => untold(calls::FAILED),
        },
        Action::Call { eid, fid, args } => answered(monitor.call(eid, fid, args)),
        Action::Stoppable { eid, fid, a0, limit } => {
            run(monitor.sync_stoppable(eid, fid, a0, limit))
        }
        Action::Lines { lines } => plain(monitor.line_change(lines)),
        Action::Trap(Trap { cause, tval, htval, htinst, gva }) => {
            let gva = gva & 1 == 1;
            answered(monitor.trap(nathiroeng::Trap { cause, tval, htval, htinst, gva }))
        }
    }
}

/// The second program's outcome. A block that is no record is refused with -1.
pub fn seconds(input: &Input) -> Outcome {
    let mut outcome = Outcome {
        code: calls::FAILED,
        kept: true,
        answer: vec![UNTOLD; input.answer_words()],
        reports: vec![UNTOLD; input.report_words()],
        words: input.words.clone(),
        memory: input.memory.clone(),
        table: input.table.clone(),
    };
    if let Action::Fresh { bits, features } = input.action {
        if let (Some(xlen), record::WORDS) = (xlen::Xlen::from_bits(bits), input.words.len()) {
            outcome.code = calls::SUCCESS;
            outcome.words = record::words(&second::hart::Hart::fresh_at(xlen, features));
        }
        return outcome;
    }
    let mut answer = [0; ANSWER_WORDS];
    if let Some(hart) = record::hart(&input.words) {
        let memory = state::Memory { base: input.base, bytes: input.memory.clone() };
        let mut state = State { hart, memory, table: input.table.clone() };
        let told = act(&mut state, input.action);
        (outcome.code, answer) = (told.code, told.answer);
        put(&mut outcome.reports, &told.reports);
        outcome.words = record::words(&state.hart);
        outcome.memory = state.memory.bytes;
        outcome.table = state.table;
    }
    if outcome.answer.len() == ANSWER_WORDS {
        outcome.answer.copy_from_slice(&answer);
    }
    outcome
}

/// The second program's work on a state.
fn act(state: &mut State, action: Action) -> Told {
    let pairs = |reports: Vec<Report>| -> Vec<[u64; 2]> {
        reports.into_iter().map(|Report { csr, bits }| [csr, bits]).collect()
    };
    let answered = |Answer { code, value, resumed, reports }: Answer| {
        told(code, [value, u64::from(resumed), 0, 0], &pairs(reports))
    };
    match action {
        Action::Fresh { .. } => told(calls::FAILED, [0; 4], &[]),
        Action::Call { eid, fid, args } => answered(calls::call(state, eid, fid, args)),
        Action::Lines { lines } => answered(lines::change(state, lines)),
        Action::Trap(trap) => answered(trap::back(state, trap)),
        Action::Stoppable { eid, fid, a0, limit } => {
            let steps::Run { code, value, steps, finished, reports } =
                steps::run(state, eid, fid, a0, limit);
            told(code, [value, 0, steps, u64::from(finished)], &pairs(reports))
        }
    }
}

/// A listing in a place of limited room.
#[derive(Clone, PartialEq, Eq, Debug)]
pub struct Listing {
    pub out: Vec<u8>,
    pub length: usize,
    pub kept: bool,
}

/// The library's listing of an image.
pub fn our_listing(image: &[u8], room: usize) -> Listing {
    let mut out = Guarded::new(&vec![b'?'; room]);
    let length = nathiroeng::list(image, out.lend());
    let kept = out.is_kept() && length <= LIST_BYTES;
    Listing { out: out.take(), length, kept }
}

/// The second program's listing.
pub fn seconds_listing(image: &[u8], room: usize) -> Listing {
    let text = second::lister::list(image).into_bytes();
    let mut out = vec![b'?'; room];
    let shown = room.min(text.len());
    out[..shown].copy_from_slice(&text[..shown]);
    Listing { out, length: text.len(), kept: true }
}

/// The library's turn of a number at the width with so many bits.
pub fn our_turn(bits: u64, number: u64) -> Option<usize> {
    lookup::turn(bits, number)
}

/// The second program's turn: the register's place among those of both widths.
pub fn seconds_turn(bits: u64, number: u64) -> Option<usize> {
    let csr = Csr::from_number(xlen::Xlen::from_bits(bits)?, number)?;
    REGISTERS.iter().position(|&register| register == csr)
}
