//! Blocks that are no record, and blocks of other lengths: -1, and nothing changes.

use nathiroeng::ANSWER_WORDS;
use second::gen;
use second::rng::Rng;
use second::xlen::Xlen;

use super::{calls, Result};
use crate::case::Case;
use crate::input::{Action, Input, Route, UNTOLD};
use crate::record;

/// The words that are 0 or 1.
const FLAGS: [usize; 6] = [20, 22, 23, 26, 27, 28];

/// Any action, mostly one that would be accepted: for a trap V is on.
fn action(rng: &mut Rng, xlen: Xlen, input: &mut Input) -> Action {
    let (eid, fid) = (second::calls::EID, rng.below(5));
    let a0 = if fid == 1 { input.base } else { second::calls::ALL };
    match rng.below(5) {
        0 => Action::Stoppable { eid, fid: 2 + rng.below(2), a0, limit: rng.below(100) },
        1 => Action::Lines { lines: rng.bits() & 0xFE },
        2 => {
            input.words[record::VIRT] = 1;
            Action::Trap(gen::trap(rng, xlen))
        }
        _ => Action::Call { eid, fid, args: [a0, 0, 0] },
    }
}

/// Puts something into the width's word that is no width.
fn damage_width(rng: &mut Rng, words: &mut [u64]) {
    words[record::XLEN] = calls::width(rng);
    if Xlen::from_bits(words[record::XLEN]).is_some() {
        words[record::XLEN] = rng.pick(&[0, 1, 31, 96, 128]);
    }
}

/// Sets a bit that only the other width has: one above 31, or one of htimedeltah.
fn set_foreign_bit(rng: &mut Rng, xlen: Xlen, words: &mut [u64]) {
    match xlen {
        Xlen::X32 => words[rng.below(record::WORDS as u64) as usize] |= 1 << (32 + rng.below(32)),
        Xlen::X64 => words[record::HTIMEDELTAH] |= 1 << rng.below(64),
    }
}

/// Puts anything into stvec, scause and stval that makes the record no well-made one: a low bit of
/// stvec, or at width 32 a bit above 31.
fn damage_trap_words(rng: &mut Rng, xlen: Xlen, words: &mut [u64]) {
    let last = &mut words[record::STVEC..=record::STVAL];
    last.iter_mut().for_each(|word| *word = gen::word(rng, Xlen::X64));
    if xlen == Xlen::X64 || rng.one_in(2) {
        last[0] |= 1 + rng.below(3);
    } else {
        last[rng.below(3) as usize] |= 1 << (32 + rng.below(32));
    }
}

/// A number of 2^32 or more, which is no count of dropped writes.
fn count_that_is_none(rng: &mut Rng) -> u64 {
    let any = gen::word(rng, Xlen::X64);
    rng.pick(&[1 << 32, u64::MAX, any | 1 << 32, any | 1 << 63, any | 1 << (32 + any % 32)])
}

/// A block that is no record or not well made, or an answer's block or a buffer for reports of
/// another length.
pub fn run(case: &mut Case) -> Result {
    let (rng, xlen) = (&mut case.rng, case.xlen);
    let mut input = Input::new(&gen::good_state(rng, xlen), Action::Lines { lines: 0 });
    input.action = action(rng, xlen, &mut input);
    let (mut answer_words, mut is_record) = (ANSWER_WORDS, false);
    let report_words = rng.pick(&calls::ROOMS);
    match case.index % 6 {
        0 if rng.one_in(2) => damage_width(rng, &mut input.words),
        0 => {
            let place = rng.pick(&FLAGS);
            input.words[place] = rng.pick(&[2, 3, 4, 1 << 32, 1 << 63, u64::MAX, u64::MAX - 1]);
        }
        1 if rng.one_in(2) => set_foreign_bit(rng, xlen, &mut input.words),
        1 => {
            (input.words[20], input.words[21]) = (0, gen::word(rng, Xlen::X64) | 1 << rng.below(64))
        }
        2 => {
            let any = rng.below(200);
            let near = rng.pick(&[61, 62, 63, 64, 65, 66, 67, 67, 69, 69]);
            let length = rng.pick(&[0, 1, 30, 128, near, near, near, near, any, any, any]);
            input.words.resize(length as usize, 1);
            is_record = length == record::WORDS as u64;
            if rng.one_in(4) {
                input.action = Action::Fresh { bits: xlen.bits().into(), features: rng.bits() };
            }
        }
        3 => damage_trap_words(rng, xlen, &mut input.words),
        4 => input.words[record::DROPPED] = count_that_is_none(rng),
        _ => {
            is_record = true;
            answer_words = rng.pick(&[0, 1, 2, 3, 4, 5, 5, 5, 6, 8, 64]);
        }
    }
    input.route = Route::Blocks { answer_words, report_words };
    if is_record {
        return check_answer(case, &input);
    }
    let told = matches!(input.action, Action::Fresh { .. });
    let outcome = case.expect(&input, -1)?;
    let expected = if told { UNTOLD } else { 0 };
    let quiet = outcome.answer.iter().all(|&word| word == expected);
    case.hold(quiet, || "the answer's block of a refusal".to_string())
}

/// An answer's block of another length stays, reports are cut off where their room ends, and all else
/// is as with good ones.
fn check_answer(case: &mut Case, input: &Input) -> Result {
    let outcome = case.check(input)?;
    let mut good = input.clone();
    good.route = Route::BLOCKS;
    let mut with_answer = case.check(&good)?;
    if input.answer_words() != ANSWER_WORDS {
        with_answer.answer = vec![UNTOLD; input.answer_words()];
    }
    with_answer.reports.resize(input.report_words(), UNTOLD);
    case.hold(outcome == with_answer, || "the room changes the outcome".to_string())
}
