//! Replay's functions on blocks with any content and any lengths: what is no state, or not as long
//! as it must be, is -1 and nothing changes; any state goes on as the second program does from it.

use nathiroeng::REPLAY_TABLE_WORDS;
use nathiroeng::{
    HART_WORDS, REPLAY_LINE_BYTES, REPLAY_MEMORY_BYTES, REPLAY_PENDING_BYTES, REPLAY_STATE_WORDS,
};
use second::gen;
use second::hart::Hart;
use second::rng::Rng;
use second::xlen::Xlen;

use super::onward::{self, ENDED, HAVE, NUMBER};
use super::{replays, Result};
use crate::case::{Case, Difference};
use crate::guard::{Fill, Guarded};
use crate::input::UNTOLD;
use crate::record;
use crate::replay::{Lent, Said, Side, EMPTY};

/// Every other case has something that may be refused, the others a state that is accepted.
pub fn run(case: &mut Case) -> Result {
    if case.index.is_multiple_of(2) {
        damaged(case)
    } else {
        onward::run(case)
    }
}

/// All that is lent, as it is at some time.
type Content = (Vec<u64>, Vec<u8>, Vec<u64>, Vec<u8>);

/// All that is lent, as it is now.
fn content(lent: &Lent) -> Content {
    let (state, memory) = (lent.state.get().to_vec(), lent.memory.get().to_vec());
    (state, memory, lent.table.get().to_vec(), lent.pending.get().to_vec())
}

/// Whether words are a state: a record's block that is well formed, two numbers and a flag.
fn is_state(words: &[u64]) -> bool {
    words.len() == REPLAY_STATE_WORDS
        && record::hart(&words[..HART_WORDS]).is_some()
        && words[ENDED] <= 1
}

/// Another length than the good one: none, one less, one more, or any near it.
fn length(rng: &mut Rng, good: usize) -> usize {
    let any = rng.below(2 * good as u64 + 2) as usize;
    rng.pick(&[0, 1, good - 1, good + 1, 2 * good, any])
}

/// A copy of the elements with this length.
fn resized<T: Fill>(elements: &Guarded<T>, length: usize) -> Guarded<T> {
    let mut all = elements.get().to_vec();
    all.resize(length, T::FILL);
    Guarded::new(&all)
}

/// Puts something into the state that is mostly no state.
fn damage_state(rng: &mut Rng, words: &mut [u64]) {
    let odd = rng.pick(&[2, 3, 1 << 32, 1 << 63, u64::MAX]);
    match rng.below(7) {
        0 => words[rng.pick(&[20, 22, 23, 26, 27, 28])] = odd,
        1 => (words[20], words[21]) = (0, 1 << rng.below(64)),
        2 => words[record::XLEN] = rng.pick(&[0, 1, 31, 32, 63, 65, 128, 1 << 32 | 64, u64::MAX]),
        3 => words[ENDED] = odd,
        4 => words[record::DROPPED] = rng.bits() >> rng.pick(&[0, 16, 31, 32]),
        5 => words.iter_mut().for_each(|word| *word = gen::word(rng, Xlen::X64)),
        _ => words.fill(rng.pick(&[0, 1, u64::MAX])),
    }
}

/// Puts bytes there, or a number of them, that are often no beginning of a record.
fn damage_pending(rng: &mut Rng, lent: &mut Lent) {
    let have = lent.state.get()[HAVE];
    let (few, any) = (rng.below(50), rng.below(5_000));
    let count = rng.pick(&[few, few, 45, 46, 4_109, 4_110, 4_111, 1 << 32, u64::MAX, any]);
    match rng.below(4) {
        0 => lent.pending.lend().fill(rng.pick(&[0, 1, 0xFF])),
        1 => lent.pending.lend()[rng.below(6) as usize] ^= 1 << rng.below(8),
        2 => lent.pending.lend()[..6].copy_from_slice(&[40, 0, 0, 0, 1 + rng.below(5) as u8, 0]),
        _ => {}
    }
    lent.state.lend()[HAVE] = if rng.one_in(4) { have } else { count };
}

/// Damages one thing that is lent; gives how many words there are for what is said.
fn damage(rng: &mut Rng, lent: &mut Lent) -> usize {
    match rng.below(10) {
        0 => {
            let other = rng.pick(&[0, 1, 62, 67, HART_WORDS, 69, 70, 72, 136, 142]);
            lent.state = resized(&lent.state, other);
        }
        1 => lent.memory = resized(&lent.memory, length(rng, REPLAY_MEMORY_BYTES)),
        2 => lent.table = resized(&lent.table, length(rng, REPLAY_TABLE_WORDS)),
        3 => lent.pending = resized(&lent.pending, length(rng, REPLAY_PENDING_BYTES)),
        4 => lent.room = length(rng, REPLAY_LINE_BYTES),
        5 => return rng.pick(&[0, 1, 3, 4, 71]),
        6 | 7 => damage_state(rng, lent.state.lend()),
        _ => damage_pending(rng, lent),
    }
    2
}

/// A replay at some place of a recording with something that may not be as it must be: each function
/// refuses or takes it by what is lent to it.
fn damaged(case: &mut Case) -> Result {
    let bytes = replays::recording(&mut case.rng, case.index / 2);
    let (first, part) = bytes.split_at(case.rng.below(bytes.len() as u64 + 1) as usize);
    let mut lent = Lent::start(4_096);
    lent.feed(first).map_err(Difference::line)?;
    lent.room = REPLAY_LINE_BYTES + case.rng.below(200) as usize;
    let said_words = damage(&mut case.rng, &mut lent);
    let before = content(&lent);
    let (state, memory, table, pending) = &before;
    let tells = lent.room >= REPLAY_LINE_BYTES && said_words == 2 && is_state(state);
    let is_lent = memory.len() == REPLAY_MEMORY_BYTES
        && table.len() == REPLAY_TABLE_WORDS
        && pending.len() >= REPLAY_PENDING_BYTES;

    let said = lent.finish_once(said_words);
    check_said(case, "finish", &lent, &before, said, tells.then(|| ending(state)))?;
    if tells && is_lent && onward::is_beginning(pending, state[HAVE]) {
        onward::check(case, &mut lent, part)?;
    } else {
        for part in [&[], part] {
            let said = lent.feed_once(part, said_words);
            check_said(case, "feed", &lent, &before, said, None)?;
        }
    }
    check_start(case, &mut lent)
}

/// The line at the end, by the last three words.
fn ending(state: &[u64]) -> Vec<u8> {
    if state[HAVE] == 0 || state[ENDED] == 1 {
        return Vec::new();
    }
    format!("{} cut\n", state[NUMBER]).into_bytes()
}

/// Counts a code and shows it.
fn count(case: &mut Case, name: &str, lent: &Lent, code: i64) {
    case.counts.compared += 1;
    *case.counts.codes.entry(code).or_default() += 1;
    if case.is_shown {
        println!("{name} with {}: code {code}", shown(lent));
    }
}

/// The lengths of what is lent, and the last words of the state.
fn shown(lent: &Lent) -> String {
    let (state, memory, table, pending) = content(lent);
    let lengths = [state.len(), memory.len(), table.len(), pending.len(), lent.room];
    format!("lengths {lengths:?}, last words {:x?}", state.get(NUMBER..).unwrap_or(&[]))
}

/// Checks what one function says and that nothing lent has changed: a refusal that says nothing, or
/// these lines and nothing taken.
fn check_said(
    case: &mut Case,
    name: &str,
    lent: &Lent,
    before: &Content,
    said: Said,
    lines: Option<Vec<u8>>,
) -> Result {
    count(case, name, lent, said.code);
    let quiet =
        said.words.iter().all(|&word| word == UNTOLD) && said.out.iter().all(|&byte| byte == EMPTY);
    let code = said.code;
    let is_right = match lines {
        None => code == -1 && said.kept && quiet,
        Some(lines) => said.take(0) == Ok((0, lines)),
    };
    if is_right && content(lent) == *before {
        return Ok(());
    }
    Err(Difference::line(format!("{name} with {}: code {code} is wrong", shown(lent))))
}

/// Start takes any content, and refuses other lengths.
fn check_start(case: &mut Case, lent: &mut Lent) -> Result {
    let before = content(lent);
    let lengths = [REPLAY_STATE_WORDS, REPLAY_MEMORY_BYTES, REPLAY_TABLE_WORDS];
    let is_good = [before.0.len(), before.1.len(), before.2.len()] == lengths;
    let code = lent.begin();
    count(case, "start", lent, code);
    let (expected, after) = if is_good {
        let fresh = [record::words(&Hart::fresh(15)), vec![1, 0, 0]].concat();
        (0, (fresh, vec![0; REPLAY_MEMORY_BYTES], vec![0; REPLAY_TABLE_WORDS], before.3))
    } else {
        (-1, before)
    };
    let is_right = code == expected && content(lent) == after && lent.is_kept();
    case.hold(is_right, || format!("start with {}: code {code}", shown(lent)))
}
