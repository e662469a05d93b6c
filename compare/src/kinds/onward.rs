//! Replays that go on from any state, also from one that no recording leads to.

use nathiroeng::{HART_WORDS, REPLAY_LINE_BYTES, REPLAY_MEMORY_BYTES};
use second::gen;
use second::replay::{self, BASE, SLOTS};
use second::rng::Rng;
use second::state::{Memory, State};
use second::xlen::Xlen;

use super::{replays, Result};
use crate::case::{Case, Difference};
use crate::input;
use crate::record;
use crate::replay::{Lent, Side};
use crate::show;

/// Where a state has its last three words.
pub const NUMBER: usize = HART_WORDS;
pub const HAVE: usize = HART_WORDS + 1;
pub const ENDED: usize = HART_WORDS + 2;

/// Whether so many of the bytes are the beginning of a record that is not whole.
pub fn is_beginning(pending: &[u8], have: u64) -> bool {
    let [l0, l1, l2, l3, k0, k1] = *pending.first_chunk().unwrap_or(&[0; 6]);
    let length = u64::from(u32::from_le_bytes([l0, l1, l2, l3]));
    let is_good = match u16::from_le_bytes([k0, k1]) {
        1 | 4 | 5 => length == 40,
        2 => (9..=4104).contains(&length),
        3 => length == 8,
        _ => false,
    };
    have < 6 || (is_good && have < 6 + length)
}

/// Any state of width 64 with all features in replay's sizes, also one whose record is not well made.
fn world(rng: &mut Rng) -> State {
    let mut hart = match rng.below(4) {
        0 => gen::damaged_hart(rng, Xlen::X64),
        1 => gen::guest_hart(rng, Xlen::X64),
        _ => gen::hart(rng, Xlen::X64),
    };
    hart.features |= 15;
    if rng.one_in(2) {
        hart.page = Some(BASE);
    }
    let mut bytes = vec![rng.pick(&[0, 0xFF]); REPLAY_MEMORY_BYTES];
    if !rng.one_in(4) {
        gen::fill_page(rng, Xlen::X64, &mut bytes);
    }
    let slots = (0..SLOTS).flat_map(|_| match rng.below(4) {
        0 => [0; 4],
        _ => gen::slot(rng, Xlen::X64),
    });
    let table = slots.collect();
    State { hart, memory: Memory { base: BASE, bytes }, table }
}

/// Any world with any number, and the beginning of a recording's first record; then the rest of that.
pub fn run(case: &mut Case) -> Result {
    let rng = &mut case.rng;
    let (start, number) = (world(rng), rng.pick(&[0, 1, 9, 1 << 32, u64::MAX - 2, u64::MAX]));
    let bytes = replays::recording(rng, case.index / 2);
    let have = bytes.len().min(rng.below(60) as usize);
    let have = if is_beginning(&bytes, have as u64) { have } else { have.min(5) };
    let room = REPLAY_LINE_BYTES + rng.below(400) as usize;
    let mut lent = Lent::at(&start, [number, have as u64, 0], room);
    lent.pending.lend()[..have].copy_from_slice(&bytes[..have]);
    check(case, &mut lent, &bytes[have..])
}

/// The second program's state for what is lent, and all bytes of the recording from the first of the
/// record that is not whole on; none where the second program's replay can't begin: it has width 64
/// and all features.
fn seconds(lent: &Lent, part: &[u8]) -> Option<(State, Vec<u8>)> {
    let words = lent.state.get();
    let hart = record::hart(&words[..HART_WORDS])?;
    let memory = Memory { base: BASE, bytes: lent.memory.get().to_vec() };
    let rest = &lent.pending.get()[..words[HAVE] as usize];
    let can_begin = hart.xlen == Xlen::X64 && hart.features & 15 == 15;
    let table = lent.table.get().to_vec();
    can_begin.then(|| (State { hart, memory, table }, [rest, part].concat()))
}

/// A state that is accepted takes a part, and then its end, as the second program does; after a bad
/// header it takes nothing.
pub fn check(case: &mut Case, lent: &mut Lent, part: &[u8]) -> Result {
    let (number, is_ended) = (lent.state.get()[NUMBER], lent.state.get()[ENDED] == 1);
    let begin = seconds(lent, part);
    let done = lent.feed(part).and_then(|_| lent.view());
    let view = done.map_err(Difference::line)?;
    case.counts.compared += 1;
    let Some((start, bytes)) = begin else {
        return Ok(());
    };
    let (expected, end) = match is_ended {
        true => (Vec::new(), start),
        false => replay::replayed_from(start, number, &bytes),
    };
    case.count_lines(&expected);
    let lines = [view.lines, &view.ending].concat();
    let mut differences = Vec::new();
    let [ours, seconds] = [&lines, &expected].map(|text| String::from_utf8_lossy(text));
    if lines != expected {
        differences.push(format!("lines, ours:\n{ours}second:\n{seconds}"));
    }
    input::differ_world(
        &mut differences,
        (&view.words, view.memory, view.table),
        (&record::words(&end.hart), &end.memory.bytes, &end.table),
    );
    let mut text = format!("input: replay from record {number} on, ended: {is_ended}\n");
    show::recording(&mut text, &bytes);
    if case.is_shown {
        print!("{text}{ours}");
    }
    if differences.is_empty() {
        return Ok(());
    }
    Err(Difference { text: format!("{text}{}\n", differences.join("\n")) })
}
