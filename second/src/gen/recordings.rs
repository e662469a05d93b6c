//! Random recordings that are good, and the parts in which they may arrive.

pub use super::damages::damaged;

use super::{entry, fill_page, good_request, hart, slot, sync_argument, trap, word};
use crate::calls::{self, ALL, EID, SET, SYNC_CSR, SYNC_FENCE, SYNC_SRET};
use crate::csr::{Csr, SPV};
use crate::fence::Entry;
use crate::hart::Mode;
use crate::hypervisor::Request;
use crate::page;
use crate::recording::{self, Recorder};
use crate::replay::BASE;
use crate::rng::Rng;
use crate::xlen::Xlen;

/// The bytes of the page, which are those of memory.
const SIZE: u64 = Xlen::X64.page_size() as u64;

/// A good recording: none of its records is bad or cut, though many are refused.
pub fn recording(rng: &mut Rng) -> Vec<u8> {
    let mut recorder = Recorder::new();
    if !rng.one_in(6) {
        recorder.add(&set());
    }
    for _ in 0..rng.pick(&[0, 1, 4, 12, 30, 60, 100]) {
        add_some(rng, &mut recorder);
    }
    recorder.into_bytes()
}

/// The call that sets the page.
fn set() -> Vec<u8> {
    recording::call(EID, SET, BASE, 0, 0)
}

/// Records something: one record, or some that belong together.
fn add_some(rng: &mut Rng, recorder: &mut Recorder) {
    if recorder.state().hart.virt && rng.one_in(2) {
        return leave_guest(rng, recorder);
    }
    if recorder.state().hart.page.is_none() && rng.one_in(4) {
        return recorder.add(&set());
    }
    match rng.below(40) {
        0 => add_page(rng, recorder),
        1..=7 => {
            // With every entry pending a fence is refused and stores nothing.
            let _ = recorder.perform(&good_request(rng, Xlen::X64));
        }
        8..=10 => add_entry(rng, recorder),
        11..=12 => add_bytes(rng, recorder),
        13..=14 => recorder.add(&any_write(rng)),
        15..=20 => add_slot(rng, recorder),
        21 => (0..rng.below(40)).for_each(|_| add_slot(rng, recorder)),
        22..=23 => recorder.add(&any_lines(rng)),
        24 => recorder.add(&any_trap(rng)),
        25..=26 => enter_guest(rng, recorder),
        27..=31 => add_sync(rng, recorder),
        _ => add_call(rng, recorder),
    }
}

/// A whole page of registers and entries, in three writes.
fn add_page(rng: &mut Rng, recorder: &mut Recorder) {
    let mut page = vec![0; SIZE as usize];
    fill_page(rng, Xlen::X64, &mut page);
    for (bytes, offset) in page.chunks(4096).zip((0..).step_by(4096)) {
        recorder.add(&recording::write(offset, bytes));
    }
}

/// An entry of any type, written at once.
fn add_entry(rng: &mut Rng, recorder: &mut Recorder) {
    let mut page = vec![0; SIZE as usize];
    let number = if rng.one_in(3) { rng.below(60) as usize } else { rng.pick(&[0, 1, 2, 59]) };
    let is_pending = !rng.one_in(4);
    entry(rng, Xlen::X64, is_pending).store(&mut page, number);
    let offset = page::entry_offset(Xlen::X64, number);
    recorder.add(&recording::write(offset as u64, &page[offset..][..32]));
}

/// Bytes that mean much: in the bitmap, in register words, the autoswap flag, the swap word.
fn add_bytes(rng: &mut Rng, recorder: &mut Recorder) {
    let value = word(rng, Xlen::X64).to_le_bytes();
    let offset = match rng.below(4) {
        0 => page::BITMAP as u64 + rng.below(121),
        1 => page::WORDS as u64 + 8 * rng.below(1024),
        2 => 0x208,
        _ => return recorder.add(&recording::write(0x200, &[rng.below(4) as u8])),
    };
    recorder.add(&recording::write(offset, &value));
}

/// A write of any length, at or near the end of memory or of all numbers, or well inside.
fn any_write(rng: &mut Rng) -> Vec<u8> {
    let length = match rng.below(4) {
        0 => rng.pick(&[1, 2, 255, 4095, 4096]),
        1 => 1 + rng.below(4096),
        _ => 1 + rng.below(32),
    };
    let offset = match rng.below(8) {
        0 => SIZE - length - 1 + rng.below(3),
        1 => rng.pick(&[SIZE - 1, SIZE, SIZE + 1]),
        2 => 0u64.wrapping_sub(length + 1).wrapping_add(rng.below(3)),
        3 => rng.pick(&[u64::MAX, 1 << 63, 1 << 32, BASE, 0u64.wrapping_sub(SIZE)]),
        _ => rng.below(SIZE - length + 1),
    };
    let mut bytes = vec![rng.pick(&[0, 0, 0xFF]); length as usize];
    if rng.one_in(3) {
        bytes.iter_mut().for_each(|byte| *byte = rng.bits() as u8);
    }
    recording::write(offset, &bytes)
}

/// The entries that are pending, with their numbers.
fn pending_entries(recorder: &Recorder) -> Vec<(u64, Entry)> {
    let memory = &recorder.state().memory.bytes;
    let numbered = |number| (number, Entry::load(Xlen::X64, memory, number as usize));
    (0..60).map(numbered).filter(|(_, entry)| entry.is_pending()).collect()
}

/// A slot: often one that a pending entry names or nearly names, sometimes one that is not used.
fn add_slot(rng: &mut Rng, recorder: &mut Recorder) {
    let pending = pending_entries(recorder);
    let words = match rng.below(8) {
        0 => [word(rng, Xlen::X64) >> 1, rng.bits(), rng.bits(), rng.bits()],
        1 => std::array::from_fn(|_| word(rng, Xlen::X64)),
        2 | 3 => slot(rng, Xlen::X64),
        _ if pending.is_empty() => slot(rng, Xlen::X64),
        _ => {
            let (_, entry) = rng.pick(&pending);
            aimed_slot(rng, &entry)
        }
    };
    recorder.add(&recording::slot(index(rng), words));
}

/// The index of a slot; some are past the slots, or would be past all numbers in words or bytes.
fn index(rng: &mut Rng) -> u64 {
    match rng.below(8) {
        0 => rng.pick(&[63, 64, 65, 255, 256, 1 << 32, 1 << 59, 1 << 62, 1 << 63, u64::MAX]),
        1..=4 => rng.below(8),
        _ => rng.below(64),
    }
}

/// A used slot that the entry names, or that misses it by one in some field.
fn aimed_slot(rng: &mut Rng, entry: &Entry) -> [u64; 4] {
    let vmid = entry.vmid() ^ u64::from(rng.one_in(8));
    let asid = entry.asid() ^ u64::from(rng.one_in(8));
    let head = 1 << 63 | u64::from(rng.one_in(8)) << 62 | vmid << 16 | asid;
    [head, aimed_page(rng, entry), aimed_page(rng, entry), rng.bits()]
}

/// A page in the entry's range, at one of its ends or one beside it.
fn aimed_page(rng: &mut Rng, entry: &Entry) -> u64 {
    let order = entry.order() as u32;
    let last = entry.page_count.wrapping_sub(1);
    let block = rng.pick(&[0, 0, last, entry.page_count, u64::MAX]).wrapping_add(entry.page_number);
    let first = block.checked_shl(order).unwrap_or(0);
    let inside = 1u64.checked_shl(order).unwrap_or(0).wrapping_sub(1);
    let among = inside & rng.bits();
    first | rng.pick(&[0, inside, among])
}

/// A line change, mostly good.
fn any_lines(rng: &mut Rng) -> Vec<u8> {
    let lines = match rng.below(4) {
        0 => word(rng, Xlen::X64),
        1 => rng.pick(&[1, 0xFF, 0x100, 1 << 63]),
        _ => rng.bits() & 0xFE,
    };
    recording::lines(lines)
}

/// Any trap.
fn any_trap(rng: &mut Rng) -> Vec<u8> {
    let trap = trap(rng, Xlen::X64);
    recording::trap(trap.cause, trap.tval, trap.htval, trap.htinst, trap.gva)
}

/// The guest's registers, an hstatus that leads into the guest, and SRET.
fn enter_guest(rng: &mut Rng, recorder: &mut Recorder) {
    let x = hart(rng, Xlen::X64).x.to_vec();
    let value = word(rng, Xlen::X64) | SPV;
    let number = Csr::Hstatus.number();
    for request in [Request::FillContext(x), Request::WriteCsr { number, value }] {
        let _ = recorder.perform(&request);
    }
    add_unless_lost(rng, recorder, [EID, SYNC_SRET, 0, 0, 0]);
}

/// A trap, sometimes with a new swap word and the autoswap flag right before it: the word that SRET
/// leaves is a reading, of which no bit is dropped.
fn leave_guest(rng: &mut Rng, recorder: &mut Recorder) {
    if rng.one_in(4) {
        recorder.add(&recording::write(0x200, &[1]));
        recorder.add(&recording::write(0x208, &word(rng, Xlen::X64).to_le_bytes()));
    }
    recorder.add(&any_trap(rng));
}

/// A register or fence call, mostly for all of them or for one that waits.
fn add_sync(rng: &mut Rng, recorder: &mut Recorder) {
    let fid = rng.pick(&[SYNC_CSR, SYNC_FENCE, SYNC_FENCE]);
    let pending = pending_entries(recorder);
    let a0 = match rng.below(3) {
        0 => ALL,
        1 if fid == SYNC_FENCE && !pending.is_empty() => rng.pick(&pending).0,
        _ => sync_argument(rng, Xlen::X64, fid),
    };
    recorder.add(&recording::call(EID, fid, a0, 0, 0));
}

/// Any call; few of those that set the page, since they take what waits in it.
fn add_call(rng: &mut Rng, recorder: &mut Recorder) {
    let call = super::call(rng, recorder.state());
    let [a0, a1, a2] = call.args;
    let numbers = match call.fid {
        SET if rng.one_in(6) => [EID, SET, ALL, ALL, 0],
        SET if a2 == 0 && a1 == 0 && a0 == BASE && !rng.one_in(3) => return,
        _ => [call.eid, call.fid, a0, a1, a2],
    };
    add_unless_lost(rng, recorder, numbers);
}

/// Records a call; mostly not if it leaves the hart in mode U with V off, where nothing but lines
/// and memory changes any more.
fn add_unless_lost(rng: &mut Rng, recorder: &mut Recorder, numbers: [u64; 5]) {
    let [eid, fid, a0, a1, a2] = numbers;
    let mut after = recorder.state().clone();
    let is_resumed = calls::call(&mut after, eid, fid, [a0, a1, a2]).resumed;
    let is_lost = is_resumed && !after.hart.virt && after.hart.mode == Mode::U;
    if !is_lost || rng.one_in(10) {
        recorder.add(&recording::call(eid, fid, a0, a1, a2));
    }
}

/// Places where so many bytes are cut, ascending: none, few, many, all, or twice in one place.
pub fn cuts(rng: &mut Rng, length: usize) -> Vec<usize> {
    let bound = length as u64 + 1;
    let count = match rng.below(8) {
        0 => 0,
        1 => return (0..=length).collect(),
        2 => rng.below(bound),
        _ => 1 + rng.below(12),
    };
    let mut cuts: Vec<usize> = (0..count).map(|_| rng.below(bound) as usize).collect();
    cuts.sort_unstable();
    cuts
}

/// The parts into which the cuts, ascending, divide the bytes; some may be empty.
pub fn parts<'a>(bytes: &'a [u8], cuts: &[usize]) -> Vec<&'a [u8]> {
    let firsts = [0].into_iter().chain(cuts.iter().copied());
    let ends = cuts.iter().copied().chain([bytes.len()]);
    firsts.zip(ends).map(|(first, end)| &bytes[first..end]).collect()
}
