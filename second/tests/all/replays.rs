//! Replay by hand: every kind of record, its line, and the state that it leaves.

use second::calls::{ALL, EID};
use second::csr::Csr;
use second::hart::{Hart, Mode};
use second::recording::{call, lines, slot, trap, write};
use second::replay::{self, Replay};
use second::state::State;

use crate::common::{csr_word, get_entry, pending, used, BASE};

/// The lines of a recording, which must be the same in one part, byte by byte and as a whole.
pub fn told(bytes: &[u8]) -> String {
    let (whole, state) = replay::replayed_state(bytes);
    for size in [1, bytes.len().max(1)] {
        let (mut replay, mut out) = (Replay::new(), Vec::new());
        bytes.chunks(size).for_each(|part| replay.feed(part, &mut out));
        replay.finish(&mut out);
        assert_eq!(String::from_utf8_lossy(&out), String::from_utf8_lossy(&whole));
        assert!(*replay.state() == state);
    }
    String::from_utf8(whole).unwrap()
}

/// The line of the last of these records, without its number; and the state that they leave.
fn last(records: &[Vec<u8>]) -> (String, State) {
    let bytes = records.concat();
    let text = told(&bytes);
    let line = text.lines().last().unwrap();
    let number = format!("{} ", records.len());
    let told = line.strip_prefix(&number).unwrap().to_string();
    (told, replay::replayed_state(&bytes).1)
}

/// The record that sets the page.
pub fn set() -> Vec<u8> {
    call(EID, 1, BASE, 0, 0)
}

/// A call of the extension with one argument.
pub fn nacl(fid: u64, a0: u64) -> Vec<u8> {
    call(EID, fid, a0, 0, 0)
}

/// A write of words.
fn write_words(offset: u64, words: &[u64]) -> Vec<u8> {
    write(offset, &words.iter().flat_map(|word| word.to_le_bytes()).collect::<Vec<u8>>())
}

/// A pending entry of type 1, which names every used slot, at this place among the entries.
fn fence_all(number: u64) -> Vec<u8> {
    write_words(0x800 + 32 * number, &[0x8100_0000_0000_0000, 0, 0, 0])
}

/// The records that lead into the guest: hstatus is written with SPV, and marked, before SRET.
fn guest() -> [Vec<u8>; 4] {
    [set(), write_words(0x1800, &[0x80]), write(0xFA0, &[1]), nacl(4, 0)]
}

/// The line of the paper, from bytes written out: set, and a clean hvip that is synchronized, which
/// is stored, then hip, then vsip.
#[test]
fn line_of_the_paper() {
    let eid = [0x4C, 0x43, 0x41, 0x4E, 0, 0, 0, 0];
    let head = [40, 0, 0, 0, 1, 0];
    let mut bytes = [&head[..], &eid, &[1, 0, 0, 0, 0, 0, 0, 0]].concat();
    bytes.extend([0, 0, 0, 0x80, 0, 0, 0, 0]);
    bytes.extend([0; 16]);
    bytes.extend([&head[..], &eid, &[2, 0, 0, 0, 0, 0, 0, 0]].concat());
    bytes.extend([0x45, 6, 0, 0, 0, 0, 0, 0]);
    bytes.extend([0; 16]);
    assert_eq!(told(&bytes), "1 1 0 0 0\n2 1 0 3 0\n");
    assert_eq!(bytes, [set(), nacl(2, 0x645)].concat());
}

/// The bytes of each kind, written out.
#[test]
fn bytes_of_each_kind() {
    assert_eq!(write(0x0102, b"abc"), b"\x0B\0\0\0\x02\0\x02\x01\0\0\0\0\0\0abc");
    assert_eq!(lines(0xFE), b"\x08\0\0\0\x03\0\xFE\0\0\0\0\0\0\0");
    let mut placed = b"\x28\0\0\0\x04\0\x07\0\0\0\0\0\0\0".to_vec();
    placed
        .extend([[0; 7], [1; 7], [2; 7], [3; 7]].map(|low| [&low[..], &[0x80]].concat()).concat());
    let words = [0, 0x01_0101_0101_0101, 0x02_0202_0202_0202, 0x03_0303_0303_0303];
    assert_eq!(slot(7, words.map(|word| word | 1 << 63)), placed);
    let trapped = trap(1, 2, 3, 4, 5);
    assert_eq!(trapped[..6], *b"\x28\0\0\0\x05\0");
    let low: Vec<u8> = trapped[6..].iter().copied().step_by(8).collect();
    assert_eq!((trapped.len(), low), (46, vec![1, 2, 3, 4, 5]));
}

/// Nothing recorded prints nothing, and leaves what a replay begins with.
#[test]
fn nothing_recorded() {
    assert_eq!(told(&[]), "");
    let mut replay = Replay::new();
    let mut out = Vec::new();
    replay.feed(&[], &mut out);
    replay.finish(&mut out);
    assert!(out.is_empty() && replay.rest().is_empty() && !replay.is_bad());
    let state = replay.state();
    assert_eq!(state.hart, Hart::fresh(15));
    assert_eq!((state.memory.base, &state.memory.bytes), (0x8000_0000, &vec![0; 12_288]));
    assert_eq!((replay.finished(), &state.table), (0, &vec![0; 256]));
}

/// A memory write changes its bytes and nothing else, with a page or without, also in the guest.
#[test]
fn memory_writes() {
    for before in [Vec::new(), vec![set()], guest().to_vec()] {
        let mut records = before;
        let mut expected = replay::replayed_state(&records.concat()).1;
        records.push(write(0x240, &[1, 2, 3]));
        expected.memory.bytes[0x240..0x243].copy_from_slice(&[1, 2, 3]);
        assert_eq!(last(&records), ("2 0 0 0".to_string(), expected));
    }
}

/// A write that ends past the end makes no byte; the sum does not wrap.
#[test]
fn writes_at_the_end() {
    for (offset, length, code) in [
        (12_287, 1, 0),
        (12_288, 1, -5),
        (12_286, 2, 0),
        (12_287, 2, -5),
        (8192, 4096, 0),
        (8193, 4096, -5),
        (0, 4096, 0),
        (u64::MAX, 1, -5),
        (u64::MAX - 3, 4, -5),
        (u64::MAX - 3, 8, -5),
        (1 << 63, 1, -5),
        (1 << 32, 1, -5),
        (BASE, 1, -5),
    ] {
        let bytes = vec![0xAB; length];
        let (line, state) = last(&[lines(2), lines(4), write(offset, &bytes)]);
        assert_eq!(line, format!("2 {code} 0 0"));
        let written = state.memory.bytes.iter().filter(|&&byte| byte == 0xAB).count();
        assert_eq!(written, if code == 0 { length } else { 0 });
    }
    let refused = [set(), lines(0), write(12_288, &[0])].concat();
    assert_eq!(told(&refused), "1 1 0 0 0\n2 3 0 0 0\n3 2 -5 0 0\n");
}

/// A line change, also in the guest; a bit outside 7 to 1 changes nothing.
#[test]
fn line_changes() {
    for before in [vec![set()], guest().to_vec()] {
        for (given, code) in [(0xFE, 0), (0, 0), (1, -3), (0x100, -3), (0xFE | 1 << 63, -3)] {
            let (line, state) = last(&[before.clone(), vec![lines(8), lines(given)]].concat());
            assert_eq!(line, format!("3 {code} 0 0"));
            let up = if code == 0 { given } else { 8 };
            assert_eq!((state.hart.lines, csr_word(&state, Csr::Hgeip)), (up, up));
        }
    }
}

/// Slots are placed as given, used or not; an index past the slots changes nothing.
#[test]
fn slots_placed() {
    for (index, code) in
        [(0, 0), (63, 0), (64, -5), (1 << 59, -5), (1 << 62, -5), (1 << 63, -5), (u64::MAX, -5)]
    {
        for head in [1 << 63, 5, u64::MAX] {
            let (line, state) = last(&[slot(index, [head, 1, 2, 3])]);
            assert_eq!(line, format!("4 {code} 0 0"));
            let mut expected = replay::start();
            if code == 0 {
                expected.table[4 * index as usize..][..4].copy_from_slice(&[head, 1, 2, 3]);
            }
            assert_eq!(state, expected);
        }
    }
}

/// A used slot that another takes the place of, also one that is not used, is not counted.
#[test]
fn slots_overwritten() {
    let used = [1 << 63, 1, 1, 1];
    let records = [slot(3, used), slot(3, used), slot(3, [0; 4]), slot(3, used)].concat();
    assert_eq!(told(&records), "1 4 0 0 0\n2 4 0 0 0\n3 4 0 0 0\n4 4 0 0 0\n");
}

/// The trap back: its words go where they belong; of the last one only bit 0 counts.
#[test]
fn traps() {
    for word in [0, 1, 2, 3, u64::MAX, u64::MAX - 1] {
        let trapped = trap(21, 0x77, 0x1D, 0x3020, word);
        let (line, state) = last(&[&guest()[..], std::slice::from_ref(&trapped)].concat());
        assert_eq!(line, "5 0 0 0");
        let hart = &state.hart;
        assert_eq!((hart.virt, hart.mode, hart.scause, hart.stval), (false, Mode::S, 21, 0x77));
        assert_eq!((hart.htval, hart.htinst), (0x1D, 0x3020));
        assert_eq!(hart.hstatus, 0x2_0000_0080 | (word & 1) << 6);
        let again = [&guest()[..], &[trapped.clone(), trapped.clone()]].concat();
        assert_eq!(last(&again), ("5 -2 0 0".to_string(), state));
        assert_eq!(last(&[trapped]), ("5 -2 0 0".to_string(), replay::start()));
    }
}

/// Every code of a call: other numbers, no page, a bad parameter, a bad address, the guest.
#[test]
fn codes_of_calls() {
    let rows = [
        (vec![call(EID | 1 << 32, 2, ALL, 0, 0)], -2),
        (vec![call(0, 3, ALL, 0, 0)], -2),
        (vec![nacl(5, 0)], -2),
        (vec![nacl(2, ALL)], -9),
        (vec![nacl(3, 0)], -9),
        (vec![nacl(4, 0)], -9),
        (vec![set(), nacl(2, 0x344)], -3),
        (vec![set(), fence_all(3), nacl(3, 60)], -3),
        (vec![call(EID, 1, BASE, 0, 1)], -3),
        (vec![call(EID, 1, BASE, 1, 0)], -5),
        (vec![call(EID, 1, BASE + 4096, 0, 0)], -5),
        (vec![set(), call(EID, 1, ALL, ALL, 0), nacl(2, ALL)], -9),
        (vec![nacl(0, 3)], 0),
        (vec![set(), fence_all(0), nacl(3, 59)], 0),
    ];
    for (records, code) in rows {
        let text = told(&records.concat());
        assert!(text.ends_with(&format!(" 1 {code} 0 0\n")), "{text}");
    }
    for fid in 0..6 {
        let (line, _) = last(&[&guest()[..], &[fence_all(0), nacl(fid, ALL)]].concat());
        assert_eq!(line, "1 -2 0 0");
    }
}

/// Steps and slots removed: three used slots of which an entry names two, and one that names all.
#[test]
fn fences_carried_out() {
    let fence = pending(2, 0, 5, 0, 16, 1);
    let placed = [(0, 16), (1, 16), (2, 17)]
        .map(|(index, page)| slot(index, [1 << 63 | 5 << 16, 40, page, 0]));
    let queued = write_words(0x840, &[fence.config, 16, 0, 1]);
    let before = [&[set()][..], &placed, &[queued, fence_all(59)]].concat();
    for (calls, lines) in [
        (vec![(3, 2), (3, 2), (3, 59)], ["1 0 3 2", "1 0 0 0", "1 0 2 1"]),
        (vec![(3, ALL), (3, 2), (3, 59)], ["1 0 5 3", "1 0 0 0", "1 0 0 0"]),
        (vec![(3, 0), (3, 60), (3, ALL)], ["1 0 0 0", "1 -3 0 0", "1 0 5 3"]),
        (vec![(3, 59), (2, 0x643), (3, ALL)], ["1 0 4 3", "1 0 1 0", "1 0 1 0"]),
    ] {
        let mut records = before.clone();
        for ((fid, a0), line) in calls.into_iter().zip(lines) {
            records.push(nacl(fid, a0));
            assert_eq!(last(&records).0, line);
        }
        let state = last(&records).1;
        assert!(!used(&state).contains(&true));
        assert!(!get_entry(&state, 2).is_pending() && !get_entry(&state, 59).is_pending());
    }
}

/// SRET makes no steps but counts the slots that its fences remove; its registers come from the
/// context. hstatus was written without VSXL.
#[test]
fn sret() {
    let placed = [0, 63].map(|index| slot(index, [1 << 63, 1, 1, 1]));
    let context = write_words(0, &(0..32).map(|i| 100 + i).collect::<Vec<u64>>());
    let rest = [fence_all(0), fence_all(1), context, nacl(4, 0)];
    let [set, word, mark, _] = guest();
    let (line, state) = last(&[&[set, word, mark][..], &placed, &rest].concat());
    assert_eq!(line, "1 0 0 2 600 0000000200000000");
    assert!(state.hart.virt && !used(&state).contains(&true));
    assert_eq!((state.hart.x[0], state.hart.x[1], state.hart.x[31]), (0, 101, 131));
}

/// Set blanks what was written before it, so that such marks are lost.
#[test]
fn set_after_writes() {
    let placed = slot(0, [1 << 63, 0, 0, 0]);
    let text = told(&[placed.clone(), fence_all(0), set(), nacl(3, ALL)].concat());
    assert_eq!(text, "1 4 0 0 0\n2 2 0 0 0\n3 1 0 0 0\n4 1 0 0 0\n");
    let text = told(&[placed, set(), fence_all(0), nacl(3, ALL)].concat());
    assert_eq!(text, "1 4 0 0 0\n2 1 0 0 0\n3 2 0 0 0\n4 1 0 2 1\n");
}

/// Numbers of more than one digit: the most steps that a fence call can have here, and numbers of
/// records up to 1,000 and above.
#[test]
fn long_numbers() {
    let mut bytes = set();
    (0..64).for_each(|index| bytes.extend(slot(index, [1 << 63, 0, 0, 0])));
    (0..60).for_each(|number| bytes.extend(fence_all(number)));
    bytes.extend(nacl(3, ALL));
    (0..900).for_each(|_| bytes.extend(nacl(2, ALL)));
    let text = told(&bytes);
    let lines: Vec<&str> = text.lines().collect();
    assert_eq!((lines[9], lines[99]), ("10 4 0 0 0", "100 2 0 0 0"));
    assert_eq!((lines[125], lines[999]), ("126 1 0 124 64", "1000 1 0 36 0"));
    assert_eq!(lines.len(), 1026);
}
