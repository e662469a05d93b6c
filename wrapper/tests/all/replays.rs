//! Replay: the lines and the effect of every kind of record, and the parts in which they arrive.

use nathiroeng::{csr, fid, list, Hart, Replay, Xlen, ALL, EID, LIST_BYTES};

use crate::common::*;
use crate::records::{self, any_call, call, header, lines, slot, trap, write};
use crate::records::{LOST_LISTING, LOST_PAGE, SAMPLES};

/// Feeds a replay with a part; gives the lines.
fn feed(replay: &mut Replay, part: &[u8]) -> String {
    let mut text = Vec::new();
    replay.feed(part, |lines| {
        assert!(lines.ends_with(b"\n"), "a line that is not whole");
        text.extend_from_slice(lines);
    });
    String::from_utf8(text).unwrap()
}

/// Tells a replay the end; gives the line.
fn finish(replay: &Replay) -> String {
    let mut text = Vec::new();
    replay.finish(|line| text.extend_from_slice(line));
    String::from_utf8(text).unwrap()
}

/// A replay of these parts, and its lines with the last one.
fn replayed<'a>(parts: impl IntoIterator<Item = &'a [u8]>) -> (Replay, String) {
    let mut replay = Replay::new();
    let mut text: String = parts.into_iter().map(|part| feed(&mut replay, part)).collect();
    text += &finish(&replay);
    (replay, text)
}

/// Asserts that two replays have come to the same place.
fn assert_same(one: &Replay, other: &Replay) {
    assert_eq!((one.records(), one.is_bad()), (other.records(), other.is_bad()));
    assert_eq!((one.rest(), one.hart()), (other.rest(), other.hart()));
    assert!(one.memory() == other.memory() && one.table() == other.table());
}

/// Asserts that the records print this.
fn assert_prints(records: &[Vec<u8>], expected: &str) -> Replay {
    let (replay, text) = replayed([&records.concat()[..]]);
    assert_eq!(text, expected);
    replay
}

/// The call that sets the page.
fn set() -> Vec<u8> {
    call(fid::SET_SHMEM, BASE)
}

/// The beginning: a fresh hart with all features, zeros, and nothing to tell.
#[test]
fn start() {
    for replay in [Replay::new(), Replay::default()] {
        assert_eq!(replay.hart(), Hart::fresh(Xlen::X64, 15));
        assert!(replay.memory() == [0; 12_288] && replay.table() == [0; 256]);
        assert_eq!((replay.records(), replay.rest(), replay.is_bad()), (0, &[][..], false));
        assert_eq!(finish(&replay), "");
    }
}

/// The samples, in parts of each size, in two parts cut at each place, and with empty parts between.
#[test]
fn samples() {
    for (bytes, expected) in SAMPLES {
        let (whole, text) = replayed([bytes]);
        assert_eq!(text, expected);
        for size in (1..20).chain([40, 45, 46, 47, 100, 1000]) {
            let (replay, text) = replayed(bytes.chunks(size));
            assert_eq!(text, expected, "in parts of {size}");
            assert_same(&replay, &whole);
        }
        for cut in 0..=bytes.len() {
            let (first, second) = bytes.split_at(cut);
            let (replay, text) = replayed([first, &[], second, &[]]);
            assert_eq!(text, expected, "cut at {cut}");
            assert_same(&replay, &whole);
        }
    }
}

/// The lost ticket: which fence is still pending is seen in the page at the end.
#[test]
fn lost_ticket() {
    let (replay, _) = replayed([SAMPLES[1].0]);
    assert!(replay.memory() == LOST_PAGE);
    let mut out = vec![0; LIST_BYTES];
    let length = list(replay.memory(), &mut out);
    assert_eq!(String::from_utf8_lossy(&out[..length]), LOST_LISTING);
    let used: Vec<usize> = (0..64).filter(|slot| replay.table()[4 * slot] >> 63 == 1).collect();
    assert_eq!(used, [1]);
}

/// The codes of calls, and the steps of register calls: the papers' `2 1 0 3 0` among them.
#[test]
fn calls() {
    let records = [
        set(),
        call(fid::SYNC_CSR, csr::HVIP),
        call(fid::SYNC_CSR, csr::HSTATUS),
        call(fid::SYNC_CSR, ALL),
        call(fid::SYNC_CSR, 0x344),
        call(fid::SYNC_HFENCE, 60),
        call(fid::PROBE_FEATURE, 3),
        call(5, 0),
        any_call(EID + 1, 0, [0; 3]),
        any_call(EID, fid::SET_SHMEM, [BASE + 4096, 0, 0]),
        any_call(EID, fid::SET_SHMEM, [ALL, ALL, 0]),
        call(fid::SYNC_SRET, 0),
    ];
    let text = "1 1 0 0 0\n2 1 0 3 0\n3 1 0 3 0\n4 1 0 36 0\n5 1 -3 0 0\n6 1 -3 0 0\n7 1 0 0 0\n\
        8 1 -2 0 0\n9 1 -2 0 0\n10 1 -5 0 0\n11 1 0 0 0\n12 1 -9 0 0\n";
    let replay = assert_prints(&records, text);
    assert_eq!((replay.records(), replay.hart().page()), (12, None));
}

/// Writes: up to memory's end, over it by one, and with offsets whose sum is past all numbers.
#[test]
fn writes() {
    let full: Vec<u8> = (0..4096).map(|place| place as u8 | 1).collect();
    let records = [
        write(0, &[7]),
        write(12_287, &[8]),
        write(12_288, &[9]),
        write(12_287, &[9, 9]),
        write(8_192, &full),
        write(8_193, &[9; 4096]),
        write(ALL, &[9]),
        write(ALL - 4095, &[9; 4096]),
        write(1 << 32, &[9]),
        write(BASE, &[9]),
    ];
    let codes = [0, 0, -5, -5, 0, -5, -5, -5, -5, -5];
    let text: String = (1..).zip(codes).map(|(n, code)| format!("{n} 2 {code} 0 0\n")).collect();
    let replay = assert_prints(&records, &text);
    let mut expected = [&[0; 8192][..], &full].concat();
    expected[0] = 7;
    assert!(replay.memory() == expected);
    assert_eq!(replay.hart(), Hart::fresh(Xlen::X64, 15));
}

/// Slots are stored as they are given, used or not; an index past them is refused.
#[test]
fn slots() {
    let indices = [0, 63, 64, 65, 1 << 32, 1 << 59, 1 << 62, ALL];
    let records: Vec<Vec<u8>> =
        indices.iter().map(|&index| slot(index, [!index, 2, 3, ALL])).collect();
    let text: String = (1..)
        .zip(indices)
        .map(|(n, i)| format!("{n} 4 {} 0 0\n", if i < 64 { 0 } else { -5 }))
        .collect();
    let replay = assert_prints(&records, &text);
    let mut expected = [0; 256];
    expected[..4].copy_from_slice(&[ALL, 2, 3, ALL]);
    expected[252..].copy_from_slice(&[!63, 2, 3, ALL]);
    assert!(replay.table() == expected);
}

/// Fences: the slots that FID 3 removes, with its steps, and those that SRET does, without.
#[test]
fn fences() {
    let mut page = page(Xlen::X64);
    let used = |vmid: u64| [1 << 63 | vmid << 16, 0, 16, 0];
    for (entry, vmid) in [(0, 5), (1, 6), (2, 7)] {
        fence(Xlen::X64, &mut page, entry, [1 << 63 | 3 << 56 | vmid << 16, 0, 0]);
    }
    let placed = [5, 5, 6, 7, 7, 7, 8].into_iter().zip(0..).map(|(vmid, i)| slot(i, used(vmid)));
    let mut records = vec![set()];
    records.extend(placed);
    records.push(write(0x800, &page[0x800..0x880]));
    let calls = [(fid::SYNC_HFENCE, 0), (fid::SYNC_HFENCE, 0), (fid::SYNC_HFENCE, ALL)];
    records.extend(calls.map(|(fid, a0)| call(fid, a0)));
    // Entry 2 again, for SRET.
    records.extend([slot(9, used(7)), write(0x840, &page[0x840..0x860]), call(fid::SYNC_SRET, 0)]);
    let (replay, text) = replayed([&records.concat()[..]]);
    let told: Vec<&str> = text.lines().skip(9).collect();
    let expected =
        ["10 1 0 3 2", "11 1 0 0 0", "12 1 0 6 4", "13 4 0 0 0", "14 2 0 0 0", "15 1 0 0 1"];
    assert_eq!(told, expected);
    assert_eq!(replay.table().chunks(4).filter(|slot| slot[0] >> 63 == 1).count(), 1);
}

/// Line changes, and the trap back, of whose last word bit 0 counts.
#[test]
fn lines_and_traps() {
    let mut records = vec![lines(0xFE), lines(0x01), lines(0x100), trap([8, 0, 0, 0], 1), set()];
    // hstatus with SPV: its word, its dirty bit, and SRET into the guest.
    let place = index(csr::HSTATUS as usize);
    records.push(write(0x1000 + 8 * place as u64, &[1 << 7]));
    records.extend([write(0xF80 + place as u64 / 8, &[1]), call(fid::SYNC_SRET, 0)]);
    records.extend([call(fid::PROBE_FEATURE, 0), trap([21, 0x5008, 0x1402, 0x3003], ALL)]);
    let text = "1 3 0 0 0\n2 3 -3 0 0\n3 3 -3 0 0\n4 5 -2 0 0\n5 1 0 0 0\n6 2 0 0 0\n7 2 0 0 0\n\
        8 1 0 0 0\n9 1 -2 0 0\n10 5 0 0 0\n";
    let hart = assert_prints(&records, text).hart();
    assert_eq!((hart.lines(), hart.virt(), hart.scause(), hart.stval()), (0xFE, false, 21, 0x5008));
    assert_eq!((hart.htval(), hart.htinst(), hart.hstatus() >> 6 & 1), (0x1402, 0x3003, 1));
    *records.last_mut().unwrap() = trap([21, 0, 0, 0], ALL - 1);
    assert_eq!(assert_prints(&records, text).hart().hstatus() >> 6 & 1, 0);
}

/// The stores of a hypervisor that writes a register: its word, then its dirty bit.
fn written(csr: u64, word: u64) -> [Vec<u8>; 2] {
    let place = index(csr as usize) as u64;
    let store = write(0x1000 + 8 * place, &word.to_le_bytes());
    [store, write(0xF80 + place / 8, &[1 << (place % 8)])]
}

/// Dropped bits: the papers' `680 9000000000000003` of a register call, those of SRET in the order of
/// its writes, the swap's last, and that of a trap's swap. A refusal and a word that is taken whole
/// tell none, and the record has counted them.
#[test]
fn dropped() {
    let mut records = vec![set()];
    records.extend(written(csr::HGATP, 0x9000_0000_0000_0007));
    records.extend([csr::HGATP + 1, csr::HGATP, ALL].map(|number| call(fid::SYNC_CSR, number)));
    records.extend(written(csr::VSEPC, 0x8001));
    records.extend(written(csr::HVIP, 0xFFFF));
    // The flag, and a swap word with SPV, VSXL 2 and a bit that reads 0.
    records.extend([write(0x200, &[1]), write(0x208, &0x2_0000_0081u64.to_le_bytes())]);
    records.push(call(fid::SYNC_SRET, 0));
    // The trap swaps back what SRET has left; then a word with VSXL 0.
    records.extend([trap([8, 0, 0, 0], 0), call(fid::SYNC_SRET, 0)]);
    records.extend([write(0x208, &[0x80, 0, 0, 0, 0]), trap([8, 0, 0, 0], 0)]);
    let (replay, text) = replayed([&records.concat()[..]]);
    let told: Vec<&str> = text.lines().filter(|line| line.split(' ').nth(1) != Some("2")).collect();
    let expected = [
        "1 1 0 0 0",
        "4 1 -3 0 0",
        "5 1 0 3 0 680 9000000000000003",
        "6 1 0 36 0",
        "13 1 0 0 0 645 000000000000fbbb 241 0000000000000001 600 0000000000000001",
        "14 5 0 0 0",
        "15 1 0 0 0",
        "17 5 0 0 0 600 0000000200000000",
    ];
    assert_eq!(told, expected);
    assert_eq!((replay.hart().dropped(), replay.hart().hgatp()), (5, 4));
}

/// A header is judged by its six bytes: good ones wait for their body, others end the replay.
#[test]
fn headers() {
    let is_good = |length: u32, kind: u16| match kind {
        1 | 4 | 5 => length == 40,
        2 => (9..=4104).contains(&length),
        3 => length == 8,
        _ => false,
    };
    let lengths = [0, 7, 8, 9, 39, 40, 41, 4103, 4104, 4105, 1 << 16 | 40, 1 << 24 | 8, u32::MAX];
    let kinds = [0, 1, 2, 3, 4, 5, 6, 0x0100, 0x0101, 0x0300, u16::MAX];
    for (length, kind) in lengths.into_iter().flat_map(|length| kinds.map(|kind| (length, kind))) {
        let (replay, text) = replayed([&lines(2)[..], &header(length, kind)]);
        let is_good = is_good(length, kind);
        assert_eq!(text, format!("1 3 0 0 0\n2 {}\n", if is_good { "cut" } else { "bad" }));
        assert_eq!((replay.records(), replay.is_bad()), (1, !is_good));
        assert_eq!(replay.rest().len(), if is_good { 6 } else { 0 });
    }
}

/// After a bad header nothing is read, in the same part or in another, and the end says nothing.
#[test]
fn after_bad() {
    let before = replayed([&set()[..], &lines(2)]).0;
    let after = [lines(4), write(0, &[1]), call(fid::SYNC_CSR, ALL)].concat();
    let bytes = [set(), lines(2), header(7, 3), after.clone()].concat();
    for size in [1, 3, 46, bytes.len()] {
        let (mut replay, text) = replayed(bytes.chunks(size));
        assert_eq!(text, "1 1 0 0 0\n2 3 0 0 0\n3 bad\n");
        assert_eq!(feed(&mut replay, &after) + &finish(&replay), "");
        assert!(replay.is_bad() && replay.records() == 2 && replay.rest().is_empty());
        assert_eq!(replay.hart(), before.hart());
        assert!(replay.memory() == before.memory() && replay.table() == before.table());
    }
}

/// A record that lacks bytes is cut, wherever it ends, and is not applied. The end changes nothing:
/// with the other bytes the record goes on.
#[test]
fn cut_records() {
    let before = replayed([&set()[..]]).0;
    let records = [
        call(fid::SYNC_CSR, ALL),
        write(0, &[1; 300]),
        lines(2),
        slot(0, [1 << 63, 0, 0, 0]),
        trap([0; 4], 0),
    ];
    for record in records {
        for length in 1..record.len() {
            let (mut replay, text) = replayed([&set()[..], &record[..length]]);
            assert_eq!(text, "1 1 0 0 0\n2 cut\n");
            assert_eq!((finish(&replay), replay.rest()), ("2 cut\n".into(), &record[..length]));
            assert_eq!((replay.records(), replay.hart()), (1, before.hart()));
            assert!(replay.memory() == before.memory() && replay.table() == before.table());
            let (whole, text) = replayed([&set()[..], &record]);
            assert_eq!("1 1 0 0 0\n".to_string() + &feed(&mut replay, &record[length..]), text);
            assert_same(&replay, &whole);
        }
    }
}

/// Many lines of one part come whole and in order, however often they are handed out.
#[test]
fn many_lines() {
    let records: Vec<Vec<u8>> = (0..2000).map(|number| lines(number % 3)).collect();
    let code = |number: u64| if number % 3 == 1 { -3 } else { 0 };
    let text: String = (0..2000).map(|n| format!("{} 3 {} 0 0\n", n + 1, code(n))).collect();
    assert_eq!(assert_prints(&records, &text).records(), 2000);
    let longest: Vec<Vec<u8>> = (0..50).map(|place| write(place, &[9; 4096])).collect();
    let text: String = (1..51).map(|number| format!("{number} 2 0 0 0\n")).collect();
    assert_prints(&longest, &text);
}

/// A copy goes its own way.
#[test]
fn copies() {
    let bytes = records::SAMPLES[0].0;
    let (first, second) = bytes.split_at(701);
    let (mut replay, begin) = replayed([first]);
    let copy = replay.clone();
    let text = feed(&mut replay, second);
    assert_eq!(begin.lines().count(), copy.records() as usize + 1);
    assert!(SAMPLES[0].1.ends_with(&text) && replay.records() == 36);
    assert_same(&copy, &replayed([first]).0);
}
