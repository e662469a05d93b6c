//! Random recordings: in parts as in one piece, as direct calls, and of every kind.

use std::collections::BTreeMap;

use second::calls;
use second::dropped::Report;
use second::gen::{self, recordings, Call};
use second::lines;
use second::recording;
use second::replay::{self, Replay};
use second::rng::Rng;
use second::state::State;
use second::steps;
use second::trap::{self, Trap};
use second::xlen::Xlen;

use crate::common::used;
use crate::replays::told;

/// Where the whole records of any recording begin, and where the last of them ends; then whether
/// what follows is bad.
fn whole_records(bytes: &[u8]) -> (Vec<usize>, bool) {
    let mut places = vec![0];
    loop {
        let rest = &bytes[places[places.len() - 1]..];
        let Some([l0, l1, l2, l3, k0, k1]) = rest.first_chunk::<6>() else {
            return (places, false);
        };
        let length = u32::from_le_bytes([*l0, *l1, *l2, *l3]) as usize;
        let is_good = match u16::from_le_bytes([*k0, *k1]) {
            1 | 4 | 5 => length == 40,
            2 => (9..=4104).contains(&length),
            3 => length == 8,
            _ => false,
        };
        if !is_good || rest.len() < 6 + length {
            return (places, !is_good);
        }
        places.push(places[places.len() - 1] + 6 + length);
    }
}

/// Asserts that a replay shows what the bytes so far lead to.
fn assert_follows(replay: &Replay, bytes: &[u8]) {
    let (places, is_bad) = whole_records(bytes);
    let end = places[places.len() - 1];
    assert_eq!((replay.finished(), replay.is_bad()), (places.len() as u64 - 1, is_bad));
    assert_eq!(replay.rest(), if is_bad { &[] } else { &bytes[end..] });
    assert!(*replay.state() == replay::replayed_state(bytes).1);
}

/// Asserts that the parts print what the whole prints, and lead where it leads.
fn assert_same(bytes: &[u8], cuts: &[usize]) {
    let (mut replay, mut out) = (Replay::new(), Vec::new());
    for part in recordings::parts(bytes, cuts) {
        replay.feed(part, &mut out);
    }
    assert_follows(&replay, bytes);
    replay.finish(&mut out);
    assert!(out == replay::replayed(bytes), "cut at {cuts:?}");
}

/// Any recording, good or damaged.
fn any_recording(rng: &mut Rng) -> Vec<u8> {
    if rng.one_in(2) {
        recordings::recording(rng)
    } else {
        recordings::damaged(rng)
    }
}

/// Parts cut at random.
#[test]
fn random_parts() {
    let mut rng = Rng::new(60);
    for _ in 0..2000 {
        let bytes = any_recording(&mut rng);
        for _ in 0..3 {
            let cuts = recordings::cuts(&mut rng, bytes.len());
            assert_same(&bytes, &cuts);
        }
    }
}

/// Two parts, cut at each place, and three, cut at each pair of near places.
#[test]
fn every_cut() {
    let mut rng = Rng::new(61);
    let mut seen = 0;
    while seen < 60 {
        let bytes = any_recording(&mut rng);
        if bytes.is_empty() || bytes.len() > 1500 {
            continue;
        }
        seen += 1;
        for cut in 0..=bytes.len() {
            let later = (cut + rng.below(9) as usize).min(bytes.len());
            assert_same(&bytes, &[cut]);
            assert_same(&bytes, &[cut, later]);
        }
    }
}

/// What was printed and where it has led are told by the bytes so far: after each byte.
#[test]
fn every_prefix() {
    let mut rng = Rng::new(62);
    for _ in 0..40 {
        let bytes = any_recording(&mut rng);
        let bytes = &bytes[..bytes.len().min(3000)];
        let (mut replay, mut out) = (Replay::new(), Vec::new());
        for end in 1..=bytes.len() {
            replay.feed(&bytes[end - 1..end], &mut out);
            assert_follows(&replay, &bytes[..end]);
            let (mut copy, mut text) = (replay.clone(), out.clone());
            copy.finish(&mut text);
            assert!(text == replay::replayed(&bytes[..end]));
        }
    }
}

/// A record of any kind, which is carried out by direct calls: its bytes, and its kind, code, steps
/// and reports.
fn direct(rng: &mut Rng, state: &mut State) -> (Vec<u8>, u64, i64, u64, Vec<Report>) {
    match rng.below(8) {
        0 => {
            let bytes = vec![rng.bits() as u8; 1 + rng.below(300) as usize];
            let offset = rng.below(12_288);
            let fits = offset as usize + bytes.len() <= 12_288;
            if fits {
                state.memory.bytes[offset as usize..][..bytes.len()].copy_from_slice(&bytes);
            }
            (recording::write(offset, &bytes), 2, if fits { 0 } else { -5 }, 0, Vec::new())
        }
        1 => {
            let lines = gen::word(rng, Xlen::X64) & if rng.one_in(2) { 0xFE } else { u64::MAX };
            (recording::lines(lines), 3, lines::change(state, lines).code, 0, Vec::new())
        }
        2 | 3 => {
            let (index, words) = (rng.below(70), gen::slot(rng, Xlen::X64));
            if index < 64 {
                state.table[4 * index as usize..][..4].copy_from_slice(&words);
            }
            (recording::slot(index, words), 4, if index < 64 { 0 } else { -5 }, 0, Vec::new())
        }
        4 => {
            let given = gen::trap(rng, Xlen::X64);
            let Trap { cause, tval, htval, htinst, gva } = given;
            let answer = trap::back(state, given);
            let record = recording::trap(cause, tval, htval, htinst, gva);
            (record, 5, answer.code, 0, answer.reports)
        }
        _ => {
            let Call { eid, fid, args } = gen::call(rng, state);
            let steps = steps::run(&mut state.clone(), eid, fid, args[0], u64::MAX).steps;
            let answer = calls::call(state, eid, fid, args);
            let record = recording::call(eid, fid, args[0], args[1], args[2]);
            (record, 1, answer.code, steps, answer.reports)
        }
    }
}

/// How many slots are used.
fn slots(state: &State) -> usize {
    used(state).into_iter().filter(|&used| used).count()
}

/// Each record does what the direct call does, and its line tells the code, the steps, the slots
/// that a call removed and the reports. No record is ever left that is not well made.
#[test]
fn direct_calls() {
    let mut rng = Rng::new(63);
    for _ in 0..400 {
        let (mut state, mut replay) = (replay::start(), Replay::new());
        for number in 1..60 {
            let before = slots(&state);
            let (record, kind, code, steps, reports) = direct(&mut rng, &mut state);
            let mut out = Vec::new();
            replay.feed(&record, &mut out);
            assert!(*replay.state() == state);
            let removed = if kind == 1 { before - slots(&state) } else { 0 };
            let pair = |told: &Report| format!(" {:03x} {:016x}", told.csr, told.bits);
            let pairs: String = reports.iter().map(pair).collect();
            let line = format!("{number} {kind} {code} {steps} {removed}{pairs}\n");
            assert_eq!(String::from_utf8(out).unwrap(), line);
            assert!(state.hart.is_well_made());
        }
    }
}

/// What the lines of a recording show: how often each kind has each code, with steps, slots or
/// reports.
fn count_lines(text: &str, seen: &mut BTreeMap<(i64, i64), u32>, marks: &mut [u32; 8]) {
    for line in text.lines() {
        let words: Vec<&str> = line.split(' ').collect();
        let [_, kind, code, steps, removed] = [0, 1, 2, 3, 4].map(|k| words[k].parse().unwrap());
        *seen.entry((kind, code)).or_default() += 1;
        let reports = (words.len() - 5) / 2;
        let kinds = [
            steps > 36,
            removed > 0,
            removed > 0 && steps == 0,
            removed > 9,
            reports > 0 && steps > 0,
            reports > 0 && steps == 0 && kind == 1,
            reports > 5,
            reports > 0 && kind == 5,
        ];
        marks.iter_mut().zip(kinds).for_each(|(count, yes)| *count += u32::from(yes));
    }
}

/// Every kind meets every code that it can have; fences remove slots, few and many, also in SRET;
/// calls of registers, SRET and traps drop bits.
#[test]
fn codes_turn_up() {
    let mut rng = Rng::new(64);
    let mut seen = BTreeMap::new();
    let mut marks = [0; 8];
    for _ in 0..2000 {
        let bytes = recordings::recording(&mut rng);
        let text = String::from_utf8(replay::replayed(&bytes)).unwrap();
        assert!(["none", "whole"].contains(&end_of(&text)));
        assert_eq!(text.lines().count(), recording::starts(&bytes).len());
        count_lines(&text, &mut seen, &mut marks);
    }
    let expected =
        [(1, &[-9, -5, -3, -2, 0][..]), (2, &[-5, 0]), (3, &[-3, 0]), (4, &[-5, 0]), (5, &[-2, 0])];
    let all: Vec<(i64, i64)> =
        expected.iter().flat_map(|(kind, codes)| codes.iter().map(|&code| (*kind, code))).collect();
    assert_eq!(seen.keys().copied().collect::<Vec<_>>(), all);
    assert!(seen.values().all(|&count| count > 200), "{seen:?}");
    assert!(marks.iter().all(|&count| count > 200), "{marks:?}");
}

/// How the lines of a recording end; the last digits of a report can be `bad`, a word of it cannot.
fn end_of(text: &str) -> &'static str {
    let last = text.lines().last().unwrap_or("none");
    let word = last.rsplit(' ').next().unwrap();
    ["none", "bad", "cut"].into_iter().find(|end| *end == word).unwrap_or("whole")
}

/// Damaged recordings end as bad, as cut or at their end, each often enough; bad ones of each kind.
#[test]
fn damages_turn_up() {
    let mut rng = Rng::new(65);
    let mut ends: BTreeMap<&str, u32> = BTreeMap::new();
    let mut bad_kinds: BTreeMap<u8, u32> = BTreeMap::new();
    for _ in 0..3000 {
        let bytes = recordings::damaged(&mut rng);
        let text = String::from_utf8(replay::replayed(&bytes)).unwrap();
        *ends.entry(end_of(&text)).or_default() += 1;
        let (places, is_bad) = whole_records(&bytes);
        assert_eq!(is_bad, end_of(&text) == "bad");
        if is_bad {
            let kind = bytes[places[places.len() - 1] + 4];
            *bad_kinds.entry(kind.min(6)).or_default() += 1;
        }
    }
    assert_eq!(ends.len(), 4);
    assert!(ends.values().all(|&count| count > 30), "{ends:?}");
    assert_eq!(bad_kinds.len(), 7);
    assert!(bad_kinds.values().all(|&count| count > 50), "{bad_kinds:?}");
}

/// Cuts are ascending and within the bytes, and their parts are the bytes; empty parts turn up.
#[test]
fn parts_are_the_bytes() {
    let mut rng = Rng::new(66);
    let mut empty = 0;
    for round in 0..2000 {
        let bytes: Vec<u8> = (0..round % 90).map(|byte| byte as u8).collect();
        let cuts = recordings::cuts(&mut rng, bytes.len());
        assert!(cuts.is_sorted());
        let parts = recordings::parts(&bytes, &cuts);
        assert_eq!((parts.len(), &parts.concat()), (cuts.len() + 1, &bytes));
        empty += parts.iter().filter(|part| part.is_empty()).count();
    }
    assert!(empty > 500, "{empty}");
    assert_eq!(told(&recordings::recording(&mut Rng::new(1))).lines().next(), Some("1 1 0 0 0"));
}
