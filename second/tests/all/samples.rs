//! The sample recordings: the files, and what each shows.

use std::collections::BTreeSet;
use std::fs;
use std::path::Path;

use second::lister;
use second::replay::{self, Replay};
use second::samples;

use crate::common::used;
use crate::replays::told;

/// The bytes of a sample.
fn sample(name: &str) -> Vec<u8> {
    samples::all().into_iter().find(|sample| sample.name == name).unwrap().bytes
}

/// The files are there as they are made, byte for byte, and no others.
#[test]
fn files() {
    let directory = Path::new(env!("CARGO_MANIFEST_DIR")).join("../examples/recordings");
    let made = samples::files();
    for (name, contents) in &made {
        assert!(fs::read(directory.join(name)).unwrap() == *contents, "{name}");
        assert!(contents.len() < 20_000);
    }
    let mut there: Vec<String> = fs::read_dir(&directory)
        .unwrap()
        .map(|file| file.unwrap().file_name().into_string().unwrap())
        .collect();
    there.sort();
    let mut names: Vec<String> = made.into_iter().map(|(name, _)| name).collect();
    names.sort();
    assert_eq!(there, names);
}

/// Each sample prints the same in two parts, cut at any place.
#[test]
fn every_cut() {
    for sample in samples::all() {
        let whole = told(&sample.bytes);
        for cut in 0..=sample.bytes.len() {
            let (mut replay, mut out) = (Replay::new(), Vec::new());
            let (first, second) = sample.bytes.split_at(cut);
            replay.feed(first, &mut out);
            replay.feed(second, &mut out);
            replay.finish(&mut out);
            assert!(out == whole.as_bytes(), "{} cut at {cut}", sample.name);
        }
    }
}

/// The kind and the code of each line.
fn kinds_and_codes(text: &str) -> Vec<(u64, i64)> {
    let pair = |line: &str| {
        let words: Vec<&str> = line.split(' ').collect();
        (words[1].parse().unwrap(), words[2].parse().unwrap())
    };
    text.lines().map(pair).collect()
}

/// On a good day every kind of record is there, and every code is 0. By hand: 40 steps of all
/// registers, of which two are dirty and have no dirty follower; one slot for each fence call; two
/// for SRET, whose hstatus was written without VSXL.
#[test]
fn good_day() {
    let bytes = sample("good-day");
    let text = told(&bytes);
    let seen: BTreeSet<(u64, i64)> = kinds_and_codes(&text).into_iter().collect();
    assert_eq!(seen.into_iter().collect::<Vec<_>>(), [(1, 0), (2, 0), (3, 0), (4, 0), (5, 0)]);
    let calls: Vec<&str> = text.lines().filter(|line| line.contains(" 1 0 ")).collect();
    let returned = "33 1 0 0 2 600 0000000200000000";
    assert_eq!(calls[2..], ["12 1 0 40 0", "21 1 0 2 1", "22 1 0 2 1", returned, "36 1 0 1 0"]);
    let state = replay::replayed_state(&bytes).1;
    let left: Vec<usize> = (0..64).filter(|&slot| used(&state)[slot]).collect();
    assert_eq!((left, state.hart.virt, state.hart.x[31]), (vec![1], false, 31));
}

/// The second fence is never carried out: its call removes nothing, the slot stays, and the page
/// still has the entry pending.
#[test]
fn lost_ticket() {
    let bytes = sample("lost-ticket");
    let text = told(&bytes);
    let lines: Vec<&str> = text.lines().collect();
    assert_eq!(lines[11..], ["12 1 0 2 1", "13 1 0 0 0", "14 1 0 3 0"]);
    assert!(kinds_and_codes(&text).iter().all(|&(_, code)| code == 0));
    let state = replay::replayed_state(&bytes).1;
    assert_eq!(used(&state)[..3], [false, true, false]);
    let listing = "fence 1 type 2 order 0 vmid 5 asid 0 page 16 count 1\ndirty 0 pending 1\n";
    assert_eq!(lister::list(&state.memory.bytes), listing);
    let files = samples::files();
    let contents = |name: &str| files.iter().find(|file| file.0 == name).unwrap().1.clone();
    assert!(contents("lost-ticket.page") == state.memory.bytes);
    assert_eq!(contents("lost-ticket.page.txt"), listing.as_bytes());
}

/// The cut one ends in its third record, the bad one at its third, though good ones follow.
#[test]
fn cut_and_bad() {
    assert_eq!(told(&sample("cut")), "1 1 0 0 0\n2 3 0 0 0\n3 cut\n");
    assert_eq!(told(&sample("bad")), "1 1 0 0 0\n2 1 0 3 0\n3 bad\n");
    let state = replay::replayed_state(&sample("bad")).1;
    assert_eq!(state.hart.lines, 0);
}

/// Every kind has every code that it can have.
#[test]
fn every_kind() {
    let text = told(&sample("every-kind"));
    let seen: BTreeSet<(u64, i64)> = kinds_and_codes(&text).into_iter().collect();
    let calls = [(1, -9), (1, -5), (1, -3), (1, -2), (1, 0)];
    let others = [(2, -5), (2, 0), (3, -3), (3, 0), (4, -5), (4, 0), (5, -2), (5, 0)];
    assert_eq!(seen.into_iter().collect::<Vec<_>>(), [&calls[..], &others].concat());
    assert!(text.contains(" 1 0 0 1 600 0000000200000000\n") && text.contains(" 1 0 36 0\n"));
}

/// Dropped bits, by hand: T8 after a refusal; then htval, and hgatp with MODE 8, both taken whole;
/// hip, whose bit 12 reads 1. At SRET hstatus without VSXL and with bit 0, vsepc with bit 0, and a
/// swap without VSXL and with VGEIN 9, of which SPV is taken. The next two swaps bring readings
/// back; of the last, all ones, 0x7003C0 and the upper bit of VSXL are taken.
#[test]
fn dropped() {
    let bytes = sample("dropped");
    let text = told(&bytes);
    let lines: Vec<&str> = text.lines().filter(|line| !line.ends_with(" 2 0 0 0")).collect();
    let expected = [
        "1 1 0 0 0",
        "6 1 -3 0 0",
        "7 1 0 3 0 680 9000000000000003",
        "8 1 0 38 0",
        "11 1 0 38 0",
        "12 3 0 0 0",
        "17 1 0 37 0 644 0000000000001000",
        "24 1 0 0 0 600 0000000200000001 241 0000000000000001 600 0000000200009000",
        "25 5 0 0 0",
        "26 1 0 0 0",
        "28 5 0 0 0 600 fffffffdff8ffc3f",
    ];
    assert_eq!(lines, expected);
    let hart = replay::replayed_state(&bytes).1.hart;
    assert_eq!((hart.dropped, hart.hgatp, hart.htval), (6, 8 << 60 | 4, 0));
    assert_eq!((hart.hstatus, hart.virt), (0x2_0070_03C0, false));
}
