//! How a replay ends: headers that are judged on six bytes, bad records and cut ones.

use second::calls::ALL;
use second::recording::{call, header, lines, slot, trap, write};
use second::replay::Replay;

use crate::replays::{nacl, set, told};

/// Whether a header is good, from the paper's words.
fn is_good(length: u32, kind: u16) -> bool {
    match kind {
        1 | 4 | 5 => length == 40,
        2 => length > 8 && length - 8 <= 4096,
        3 => length == 8,
        _ => false,
    }
}

/// A replay that has been fed with these bytes, and what it printed.
fn fed(bytes: &[u8]) -> (Replay, String) {
    let (mut replay, mut out) = (Replay::new(), Vec::new());
    replay.feed(bytes, &mut out);
    (replay, String::from_utf8(out).unwrap())
}

/// What a replay prints when it is told the end.
fn finished(replay: &mut Replay) -> String {
    let mut out = Vec::new();
    replay.finish(&mut out);
    String::from_utf8(out).unwrap()
}

/// Asserts that six bytes of a header are judged at once, and that five are not.
fn assert_judged(length: u32, kind: u16) {
    let bytes = header(length, kind);
    let (mut replay, text) = fed(&bytes[..5]);
    assert_eq!((text.as_str(), replay.rest()), ("", &bytes[..5]));
    let mut out = Vec::new();
    replay.feed(&bytes[5..], &mut out);
    let (mut at_once, text) = fed(&bytes);
    assert_eq!(out, text.as_bytes());
    let is_good = is_good(length, kind);
    assert_eq!(text, if is_good { "" } else { "1 bad\n" }, "{length} {kind}");
    for replay in [&mut replay, &mut at_once] {
        assert_eq!((replay.is_bad(), replay.finished()), (!is_good, 0));
        assert_eq!(replay.rest(), if is_good { &bytes[..] } else { &[] });
        assert_eq!(finished(replay), if is_good { "1 cut\n" } else { "" });
    }
}

/// Every kind with the lengths around its own, and with huge ones.
#[test]
fn lengths() {
    for kind in 0..=6 {
        for length in (0..60).chain(4090..4120) {
            assert_judged(length, kind);
        }
        for high in [1 << 8, 1 << 16, 1 << 24, 1 << 31, u32::MAX << 16, u32::MAX] {
            for length in [8, 9, 40, 4104] {
                assert_judged(length | high, kind);
            }
        }
    }
    assert_judged(9, 2);
    assert_judged(4104, 2);
}

/// Every number of a kind; both bytes count.
#[test]
fn kinds() {
    for kind in 0..=u16::MAX {
        for length in [8, 40] {
            assert_judged(length, kind);
        }
    }
}

/// A rest of 1 to 5 bytes is cut, also one that cannot become good; with six it is bad.
#[test]
fn short_rests() {
    for byte in [0, 1, 0xFF] {
        for length in 1..6 {
            let rest = vec![byte; length];
            assert_eq!(told(&rest), "1 cut\n");
            assert_eq!(told(&[set(), rest].concat()), "1 1 0 0 0\n2 cut\n");
        }
        for length in [6, 7, 100] {
            assert_eq!(told(&[lines(0), vec![byte; length]].concat()), "1 3 0 0 0\n2 bad\n");
        }
    }
}

/// One record of each kind, each accepted after a set; the longest write among them.
fn one_of_each() -> [Vec<u8>; 6] {
    [
        nacl(2, ALL),
        write(0, &[1]),
        write(8192, &[1; 4096]),
        lines(2),
        slot(0, [1 << 63, 0, 0, 0]),
        trap(8, 0, 0, 0, 0),
    ]
}

/// A record of any kind that lacks bytes is cut, wherever it ends, and is not applied.
#[test]
fn cut_records() {
    for record in one_of_each() {
        let before = fed(&set()).0;
        for length in 1..record.len() {
            let (mut replay, text) = fed(&[&set(), &record[..length]].concat());
            assert_eq!(text, "1 1 0 0 0\n");
            assert_eq!((replay.finished(), replay.rest()), (1, &record[..length]));
            assert!(replay.state() == before.state());
            assert_eq!(finished(&mut replay), "2 cut\n");
            assert!(replay.state() == before.state());
        }
        let (mut whole, text) = fed(&[set(), record].concat());
        assert_eq!((text.lines().count(), whole.finished()), (2, 2));
        assert!(whole.rest().is_empty());
        assert_eq!(finished(&mut whole), "");
    }
}

/// After a bad record nothing is read, in the same part or in another, and the end says nothing.
#[test]
fn nothing_after_bad() {
    let before = fed(&[set(), lines(2)].concat()).0;
    for bad in [header(41, 1), header(4105, 2), header(8, 2), header(8, 0), header(40, 0x0101)] {
        let after = [nacl(2, ALL), lines(4), write(0, &[1])].concat();
        let (mut replay, text) = fed(&[&set()[..], &lines(2), &bad, &after].concat());
        assert_eq!(text, "1 1 0 0 0\n2 3 0 0 0\n3 bad\n");
        let mut out = Vec::new();
        for part in [&after[..], &bad, &after[..9], &[]] {
            replay.feed(part, &mut out);
        }
        replay.finish(&mut out);
        replay.feed(&after, &mut out);
        assert!(out.is_empty() && replay.is_bad() && replay.rest().is_empty());
        assert_eq!(replay.finished(), 2);
        assert!(replay.state() == before.state());
    }
}

/// A bad header that comes in two parts, wherever it is cut, is bad with its last byte; what the
/// second part has after it is not read.
#[test]
fn bad_in_two_parts() {
    let bad = header(39, 1);
    for cut in 0..=6 {
        let (mut replay, mut text) = fed(&[&lines(2)[..], &bad[..cut]].concat());
        let mut out = Vec::new();
        replay.feed(&[&bad[cut..], &lines(4)[..]].concat(), &mut out);
        replay.finish(&mut out);
        text.push_str(&String::from_utf8(out).unwrap());
        assert_eq!(text, "1 3 0 0 0\n2 bad\n");
        assert_eq!((replay.state().hart.lines, replay.rest().len()), (2, 0));
    }
}

/// The end is told once: nothing is taken after it, and it is not told again.
#[test]
fn after_the_end() {
    for rest in [&[][..], &[8, 0, 0]] {
        let (mut replay, _) = fed(&[&set(), rest].concat());
        finished(&mut replay);
        let mut out = Vec::new();
        replay.feed(&lines(2), &mut out);
        replay.finish(&mut out);
        assert!(out.is_empty() && !replay.is_bad());
        assert_eq!((replay.finished(), replay.rest()), (1, rest));
    }
}

/// Refused records are numbered and go on as others do; bad and cut ones have the next number.
#[test]
fn numbers() {
    let refused = [lines(1), slot(64, [0; 4]), call(0, 0, 0, 0, 0), trap(0, 0, 0, 0, 0)].concat();
    let text = "1 3 -3 0 0\n2 4 -5 0 0\n3 1 -2 0 0\n4 5 -2 0 0\n";
    assert_eq!(told(&refused), text);
    assert_eq!(told(&[&refused[..], &[0]].concat()), format!("{text}5 cut\n"));
    assert_eq!(told(&[&refused[..], &header(0, 2)].concat()), format!("{text}5 bad\n"));
}
