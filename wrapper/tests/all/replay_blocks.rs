//! Replay through the functions on blocks: what they say, and what they refuse.

use nathiroeng::{
    blocks, Hart, Xlen, HART_WORDS, REPLAY_LINE_BYTES, REPLAY_MEMORY_BYTES, REPLAY_PENDING_BYTES,
};
use nathiroeng::{ANSWER_WORDS, EID, REPLAY_STATE_WORDS, REPLAY_TABLE_WORDS, REPORT_WORDS};

use crate::common::{BASE, WIDTHS};
use crate::records::{call, header, lines, write, SAMPLES};

/// All that a replay is lent.
#[derive(Clone, PartialEq, Eq, Debug)]
struct Lent {
    state: Vec<u64>,
    memory: Vec<u8>,
    table: Vec<u64>,
    pending: Vec<u8>,
    out: Vec<u8>,
    said: Vec<u64>,
}

impl Lent {
    /// Ranges of the right lengths that hold anything.
    fn raw() -> Lent {
        Lent {
            state: vec![9; REPLAY_STATE_WORDS],
            memory: vec![9; REPLAY_MEMORY_BYTES],
            table: vec![9; REPLAY_TABLE_WORDS],
            pending: vec![9; REPLAY_PENDING_BYTES],
            out: vec![b'?'; REPLAY_LINE_BYTES],
            said: vec![9; 2],
        }
    }

    /// A replay that has seen these bytes.
    fn after(bytes: &[u8]) -> Lent {
        let mut lent = Lent::raw();
        assert_eq!(lent.start(), 0);
        let mut left = bytes;
        while !left.is_empty() {
            assert_eq!(lent.feed(left), 0);
            left = &left[lent.said[0] as usize..];
        }
        lent.out.fill(b'?');
        lent.said.fill(9);
        lent
    }

    fn start(&mut self) -> i64 {
        blocks::replay_start(&mut self.state, &mut self.memory, &mut self.table)
    }

    fn feed(&mut self, part: &[u8]) -> i64 {
        let Lent { state, memory, table, pending, out, said } = self;
        blocks::replay_feed(state, memory, table, pending, part, out, said)
    }

    fn finish(&mut self) -> i64 {
        blocks::replay_finish(&self.state, &mut self.out, &mut self.said)
    }
}

/// Asserts that the functions of this choice refuse and change nothing: start, feed and finish.
fn assert_refused(lent: &Lent, refuses: [bool; 3]) {
    let functions: [fn(&mut Lent) -> i64; 3] =
        [Lent::start, |lent| lent.feed(&lines(2)), Lent::finish];
    for (run, _) in functions.into_iter().zip(refuses).filter(|(_, refuses)| *refuses) {
        let mut after = lent.clone();
        assert_eq!(run(&mut after), -1);
        assert!(after == *lent, "a refusal that changes something");
    }
    // An empty part is refused too.
    let mut after = lent.clone();
    assert_eq!((after.feed(&[]), after == *lent), (-1, true));
}

/// The block of a replay that has begun.
#[test]
fn started() {
    let mut lent = Lent::raw();
    assert_eq!(lent.start(), 0);
    let fresh = Hart::fresh(Xlen::X64, 15);
    assert_eq!(
        (&lent.state[..HART_WORDS], &lent.state[HART_WORDS..]),
        (&fresh.words()[..], &[1, 0, 0][..])
    );
    assert_eq!((&lent.memory, &lent.table), (&vec![0; 12_288], &vec![0; 256]));
    assert_eq!(
        (&lent.pending, &lent.out, &lent.said),
        (&vec![9; 4110], &vec![b'?'; REPLAY_LINE_BYTES], &vec![9; 2])
    );
}

/// The last three words: the number, the bytes that are there, and whether the replay has ended.
#[test]
fn last_words() {
    let record = write(0, &[5; 20]);
    for (bytes, expected) in [
        (vec![], [1, 0, 0]),
        (lines(2), [2, 0, 0]),
        ([lines(2), lines(1)].concat(), [3, 0, 0]),
        ([&lines(2)[..], &record[..3]].concat(), [2, 3, 0]),
        ([&lines(2)[..], &record[..30]].concat(), [2, 30, 0]),
        ([lines(2), header(0, 0)].concat(), [2, 0, 1]),
        ([lines(2), header(0, 0), lines(4)].concat(), [2, 0, 1]),
    ] {
        let lent = Lent::after(&bytes);
        assert_eq!(lent.state[HART_WORDS..], expected);
        let rest = &bytes[bytes.len() - expected[1] as usize..];
        assert_eq!(&lent.pending[..rest.len()], rest);
    }
}

/// With room for one line a record is taken at a time, and no byte behind the line is written.
#[test]
fn little_room() {
    let (part, mut lent) = ([lines(2), lines(1), lines(4)].concat(), Lent::after(&[]));
    for (number, code) in [(1, 0), (2, -3), (3, 0)] {
        lent.out.fill(b'?');
        assert_eq!(lent.feed(&part[14 * (number - 1)..]), 0);
        let mut line = format!("{number} 3 {code} 0 0\n").into_bytes();
        assert_eq!(lent.said, [14, line.len() as u64]);
        line.resize(REPLAY_LINE_BYTES, b'?');
        assert_eq!(lent.out, line);
    }
    assert_eq!((lent.feed(&[]), &lent.said), (0, &vec![0, 0]));
}

/// Whatever the room for lines and for the record, from the least on, the samples print the same, and
/// all of a part is taken but where no room for a line is left. Most lines have ten bytes: with nine
/// more than the least there is no room for another, with ten there is.
#[test]
fn rooms() {
    let more = [(0, 0), (1, 1), (9, 0), (10, 0), (13, 7), (67, 0), (413, 0), (8367, 4110)];
    for (bytes, expected) in SAMPLES {
        for (more_room, more_pending) in more {
            let (mut lent, mut text, mut left) = (Lent::after(&[]), Vec::new(), bytes);
            let room = REPLAY_LINE_BYTES + more_room;
            lent.out.resize(room, b'?');
            lent.pending.resize(REPLAY_PENDING_BYTES + more_pending, 9);
            while !left.is_empty() {
                assert_eq!(lent.feed(left), 0);
                let (taken, written) = (lent.said[0] as usize, lent.said[1] as usize);
                assert!(taken == left.len() || (taken > 0 && room - written < REPLAY_LINE_BYTES));
                text.extend_from_slice(&lent.out[..written]);
                left = &left[taken..];
            }
            assert_eq!((lent.finish(), lent.said[0]), (0, 0));
            text.extend_from_slice(&lent.out[..lent.said[1] as usize]);
            assert_eq!(String::from_utf8_lossy(&text), expected);
        }
    }
}

/// The end: the line of a cut record, and nothing without one or after a bad one.
#[test]
fn ends() {
    let rows = [(lines(2), ""), (vec![8, 0], "1 cut\n"), (header(0, 9), "")];
    for (bytes, expected) in rows {
        let mut lent = Lent::after(&bytes);
        let before = lent.clone();
        assert_eq!((lent.finish(), &lent.said), (0, &vec![0, expected.len() as u64]));
        assert_eq!(&lent.out[..expected.len()], expected.as_bytes());
        assert!(lent.out[expected.len()..].iter().all(|&byte| byte == b'?'));
        assert!(lent.state == before.state && lent.pending == before.pending);
    }
}

/// The next record's number is what the state says, and the one after the last number is 0.
#[test]
fn numbers() {
    let mut lent = Lent::after(&[]);
    lent.out.resize(REPLAY_LINE_BYTES + 200, b'?');
    lent.state[HART_WORDS] = u64::MAX - 1;
    assert_eq!(lent.feed(&[lines(2), lines(2), lines(2), header(0, 0)].concat()), 0);
    let text = "18446744073709551614 3 0 0 0\n18446744073709551615 3 0 0 0\n0 3 0 0 0\n1 bad\n";
    assert_eq!(String::from_utf8_lossy(&lent.out[..lent.said[1] as usize]), text);
    assert_eq!(lent.state[HART_WORDS..], [1, 0, 1]);
}

/// Any other length of what is lent, but for a longer buffer of the record or of the lines.
#[test]
fn lengths() {
    let places = [Lent::after(&[]), Lent::after(&[8, 0, 0]), Lent::after(&header(0, 0))];
    for good in places {
        for length in (0..150).filter(|&length| length != REPLAY_STATE_WORDS) {
            let mut lent = good.clone();
            lent.state.resize(length, 0);
            assert_refused(&lent, [true; 3]);
        }
        for length in [0, 1, 4096, 8192, 12_287, 12_289, 24_576] {
            let mut lent = good.clone();
            lent.memory.resize(length, 0);
            assert_refused(&lent, [true, true, false]);
        }
        for length in [0, 1, 4, 64, 252, 255, 257, 260, 512, 1024] {
            let mut lent = good.clone();
            lent.table.resize(length, 0);
            assert_refused(&lent, [true, true, false]);
        }
        for length in [0, 1, 5, 6, 46, 4104, 4109] {
            let mut lent = good.clone();
            lent.pending.resize(length, 0);
            assert_refused(&lent, [false, true, false]);
        }
        for length in 0..REPLAY_LINE_BYTES {
            let mut lent = good.clone();
            lent.out.resize(length, b'?');
            assert_refused(&lent, [false, true, true]);
        }
        for length in [0, 1, 3, 4, 71] {
            let mut lent = good.clone();
            lent.said.resize(length, 9);
            assert_refused(&lent, [false, true, true]);
        }
    }
}

/// States whose first words are no record, or whose last word is no flag; and nothing but ones.
#[test]
fn garbage() {
    let rows = [
        (&[20, 22, 23, 26, 27, 28, HART_WORDS + 2][..], &[2, 3, 1 << 32, u64::MAX][..]),
        (&[21], &[1, 0x8000_0000]),
        (&[62], &[0, 1, 31, 33, 63, 65, 1 << 32 | 64, u64::MAX]),
        (&[67], &[1 << 32, 1 << 32 | 7, 1 << 63, u64::MAX]),
    ];
    for good in [Lent::after(&[]), Lent::after(&lines(2)[..9]), Lent::after(&header(0, 0))] {
        for (places, words) in rows {
            for (&place, &word) in places.iter().flat_map(|p| words.iter().map(move |w| (p, w))) {
                let mut lent = good.clone();
                lent.state[place] = word;
                assert_refused(&lent, [false, true, true]);
            }
        }
        for word in [0, u64::MAX] {
            let mut lent = good.clone();
            lent.state.fill(word);
            assert_refused(&lent, [false, true, true]);
        }
    }
}

/// Bytes that are no beginning of a record: a bad header, or a record that is whole or more.
#[test]
fn no_beginnings() {
    let record = call(0, 0);
    for (bytes, counts) in [
        (header(41, 1), &[6, 7, 46, 47][..]),
        (header(8, 9), &[6, 13, 1 << 40]),
        (vec![0xFF; 6], &[6, 7, 4109, u64::MAX]),
        (record.clone(), &[46, 47, 4109, 4110, 4111, 1 << 32, 1 << 63, u64::MAX]),
        (header(4104, 2), &[4110, 4111, u64::MAX]),
    ] {
        for (&count, ended) in counts.iter().flat_map(|count| [(count, 0), (count, 1)]) {
            let mut lent = Lent::after(&[]);
            lent.pending[..bytes.len()].copy_from_slice(&bytes);
            (lent.state[HART_WORDS + 1], lent.state[HART_WORDS + 2]) = (count, ended);
            assert_refused(&lent, [false, true, false]);
        }
    }
    // Up to five bytes may be any, and what is behind those that are there does not matter.
    for count in 0..6 {
        let mut lent = Lent::after(&[]);
        lent.pending.fill(0xFF);
        lent.state[HART_WORDS + 1] = count;
        assert_eq!((lent.feed(&[]), &lent.said), (0, &vec![0, 0]));
    }
    for count in 6..46 {
        let mut lent = Lent::after(&[]);
        lent.pending[..46].copy_from_slice(&record);
        lent.pending[count..].fill(0xFF);
        lent.state[HART_WORDS + 1] = count as u64;
        assert_eq!((lent.feed(&record[count..]), lent.said[0]), (0, 46 - count as u64));
        assert!(lent.out.starts_with(b"1 1 0 0 0\n"));
    }
}

/// A record of the hart that is not well made is a state all the same: its calls, line changes and
/// traps are -1, writes and slots are made.
#[test]
fn not_well_made() {
    let mut lent = Lent::after(&[]);
    lent.out.resize(REPLAY_LINE_BYTES + 200, b'?');
    lent.state[19] = 1;
    let part = [call(0, 0), write(3, &[5]), lines(2), crate::records::slot(0, [7; 4])].concat();
    assert_eq!((lent.feed(&part), lent.said[0]), (0, part.len() as u64));
    let text = "1 1 -1 0 0\n2 2 0 0 0\n3 3 -1 0 0\n4 4 0 0 0\n";
    assert_eq!(String::from_utf8_lossy(&lent.out[..lent.said[1] as usize]), text);
    assert_eq!((lent.state[19], lent.memory[3], lent.table[0]), (1, 5, 7));
}

/// SRET with every register marked and the swap, all words being ones, from a state of either width:
/// with room for one line the line tells the reports that the call itself has, and no byte behind it is
/// written. Record, memory and table are the call's, the count with them, which stays at 2^32 - 1.
#[test]
fn longest_lines() {
    for xlen in WIDTHS {
        let mut hart = Hart::fresh(xlen, 15);
        hart.set_page(Some(BASE));
        hart.set_lines(0xFE);
        hart.set_dropped((1 << 32) - 2);
        let mut lent = Lent::after(&[]);
        lent.state[..HART_WORDS].copy_from_slice(hart.words());
        lent.state[HART_WORDS] = u64::MAX;
        lent.memory.fill(0xFF);
        let (mut memory, mut table) = (lent.memory.clone(), lent.table.clone());
        let (mut answer, mut said) = ([0; ANSWER_WORDS], [0; REPORT_WORDS]);
        let (block, told) = (hart.words_mut(), &mut answer);
        let args = [0; 3];
        let code =
            blocks::call(block, BASE, &mut memory, &mut table, EID, 4, args, told, &mut said);
        assert_eq!((code, answer[1], answer[4] > 16), (0, 1, true));

        assert_eq!((lent.feed(&call(4, 0)), lent.said[0]), (0, 46));
        let reports = said.chunks(2).take(answer[4] as usize);
        let pairs = reports.map(|pair| format!(" {:03x} {:016x}", pair[0], pair[1]));
        let mut line = format!("{} 1 0 0 0{}\n", u64::MAX, pairs.collect::<String>()).into_bytes();
        assert_eq!(lent.said[1], line.len() as u64);
        line.resize(REPLAY_LINE_BYTES, b'?');
        assert_eq!(String::from_utf8_lossy(&lent.out), String::from_utf8_lossy(&line));
        assert_eq!(&lent.state[..HART_WORDS], hart.words());
        assert_eq!((&lent.state[HART_WORDS..], hart.dropped()), (&[0, 0, 0][..], (1 << 32) - 1));
        assert!(lent.memory == memory && lent.table == table);
    }
}
