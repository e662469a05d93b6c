//! Replays of recordings: the rows, and both sides.

use nathiroeng::Replay;
use second::calls::{ALL, EID, SET, SYNC_CSR, SYNC_FENCE};
use second::xlen::Xlen;
use second::{page, recording, replay};

use crate::cases::{fenced, row, start, Action, Row, BASE};

/// Room for the lines of a replay.
const LINES: usize = 10_000;

/// A replay by the wrapper's type, and its lines.
pub struct OurReplay {
    replay: Replay,
    pub lines: Vec<u8>,
}

impl OurReplay {
    /// A replay that has seen nothing.
    pub fn new() -> OurReplay {
        OurReplay { replay: Replay::new(), lines: Vec::with_capacity(LINES) }
    }

    /// Feeds the replay with a whole recording and tells it the end; gives the length of the lines.
    pub fn run(&mut self, recording: &[u8]) -> i64 {
        let OurReplay { replay, lines } = self;
        replay.feed(recording, |some| lines.extend_from_slice(some));
        replay.finish(|line| lines.extend_from_slice(line));
        lines.len() as i64
    }
}

/// The second program's replay, and its lines.
pub struct SecondsReplay {
    replay: replay::Replay,
    pub lines: Vec<u8>,
}

impl SecondsReplay {
    /// A replay that has seen nothing.
    pub fn new() -> SecondsReplay {
        SecondsReplay { replay: replay::Replay::new(), lines: Vec::with_capacity(LINES) }
    }

    /// Feeds the replay with a whole recording and tells it the end; gives the length of the lines.
    pub fn run(&mut self, recording: &[u8]) -> i64 {
        self.replay.feed(recording, &mut self.lines);
        self.replay.finish(&mut self.lines);
        self.lines.len() as i64
    }
}

/// A row of a replay of these records, which are 100.
fn replay_row(name: &str, records: Vec<Vec<u8>>) -> Row {
    let recording = records.concat().leak();
    row(name, replay::start(), Action::Replay { recording })
}

/// The rows of replays, of 100 records each; width 32 has none.
pub fn rows(xlen: Xlen) -> Vec<Row> {
    if xlen == Xlen::X32 {
        return Vec::new();
    }
    let set = || vec![recording::call(EID, SET, BASE, 0, 0)];
    let call = |fid, a0| recording::call(EID, fid, a0, 0, 0);
    let slot = |i: u64| recording::slot(i % 64, [(1 << 63) | (7 << 16) | 3, 0x1000 + i, 0x2000, i]);
    let small = (0..50).flat_map(|i| [recording::lines(8 * (i % 2)), slot(i)]).collect();
    let registers = (0..99).map(|i| call(SYNC_CSR, if i % 2 == 0 { 0x645 } else { ALL }));
    // An entry that names one of the slots, and the call that serves it.
    let fence = |i: u64| {
        let state = fenced(start(xlen, &[]), 1, 0x1000 + i, 1);
        let place = page::entry_offset(xlen, 0);
        let entry = &state.memory.bytes[place..][..32];
        [recording::write(place as u64, entry), call(SYNC_FENCE, 0)]
    };
    let fences = (0..33).map(slot).chain((0..33).flat_map(fence));
    let writes = (0..100).map(|i| recording::write(4096 * (i % 3), &[i as u8; 4096])).collect();
    vec![
        replay_row("replay, 100 line changes and slots", small),
        replay_row("replay, 100 register calls", set().into_iter().chain(registers).collect()),
        replay_row(
            "replay, 33 slots, 33 entries and 33 fence calls",
            set().into_iter().chain(fences).collect(),
        ),
        replay_row("replay, 100 writes of 4,096 bytes", writes),
    ]
}
