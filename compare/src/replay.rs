//! A recording that is fed in parts, on both sides: the library by its functions on blocks or by the
//! wrapper's type, and the second program.

use nathiroeng::{
    blocks, Replay, HART_WORDS, REPLAY_LINE_BYTES, REPLAY_MEMORY_BYTES, REPLAY_PENDING_BYTES,
};
use nathiroeng::{REPLAY_STATE_WORDS, REPLAY_TABLE_WORDS};
use second::replay;
use second::state::State;

use crate::guard::Guarded;
use crate::input::{self, UNTOLD};
use crate::record;

/// A recording in parts, and how the library is reached.
pub struct Feeding<'a> {
    pub bytes: &'a [u8],
    /// Where it is cut, ascending.
    pub cuts: &'a [usize],
    /// The room for lines of the functions on blocks; none for the wrapper's type.
    pub room: Option<usize>,
}

/// What a replay shows after a part.
#[derive(PartialEq, Eq)]
pub struct View<'a> {
    /// The lines of the part, and the line if the recording ended here.
    pub lines: &'a [u8],
    pub ending: Vec<u8>,
    pub words: Vec<u64>,
    pub memory: &'a [u8],
    pub table: &'a [u64],
    pub records: u64,
    pub rest: &'a [u8],
    pub is_bad: bool,
}

impl View<'_> {
    /// Where two views differ, a line for each place, not more than a few of a kind.
    pub fn differences(&self, other: &View) -> Vec<String> {
        let mut lines = Vec::new();
        let text = |bytes: &[u8]| String::from_utf8_lossy(bytes).into_owned();
        for (what, ours, seconds) in
            [("lines", self.lines, other.lines), ("ending", &self.ending, &other.ending)]
        {
            if ours != seconds {
                lines.push(format!("{what}: ours {:?}, second {:?}", text(ours), text(seconds)));
            }
        }
        if (self.records, self.is_bad) != (other.records, other.is_bad) {
            let (ours, seconds) = ((self.records, self.is_bad), (other.records, other.is_bad));
            lines.push(format!("records and bad: ours {ours:?}, second {seconds:?}"));
        }
        if self.rest != other.rest {
            lines.push(format!("rest: ours {:02x?}, second {:02x?}", self.rest, other.rest));
        }
        input::differ_world(
            &mut lines,
            (&self.words, self.memory, self.table),
            (&other.words, other.memory, other.table),
        );
        lines
    }
}

/// A replay on one side.
pub trait Side {
    /// Takes a part; or says what is wrong with the way in which it was taken.
    fn feed(&mut self, part: &[u8]) -> Result<(), String>;
    /// What is seen then; or what is wrong with the end.
    fn view(&self) -> Result<View<'_>, String>;
}

/// The library's side.
pub fn ours(room: Option<usize>) -> Box<dyn Side> {
    match room {
        Some(room) => Box::new(Lent::start(room)),
        None => Box::new(Named { replay: Replay::new(), lines: Vec::new() }),
    }
}

/// All that the functions on blocks are lent, and the lines of the last part.
pub struct Lent {
    pub state: Guarded<u64>,
    pub memory: Guarded<u8>,
    pub table: Guarded<u64>,
    pub pending: Guarded<u8>,
    pub room: usize,
    lines: Vec<u8>,
}

/// What a function on blocks says: its code, `said`, and the buffer for lines.
pub struct Said {
    pub code: i64,
    pub words: Vec<u64>,
    pub out: Vec<u8>,
    pub kept: bool,
}

/// What the buffer for lines holds before.
pub const EMPTY: u8 = b'?';

impl Lent {
    /// A replay that has begun, in ranges that held something else.
    pub fn start(room: usize) -> Lent {
        let mut lent = Lent {
            state: Guarded::new(&[UNTOLD; REPLAY_STATE_WORDS]),
            memory: Guarded::new(&[0x5A; REPLAY_MEMORY_BYTES]),
            table: Guarded::new(&[UNTOLD; REPLAY_TABLE_WORDS]),
            pending: Guarded::new(&[0x5A; REPLAY_PENDING_BYTES]),
            room,
            lines: Vec::new(),
        };
        lent.begin();
        lent
    }

    /// A replay that goes on from a state of its sizes, with the last three words of its block.
    pub fn at(state: &State, last: [u64; 3], room: usize) -> Lent {
        let mut lent = Lent::start(room);
        lent.state = Guarded::new(&[record::words(&state.hart), last.to_vec()].concat());
        lent.memory.lend().copy_from_slice(&state.memory.bytes);
        lent.table.lend().copy_from_slice(&state.table);
        lent
    }

    /// Begins a replay in what is lent; gives the code.
    pub fn begin(&mut self) -> i64 {
        blocks::replay_start(self.state.lend(), self.memory.lend(), self.table.lend())
    }

    /// Whether nothing beside what is lent has changed.
    pub fn is_kept(&self) -> bool {
        let words = self.state.is_kept() && self.table.is_kept();
        words && self.memory.is_kept() && self.pending.is_kept()
    }

    /// Feeds once, with so many words for what is said.
    pub fn feed_once(&mut self, part: &[u8], said_words: usize) -> Said {
        let (mut out, mut said) = buffers(self.room, said_words);
        let Lent { state, memory, table, pending, .. } = self;
        let (state, memory, table) = (state.lend(), memory.lend(), table.lend());
        let (pending, lines) = (pending.lend(), out.lend());
        let code = blocks::replay_feed(state, memory, table, pending, part, lines, said.lend());
        let kept = self.is_kept() && out.is_kept() && said.is_kept();
        Said { code, words: said.take(), out: out.take(), kept }
    }

    /// Tells the end, with so many words for what is said.
    pub fn finish_once(&self, said_words: usize) -> Said {
        let (mut out, mut said) = buffers(self.room, said_words);
        let code = blocks::replay_finish(self.state.get(), out.lend(), said.lend());
        let kept = self.is_kept() && out.is_kept() && said.is_kept();
        Said { code, words: said.take(), out: out.take(), kept }
    }
}

/// Buffers for lines and for what is said.
fn buffers(room: usize, said_words: usize) -> (Guarded<u8>, Guarded<u64>) {
    (Guarded::new(&vec![EMPTY; room]), Guarded::new(&vec![UNTOLD; said_words]))
}

impl Said {
    /// How many bytes were taken, and the lines; or what is wrong with them. With so many bytes to
    /// take all are taken, but where no room for a line is left.
    pub fn take(self, bytes: usize) -> Result<(usize, Vec<u8>), String> {
        if self.code != 0 || !self.kept {
            return Err(format!("code {}, the rest kept: {}", self.code, self.kept));
        }
        let [taken, written] = self.words[..] else {
            return Err("what is said has not two words".to_string());
        };
        let (taken, written, room) = (taken as usize, written as usize, self.out.len());
        let is_full = written <= room && room - written < REPLAY_LINE_BYTES;
        if taken > bytes || written > room || (taken < bytes && !is_full) {
            return Err(format!("{taken} of {bytes} taken and {written} of {room} written"));
        }
        let mut lines = self.out;
        if lines[written..].iter().any(|&byte| byte != EMPTY) {
            return Err("something behind the lines was written".to_string());
        }
        lines.truncate(written);
        Ok((taken, lines))
    }
}

impl Side for Lent {
    fn feed(&mut self, part: &[u8]) -> Result<(), String> {
        self.lines.clear();
        let mut left = part;
        loop {
            let (taken, lines) = self.feed_once(left, 2).take(left.len())?;
            if taken == 0 && !left.is_empty() {
                return Err("nothing was taken".to_string());
            }
            self.lines.extend(lines);
            left = &left[taken..];
            if left.is_empty() {
                return Ok(());
            }
        }
    }

    fn view(&self) -> Result<View<'_>, String> {
        let (_, ending) = self.finish_once(2).take(0)?;
        let (words, last) = self.state.get().split_at(HART_WORDS);
        Ok(View {
            lines: &self.lines,
            ending,
            words: words.to_vec(),
            memory: self.memory.get(),
            table: self.table.get(),
            records: last[0].wrapping_sub(1),
            rest: self
                .pending
                .get()
                .get(..last[1] as usize)
                .ok_or("more than the longest record")?,
            is_bad: last[2] != 0,
        })
    }
}

/// The wrapper's type.
struct Named {
    replay: Replay,
    lines: Vec<u8>,
}

impl Side for Named {
    fn feed(&mut self, part: &[u8]) -> Result<(), String> {
        let Named { replay, lines } = self;
        let mut are_whole = true;
        lines.clear();
        replay.feed(part, |some| {
            are_whole &= some.ends_with(b"\n");
            lines.extend_from_slice(some);
        });
        if are_whole {
            Ok(())
        } else {
            Err("lines that are not whole".to_string())
        }
    }

    fn view(&self) -> Result<View<'_>, String> {
        let mut ending = Vec::new();
        self.replay.finish(|line| ending.extend_from_slice(line));
        Ok(View {
            lines: &self.lines,
            ending,
            words: self.replay.hart().words().to_vec(),
            memory: self.replay.memory(),
            table: self.replay.table(),
            records: self.replay.records(),
            rest: self.replay.rest(),
            is_bad: self.replay.is_bad(),
        })
    }
}

/// The second program's side.
#[derive(Default)]
pub struct Seconds {
    replay: replay::Replay,
    lines: Vec<u8>,
}

impl Side for Seconds {
    fn feed(&mut self, part: &[u8]) -> Result<(), String> {
        self.lines.clear();
        self.replay.feed(part, &mut self.lines);
        Ok(())
    }

    fn view(&self) -> Result<View<'_>, String> {
        let (state, mut ending) = (self.replay.state(), Vec::new());
        self.replay.clone().finish(&mut ending);
        Ok(View {
            lines: &self.lines,
            ending,
            words: record::words(&state.hart),
            memory: &state.memory.bytes,
            table: &state.table,
            records: self.replay.finished(),
            rest: self.replay.rest(),
            is_bad: self.replay.is_bad(),
        })
    }
}
