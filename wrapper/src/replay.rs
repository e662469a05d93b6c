//! Replay of a recording that arrives in parts.

use crate::{ffi, Hart, HART_WORDS, REPLAY_LINE_BYTES, REPLAY_MEMORY_BYTES, REPLAY_PENDING_BYTES};
use crate::{REPLAY_STATE_WORDS, REPLAY_TABLE_WORDS};

/// Where the state has the number of the record that comes next, how many of its bytes are there,
/// and whether a bad header has ended the replay.
const NUMBER: usize = HART_WORDS;
const HAVE: usize = HART_WORDS + 1;
const ENDED: usize = HART_WORDS + 2;

/// Room for the lines that are handed out at once.
const LINES: usize = 1_024;

const _: () = assert!(REPLAY_LINE_BYTES <= LINES);

/// A replay of a recording, which is fed with its parts, cut anywhere.
///
/// A recording is one record after the other, little-endian: the length of the body in four bytes,
/// the kind in two, and the body.
///
/// | Kind | Body |
/// |---|---|
/// | 1 | a call: EID, FID and three arguments, 40 bytes |
/// | 2 | a memory write: an offset in memory of 8 bytes, and 1 to 4,096 bytes |
/// | 3 | a line change, 8 bytes |
/// | 4 | a table slot placed: an index of 8 bytes below 64, and four words |
/// | 5 | a trap back: cause, tval, htval, htinst, and a word of which bit 0 is GVA |
///
/// It begins with a fresh hart of width 64 with all features, memory of 12,288 zero bytes at
/// 0x80000000 and 64 empty slots. Each record gives a line, as `2 1 0 3 0`: its number from 1 on, its
/// kind, the code, the steps of a register or fence call, and the slots that fences removed. Then come
/// the [reports](crate::Reports) of a register call, of SRET and of a trap, as
/// `7 1 0 3 0 680 9000000000000003`: of each the register's number in three hexadecimal digits and the
/// dropped bits in sixteen, in the order of the writes. A write past memory's end and an index past the
/// slots are -5. Six header bytes with an unknown kind or a length that is wrong for theirs give
/// `N bad` and end the replay; what follows is ignored.
///
/// A replay owns what it works on, some 19,000 bytes, so that it needs no allocator and no
/// lifetime, and nothing else can change what it relies on: no part is ever refused. Where that is too
/// much for the stack, the functions in [`blocks`](crate::blocks) work on slices that are lent.
///
/// ```
/// use nathiroeng::Replay;
///
/// // The lines are now 0x08; then 0x01, which is no line; then a record that is cut.
/// let recording = [
///     8, 0, 0, 0, 3, 0, 0x08, 0, 0, 0, 0, 0, 0, 0, //
///     8, 0, 0, 0, 3, 0, 0x01, 0, 0, 0, 0, 0, 0, 0, //
///     8, 0, 0,
/// ];
/// let mut text = Vec::new();
/// let mut replay = Replay::new();
/// for part in recording.chunks(10) {
///     replay.feed(part, |lines| text.extend_from_slice(lines));
/// }
/// replay.finish(|line| text.extend_from_slice(line));
/// assert_eq!(text, b"1 3 0 0 0\n2 3 -3 0 0\n3 cut\n");
/// assert_eq!((replay.hart().lines(), replay.records(), replay.rest()), (8, 2, &[8, 0, 0][..]));
/// ```
#[derive(Clone, Debug)]
pub struct Replay {
    state: [u64; REPLAY_STATE_WORDS],
    memory: [u8; REPLAY_MEMORY_BYTES],
    table: [u64; REPLAY_TABLE_WORDS],
    pending: [u8; REPLAY_PENDING_BYTES],
}

impl Default for Replay {
    fn default() -> Replay {
        Replay::new()
    }
}

impl Replay {
    /// A replay that has seen nothing.
    pub fn new() -> Replay {
        let mut replay = Replay {
            state: [0; REPLAY_STATE_WORDS],
            memory: [0; REPLAY_MEMORY_BYTES],
            table: [0; REPLAY_TABLE_WORDS],
            pending: [0; REPLAY_PENDING_BYTES],
        };
        let Replay { state, memory, table, .. } = &mut replay;
        let code = ffi::replay_start(state, memory, table);
        assert_eq!(code, 0, "libreplay_abi.a is of another version");
        replay
    }

    /// Takes the next part of the recording, and hands the lines that become known to `write`: whole
    /// lines, some at once, as often as needed. What `write` does with them is its own affair; an error
    /// of a writer is for it to keep. An empty part changes nothing.
    pub fn feed(&mut self, part: &[u8], mut write: impl FnMut(&[u8])) {
        let Replay { state, memory, table, pending } = self;
        let mut lines = [0; LINES];
        let mut left = part;
        while !left.is_empty() {
            let mut said = [0; 2];
            let code = ffi::replay_feed(state, memory, table, pending, left, &mut lines, &mut said);
            let [taken, written] = said.map(|count| count as usize);
            // A state of this type is never refused, and there is room for a line. A library of another
            // version would refuse it, and this would not end.
            assert!(code == 0 && taken > 0, "libreplay_abi.a is of another version");
            if written > 0 {
                write(&lines[..written]);
            }
            left = &left[taken..];
        }
    }

    /// Tells the end of the recording: hands the line of a record that was cut, `N cut`, to `write`,
    /// if there is one. The replay stays as it is, and takes a further part as if the end had not been
    /// told.
    pub fn finish(&self, mut write: impl FnMut(&[u8])) {
        let (mut line, mut said) = ([0; REPLAY_LINE_BYTES], [0; 2]);
        let code = ffi::replay_finish(&self.state, &mut line, &mut said);
        debug_assert_eq!(code, 0);
        if said[1] > 0 {
            write(&line[..said[1] as usize]);
        }
    }

    /// The hart's record.
    pub fn hart(&self) -> Hart {
        let mut words = [0; HART_WORDS];
        words.copy_from_slice(&self.state[..HART_WORDS]);
        Hart::from_words(words)
    }

    /// Memory. It has the length of a page and the only address that a page can have here, so that
    /// [`list`](crate::list) shows the page.
    pub fn memory(&self) -> &[u8] {
        &self.memory
    }

    /// The translation table: four words a slot.
    pub fn table(&self) -> &[u64] {
        &self.table
    }

    /// How many records are finished, each with its line; a bad one is not among them.
    pub fn records(&self) -> u64 {
        self.state[NUMBER].wrapping_sub(1)
    }

    /// The bytes of the record that is not whole yet; none after a bad one.
    pub fn rest(&self) -> &[u8] {
        &self.pending[..self.state[HAVE] as usize]
    }

    /// Whether a bad record has ended the replay.
    pub fn is_bad(&self) -> bool {
        self.state[ENDED] == 1
    }
}
