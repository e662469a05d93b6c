//! The C functions of replay, and the same on slices.

mod c {
    extern "C" {
        pub fn nacl_replay_start(
            state: *mut u64,
            state_words: usize,
            memory: *mut u8,
            memory_bytes: usize,
            table: *mut u64,
            table_words: usize,
        ) -> i64;

        pub fn nacl_replay_feed(
            state: *mut u64,
            state_words: usize,
            memory: *mut u8,
            memory_bytes: usize,
            table: *mut u64,
            table_words: usize,
            pending: *mut u8,
            pending_bytes: usize,
            part: *const u8,
            part_bytes: usize,
            out: *mut u8,
            out_bytes: usize,
            said: *mut u64,
            said_words: usize,
        ) -> i64;

        pub fn nacl_replay_finish(
            state: *const u64,
            state_words: usize,
            out: *mut u8,
            out_bytes: usize,
            said: *mut u64,
            said_words: usize,
        ) -> i64;
    }
}

/// Begins a replay: makes the state that of one which has seen nothing, and zeroes the memory and
/// the table. 0, or -1 where one of the three has another length; nothing then changes.
pub fn replay_start(state: &mut [u64], memory: &mut [u8], table: &mut [u64]) -> i64 {
    unsafe {
        c::nacl_replay_start(
            state.as_mut_ptr(),
            state.len(),
            memory.as_mut_ptr(),
            memory.len(),
            table.as_mut_ptr(),
            table.len(),
        )
    }
}

/// Feeds a replay with a part of its recording, and writes the lines of the records that become
/// whole to the start of `out`. 0, with how many bytes of the part were taken and how many of
/// `out` written in `said`. All of the part is taken unless fewer than
/// [`REPLAY_LINE_BYTES`](crate::REPLAY_LINE_BYTES) bytes of `out` are left: feed again with what was not taken.
///
/// -1, and nothing changes, where the state is none, `said` has not two words, another slice has
/// not its length, or `pending` does not hold the beginning of a record. `pending` and `out` may be
/// longer.
pub fn replay_feed(
    state: &mut [u64],
    memory: &mut [u8],
    table: &mut [u64],
    pending: &mut [u8],
    part: &[u8],
    out: &mut [u8],
    said: &mut [u64],
) -> i64 {
    unsafe {
        c::nacl_replay_feed(
            state.as_mut_ptr(),
            state.len(),
            memory.as_mut_ptr(),
            memory.len(),
            table.as_mut_ptr(),
            table.len(),
            pending.as_mut_ptr(),
            pending.len(),
            part.as_ptr(),
            part.len(),
            out.as_mut_ptr(),
            out.len(),
            said.as_mut_ptr(),
            said.len(),
        )
    }
}

/// Writes what is printed at the end of the recording to the start of `out`: the line of a record
/// that was cut, or nothing. 0, with 0 and how many bytes were written in `said`; or -1, and nothing
/// changes, as for [`replay_feed`].
pub fn replay_finish(state: &[u64], out: &mut [u8], said: &mut [u64]) -> i64 {
    unsafe {
        c::nacl_replay_finish(
            state.as_ptr(),
            state.len(),
            out.as_mut_ptr(),
            out.len(),
            said.as_mut_ptr(),
            said.len(),
        )
    }
}
