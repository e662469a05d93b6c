//! Tests of the wrapper: each function against the answer that the papers name.

mod calls;
mod common;
mod dropped;
mod dropped_swaps;
mod garbage;
mod names;
mod narrow;
mod records;
mod replay_blocks;
mod replays;
mod requests;
mod sets;
mod texts;
mod traps;
mod traps_page;
