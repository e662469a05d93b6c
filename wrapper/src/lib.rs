//! Safe functions over the proved L0 monitor of the SBI nested acceleration extension
//! (EID 0x4E41434C), for one hart at XLEN 32 or 64.
//!
//! A [`Monitor`] is what a call is lent: the hart's record ([`Hart`]), L1 memory
//! ([`Memory`]) and the translation table, a slice of words, four a slot. Its methods have
//! the names of RustSBI's trait for the extension. Whatever the three hold, a code comes back,
//! and a refusal changes none of them. The width is the hart's; [`Xlen`] has its sizes.
//!
//! ```
//! use nathiroeng::{Hart, Memory, Monitor, SbiRet, Xlen, ALL};
//!
//! let mut hart = Hart::fresh(Xlen::X64, 15);
//! let mut bytes = [0; Xlen::X64.page_bytes()];
//! let mut monitor = Monitor {
//!     hart: &mut hart,
//!     memory: Memory { base: 0x8000_0000, bytes: &mut bytes },
//!     table: &mut [],
//! };
//! assert_eq!(monitor.set_shmem(0x8000_0000, 0, 0), SbiRet::success(0));
//! assert_eq!(monitor.sync_csr(ALL).ret, SbiRet::success(0));
//! assert_eq!(monitor.sync_csr(0x344).ret, SbiRet::invalid_param());
//! ```
//!
//! An answer also has the [`Reports`] of register writes that dropped bits, as of a mode that is not
//! supported.
//!
//! After [`sync_sret`](Monitor::sync_sret) the hart may be in its guest; a [`Trap`] brings it back
//! ([`trap`](Monitor::trap)).
//!
//! A [`Page`] is the other side's: a hypervisor fills the shared page with it, after it is set. The
//! numbers of the registers are in [`csr`].
//!
//! A [`Replay`] carries out a recording of calls, stores, line changes, placed slots and traps that
//! arrives in parts, and tells a line for each record.
//!
//! The crate needs no allocator and no standard library. The proofs are of the linked library;
//! this crate only passes slices on to it.

#![no_std]
#![deny(unsafe_code, missing_docs)]

mod answer;
pub mod csr;
#[allow(unsafe_code)]
mod ffi;
mod hart;
mod hfence;
mod monitor;
mod page;
mod replay;
mod report;
mod trap;
mod xlen;

pub mod blocks {
    //! The library's functions as they are in C, on slices: a record is a block of 68 words,
    //! an answer a block of five. A record's block of another length is told by a code, an
    //! answer's is left alone; neither is read or written past its end. Reports are two words each,
    //! and may have any room. The requests that fill a page take its bytes and the bits of a width,
    //! and give a value or a negative code. A replay's state is a block of 71 words; what one of its
    //! functions refuses it leaves alone, the words of its answer too.
    pub use crate::ffi::{call, fresh, line_change, list, sync_stoppable, trap};
    pub use crate::ffi::{fill_context, queue_hfence, write_csr};
    pub use crate::ffi::{replay_feed, replay_finish, replay_start};
}

pub use answer::{Answer, Run, SbiRet, Sret};
pub use ffi::list;
pub use hart::{Hart, Mode};
pub use hfence::{Hfence, HfenceType};
pub use monitor::{Memory, Monitor};
pub use page::Page;
pub use replay::Replay;
pub use report::{Report, Reports};
pub use trap::Trap;
pub use xlen::Xlen;

/// The extension's number.
pub const EID: u64 = 0x4E41_434C;

/// The parameter that asks for every register or every entry, or, twice, for no page. A hart of
/// width 32 takes its low 32 bits, which are all ones too.
pub const ALL: u64 = u64::MAX;

/// The bytes of a shared page of width 64, enough for one of width 32;
/// [`Xlen::page_bytes`] has those of either.
pub const PAGE_BYTES: usize = Xlen::X64.page_bytes();

/// The most bytes that a listing has.
pub const LIST_BYTES: usize = 23_000;

/// The words of a record's block, at both widths.
pub const HART_WORDS: usize = 68;

/// The words of an answer's block: value, resumed, steps, finished, and how many reports there are.
pub const ANSWER_WORDS: usize = 5;

/// The words of as many reports as there can be, two each: of the 25 registers and the swap.
pub const REPORT_WORDS: usize = 52;

/// The words of a replay's state: a record's block, the number of the record that comes next, how
/// many of its bytes are there, and 1 where a bad header has ended the replay, else 0.
pub const REPLAY_STATE_WORDS: usize = HART_WORDS + 3;

/// The bytes of a replay's memory, which are those of a page of width 64.
pub const REPLAY_MEMORY_BYTES: usize = Xlen::X64.page_bytes();

/// The words of a replay's table: 64 slots.
pub const REPLAY_TABLE_WORDS: usize = 4 * 64;

/// The bytes of the longest record: a header and a write of 4,096 bytes.
pub const REPLAY_PENDING_BYTES: usize = 6 + 8 + 4_096;

/// Room for the longest line of a replay: 87 bytes, and 21 more for each of 26 reports, since a state
/// that is lent may have width 32.
pub const REPLAY_LINE_BYTES: usize = 633;

/// The numbers of the calls.
pub mod fid {
    /// Probe a feature.
    pub const PROBE_FEATURE: u64 = 0;
    /// Set the shared page, which becomes blank, or drop it.
    pub const SET_SHMEM: u64 = 1;
    /// Synchronize registers.
    pub const SYNC_CSR: u64 = 2;
    /// Synchronize fences.
    pub const SYNC_HFENCE: u64 = 3;
    /// Synchronize everything and return to the guest.
    pub const SYNC_SRET: u64 = 4;
}
