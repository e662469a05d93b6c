//! The calls, the trap back and the requests once more, written for speed: the record is changed in
//! place, nothing is allocated, a table finds a register's number, and each fence entry is decoded
//! once.
//!
//! The stoppable form makes the steps in their order. The whole register call for all-ones makes
//! all writes first and then stores each word once, which ends in the same state. A fence call
//! passes the table once for each pending entry.
//!
//! It is for width 64; of width 32 it has the whole fence call alone, whose check 1 does not look at
//! the record. Neither the lister nor the lookup by itself is written again, and the bits that
//! register writes drop are neither reported nor counted.

mod answers;
mod calls;
mod fences;
mod page;
mod record;
mod registers;
mod requests;
mod traps;
mod words;

pub use answers::{Answer, Run};
pub use calls::{call, line_change, narrow_fence, stoppable};
pub use record::{Record, State};
pub use requests::{fill_context, queue_fence, write_csr};
pub use traps::trap;

/// How many steps may still be made.
trait Budget {
    /// Whether there is no limit.
    const WHOLE: bool;
    /// Takes one step; false if none is left.
    fn step(&mut self) -> bool;
}

/// No limit.
struct Whole;

impl Budget for Whole {
    const WHOLE: bool = true;

    #[inline(always)]
    fn step(&mut self) -> bool {
        true
    }
}

/// So many steps.
struct Limited {
    left: u64,
}

impl Budget for Limited {
    const WHOLE: bool = false;

    #[inline(always)]
    fn step(&mut self) -> bool {
        if self.left == 0 {
            return false;
        }
        self.left -= 1;
        true
    }
}
