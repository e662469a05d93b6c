//! The kinds of cases.

mod back;
mod back_page;
mod blocks;
mod calls;
mod dropped;
mod dropped_swaps;
mod extension;
mod fences;
mod fences_by_hand;
mod fences_drawn;
mod fences_named;
mod guests;
mod halves;
mod hypervisor;
mod inside;
mod listings;
mod lookups;
mod onward;
mod papers;
mod registers;
mod replays;
mod requests;
mod sets;
mod states;
mod stops;
mod tickets;
mod traps;
mod widths;

use second::xlen::Xlen;

use crate::case::{Case, Difference};

/// What running a case gives.
pub type Result = std::result::Result<(), Difference>;

/// A kind of cases, which are numbered from 0.
pub struct Kind {
    pub name: &'static str,
    /// How many cases there are at a width, with the random ones multiplied.
    pub cases: fn(Xlen, u64) -> u64,
    pub run: fn(&mut Case) -> Result,
}

impl Kind {
    /// A number of the kind's own at a width, so that they have different random numbers.
    pub fn salt(&self, xlen: Xlen) -> u64 {
        let width = 64 - u64::from(xlen.bits());
        self.name.bytes().fold(0, |salt: u64, byte| salt.rotate_left(8) ^ u64::from(byte)) ^ width
    }
}

/// A number for each width.
const fn by_width(xlen: Xlen, narrow: u64, wide: u64) -> u64 {
    match xlen {
        Xlen::X32 => narrow,
        Xlen::X64 => wide,
    }
}

/// All kinds, in the order in which they run.
pub const KINDS: [Kind; 23] = [
    Kind { name: "papers", cases: |_, _| papers::ROWS.len() as u64, run: papers::run },
    Kind { name: "registers", cases: |xlen, _| registers::cases(xlen), run: registers::run },
    Kind { name: "lookups", cases: |_, times| lookups::cases(times), run: lookups::run },
    Kind { name: "fresh", cases: |_, times| 64 * times, run: calls::fresh },
    Kind {
        name: "calls",
        cases: |xlen, times| by_width(xlen, 20_000, 40_000) * times,
        run: calls::call,
    },
    Kind { name: "blocks", cases: |_, times| 6_000 * times, run: blocks::run },
    Kind {
        name: "lines",
        cases: |xlen, times| by_width(xlen, 3_000, 6_000) * times,
        run: calls::lines,
    },
    Kind {
        name: "chains",
        cases: |xlen, times| by_width(xlen, 500, 1_000) * times,
        run: calls::chain,
    },
    Kind {
        name: "sets",
        cases: |xlen, times| by_width(xlen, 800, 1_600) * times,
        run: sets::chain,
    },
    Kind {
        name: "singles",
        cases: |xlen, times| by_width(xlen, 300, 600) * times,
        run: dropped::singles,
    },
    Kind {
        name: "inside",
        cases: |xlen, times| inside::cases(by_width(xlen, 3_000, 6_000) * times),
        run: inside::run,
    },
    Kind {
        name: "fences",
        cases: |xlen, times| fences::cases(by_width(xlen, 2_000, 4_000) * times),
        run: fences::run,
    },
    Kind {
        name: "stops",
        cases: |xlen, times| by_width(xlen, 200, 400) * times,
        run: stops::every,
    },
    Kind {
        name: "lists",
        cases: |xlen, times| by_width(xlen, 1_500, 3_000) * times,
        run: stops::list,
    },
    Kind {
        name: "listings",
        cases: |xlen, times| by_width(xlen, 4_000, 2_000) * times,
        run: listings::run,
    },
    Kind { name: "requests", cases: |_, times| 12_000 * times, run: requests::run },
    Kind {
        name: "queues",
        cases: |xlen, times| by_width(xlen, 520, 280) * times,
        run: requests::chain,
    },
    Kind { name: "halves", cases: |_, times| 2_000 * times, run: halves::run },
    Kind {
        name: "traps",
        cases: |xlen, times| by_width(xlen, 12_000, 24_000) * times,
        run: traps::run,
    },
    Kind { name: "guests", cases: |_, times| 1_000 * times, run: guests::chain },
    Kind {
        name: "replays",
        cases: |xlen, times| by_width(xlen, 0, 6_000) * times,
        run: replays::run,
    },
    Kind { name: "cuts", cases: |xlen, times| by_width(xlen, 0, 60) * times, run: replays::cuts },
    Kind {
        name: "states",
        cases: |xlen, times| by_width(xlen, 0, 12_000) * times,
        run: states::run,
    },
];
