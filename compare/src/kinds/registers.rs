//! The extension's table of index ranges, number by number, and every register's rule.

use second::calls::SYNC_CSR;
use second::csr::{self, Csr};
use second::hart::Hart;
use second::xlen::Xlen;
use second::{page, registers};

use super::tickets::{call, fact};
use super::Result;
use crate::case::Case;
use crate::scene::*;

/// Table 3: first and last number with the first index.
const RANGES: [(u64, u64, usize); 10] = [
    (0x200, 0x2FF, 0x000),
    (0x600, 0x67F, 0x100),
    (0x680, 0x6BF, 0x180),
    (0x6C0, 0x6FF, 0x1C0),
    (0xA00, 0xA7F, 0x200),
    (0xA80, 0xABF, 0x280),
    (0xAC0, 0xAFF, 0x2C0),
    (0xE00, 0xE7F, 0x300),
    (0xE80, 0xEBF, 0x380),
    (0xEC0, 0xEFF, 0x3C0),
];

/// How many values are written: all ones, zero, and each single bit.
fn values(xlen: Xlen) -> u64 {
    2 + u64::from(xlen.bits())
}

/// All indexes, then all writes to a fresh hart and to a full one.
pub fn cases(xlen: Xlen) -> u64 {
    1024 + 2 * csr::turn_order(xlen).len() as u64 * values(xlen)
}

/// One number of the table, or one write.
pub fn run(case: &mut Case) -> Result {
    match case.index {
        index @ 0..1024 => number(case, index as usize),
        index => write(case, index - 1024),
    }
}

/// The number with this index: if it is implemented, its bit and no other is cleared.
fn number(case: &mut Case, index: usize) -> Result {
    let holds = |range: &&(u64, u64, usize)| {
        (range.2..=range.2 + (range.1 - range.0) as usize).contains(&index)
    };
    let number = RANGES.iter().find(holds).map_or(0, |range| range.0 + (index - range.2) as u64);
    let xlen = case.xlen;
    let mut state = small(xlen, &[]);
    state.memory.bytes.fill(0xFF);
    if Csr::from_number(xlen, number).is_none() {
        return call(case, &state, SYNC_CSR, [number, 0, 0], -3).map(|_| ());
    }
    let end = call(case, &state, SYNC_CSR, [number, 0, 0], 0)?;
    let mut bitmap = [0xFF; 128];
    bitmap[index / 8] &= !(1 << (index % 8));
    fact(case, end.memory[0xF80..0x1000] == bitmap, "the bit that is cleared")?;
    let words = end.memory[0x1000..].chunks(xlen.bytes()).enumerate();
    let others = words.filter(|(at, word)| *at != index && word.iter().any(|&byte| byte != 0xFF));
    let others = others.count();
    fact(case, others == 0, "the word that is stored")
}

/// One value written to one register of a fresh or a full hart.
fn write(case: &mut Case, index: u64) -> Result {
    let (xlen, values, order) = (case.xlen, values(case.xlen), csr::turn_order(case.xlen));
    let value = match index % values {
        0 => u64::MAX,
        1 => 0,
        bit => 1 << (bit - 2),
    };
    let (hart, turn) = ((index / values) as usize / order.len(), (index / values) as usize);
    let csr = order[turn % order.len()];
    let mut state = small(xlen, &[]);
    if hart == 1 {
        state.hart = Hart { page: state.hart.page, ..registers::full_hart(xlen) };
    }
    mark(&mut state, csr, value);
    let end = call(case, &state, SYNC_CSR, [csr.number(), 0, 0], 0)?;
    fact(case, !page::is_dirty(&end.memory, csr), "the bit is cleared")
}
