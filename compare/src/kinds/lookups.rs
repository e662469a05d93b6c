//! The lookup of a register's number, by itself.

use second::csr::REGISTERS;

use super::Result;
use crate::case::Case;

/// How many numbers of 12 bits there are.
const NUMBERS: u64 = 1 << 12;

/// How many cases flip one of 64 bits for each register of either width.
const FLIPS: u64 = 64 * REGISTERS.len() as u64;

/// How many cases are not random.
const FIXED: u64 = NUMBERS + 2 * FLIPS;

/// All numbers of 12 bits; each register with one bit of its number flipped, then with one of the
/// width; then random numbers, of which every other one ends in a register's number.
pub fn cases(times: u64) -> u64 {
    FIXED + 200_000 * times
}

/// One number.
pub fn run(case: &mut Case) -> Result {
    let bits = u64::from(case.xlen.bits());
    let register = |place: u64| REGISTERS[place as usize % REGISTERS.len()].number();
    let (bits, number) = match case.index {
        number @ 0..NUMBERS => (bits, number),
        index @ NUMBERS..FIXED => {
            let (flip, bit) = (index - NUMBERS, 1 << (index % 64));
            if flip < FLIPS {
                (bits, register(flip / 64) ^ bit)
            } else {
                (bits ^ bit, register(flip / 64))
            }
        }
        index if index % 2 == 0 => (bits, case.rng.bits() << 12 | register(index / 2)),
        _ => (bits, case.rng.bits()),
    };
    case.check_lookup(bits, number)
}
