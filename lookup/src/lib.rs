//! The proved lookup of a register by its number, by itself: for comparing and measuring only. It
//! is no part of the library for users, whose functions are those of `wrapper/`.

#![no_std]
#![deny(unsafe_code, missing_docs)]

mod c {
    extern "C" {
        pub fn nacl_lookup(xlen: u64, number: u64) -> u64;
    }
}

/// The turn of the register with this number at width 32 or 64, counted over the registers of
/// both; none where that width has none, and none for another width.
#[allow(unsafe_code)]
pub fn turn(xlen: u64, number: u64) -> Option<usize> {
    // The C function takes two numbers, any two, and touches no memory.
    let turn = unsafe { c::nacl_lookup(xlen, number) };
    (turn != u64::MAX).then_some(turn as usize)
}
