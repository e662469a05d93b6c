//! Where the stored registers stand in the record, and all registers by their turns.

pub const HSTATUS: usize = 0;
pub const HGEIE: usize = 1;
pub const HIDELEG: usize = 2;
pub const HVIP: usize = 3;
pub const HIE: usize = 4;
pub const HEDELEG: usize = 5;
pub const HCOUNTEREN: usize = 7;
pub const HENVCFG: usize = 8;
pub const HTVAL: usize = 9;
pub const HTINST: usize = 10;
pub const HGATP: usize = 11;
pub const VSSTATUS: usize = 12;
pub const VSTVEC: usize = 13;
pub const VSEPC: usize = 15;
pub const VSATP: usize = 18;

/// The field VSXL of hstatus and UXL of vsstatus, which reads 2.
pub const XL_64: u64 = 2 << 32;

/// How many registers there are.
pub const TURNS: usize = 23;

/// The turns of the registers that are named one by one.
pub mod turn {
    pub const HSTATUS: usize = 0;
    pub const HGEIP: usize = 1;
    pub const HGEIE: usize = 2;
    pub const HIDELEG: usize = 3;
    pub const HVIP: usize = 4;
    pub const HIE: usize = 5;
    pub const HIP: usize = 6;
    pub const VSIE: usize = 7;
    pub const VSIP: usize = 8;
    pub const HTVAL: usize = 13;
    pub const HTINST: usize = 14;
}

/// The registers' numbers, in turn order.
const NUMBERS: [usize; TURNS] = [
    0x600, 0xE12, 0x607, 0x603, 0x645, 0x604, 0x644, 0x204, 0x244, 0x602, 0x605, 0x606, 0x60A,
    0x643, 0x64A, 0x680, 0x200, 0x205, 0x240, 0x241, 0x242, 0x243, 0x280,
];

/// The index, below 1,024, of the register with this number.
pub const fn index(number: usize) -> usize {
    ((number & 0xC00) >> 2) | (number & 0xFF)
}

/// The index of each register, in turn order.
pub const INDEX: [usize; TURNS] = {
    let mut indexes = [0; TURNS];
    let mut t = 0;
    while t < TURNS {
        indexes[t] = index(NUMBERS[t]);
        t += 1;
    }
    indexes
};

/// The turn of the register with an index, or 23 where there is none.
pub const TURN_AT: [u8; 1024] = {
    let mut turns = [TURNS as u8; 1024];
    let mut t = 0;
    while t < TURNS {
        turns[INDEX[t]] = t as u8;
        t += 1;
    }
    turns
};

/// The dirty bits of the implemented registers, 64 a word.
pub const MARKS: [u64; 16] = {
    let mut marks = [0; 16];
    let mut t = 0;
    while t < TURNS {
        marks[INDEX[t] / 64] |= 1 << (INDEX[t] % 64);
        t += 1;
    }
    marks
};
