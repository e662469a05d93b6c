//! Random records of a width: good, in the guest, damaged.

use super::word;
use crate::csr;
use crate::hart::{Hart, Mode};
use crate::rng::Rng;
use crate::xlen::Xlen;

/// A well-made record that may make calls, with some page address or none.
pub fn hart(rng: &mut Rng, xlen: Xlen) -> Hart {
    let mut hart = Hart::fresh_at(xlen, if rng.one_in(3) { rng.bits() } else { 15 });
    for &csr in csr::turn_order(xlen) {
        for _ in 0..rng.below(3) {
            let value = word(rng, xlen);
            csr::write(&mut hart, csr, value);
        }
    }
    // Small VGEIN numbers are rare among random words, so one is often chosen here.
    if rng.one_in(2) {
        hart.hstatus = (hart.hstatus & !csr::VGEIN) | (rng.below(8) << 12);
    }
    hart.lines = word(rng, xlen) & Hart::LINE_BITS;
    hart.page = if rng.one_in(4) { None } else { Some(word(rng, xlen) & !0xFFF) };
    hart.pc = word(rng, xlen);
    hart.sepc = word(rng, xlen) & !1;
    hart.stvec = word(rng, xlen) & !3;
    hart.scause = word(rng, xlen);
    hart.stval = word(rng, xlen);
    hart.sie = rng.one_in(2);
    hart.spie = rng.one_in(2);
    hart.spp = rng.one_in(2);
    for i in 1..32 {
        hart.x[i] = xlen.cut(rng.bits());
    }
    hart.dropped = dropped(rng);
    hart
}

/// A count of writes with dropped bits: none, any, the last, or one that a call can bring there.
fn dropped(rng: &mut Rng) -> u32 {
    match rng.below(4) {
        0 => 0,
        1 => rng.bits() as u32,
        2 => u32::MAX,
        _ => u32::MAX - rng.pick(&[1, 1, 2, 3, 12]),
    }
}

/// A record with V on or in mode U.
pub fn guest_hart(rng: &mut Rng, xlen: Xlen) -> Hart {
    let mut hart = hart(rng, xlen);
    hart.virt = rng.one_in(2);
    hart.mode = if hart.virt && rng.one_in(2) { Mode::S } else { Mode::U };
    hart
}

/// A record with one field changed to something that may be illegal.
pub fn damaged_hart(rng: &mut Rng, xlen: Xlen) -> Hart {
    let mut hart = hart(rng, xlen);
    if xlen == Xlen::X32 && rng.one_in(3) {
        set_upper_bit(rng, &mut hart);
        return hart;
    }
    match rng.below(10) {
        0 => hart.lines |= 1 << rng.below(64),
        1 => hart.sepc |= 1,
        2 => hart.page = Some(word(rng, xlen) | (1 << rng.below(12))),
        3 => hart.x[0] = word(rng, xlen),
        4 => hart.features = word(rng, xlen),
        5 => hart.stvec |= 1 + rng.below(3),
        _ => {
            let csr = rng.pick(csr::turn_order(xlen));
            let bit = 1 << rng.below(64);
            if let Some(field) = hart.stored_mut(csr) {
                *field ^= bit;
            }
        }
    }
    hart
}

/// Sets a bit above 31 in one of the words of the record that have no rule of their own.
fn set_upper_bit(rng: &mut Rng, hart: &mut Hart) {
    let bit = 1 << (32 + rng.below(32));
    match rng.below(8) {
        0 => hart.pc |= bit,
        1 => hart.sepc |= bit,
        2 => hart.page = Some(hart.page.unwrap_or(0) | bit),
        3 => hart.stvec |= bit,
        4 => hart.scause |= bit,
        5 => hart.stval |= bit,
        _ => hart.x[rng.below(32) as usize] |= bit,
    }
}
