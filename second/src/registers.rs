//! The register report: what every register reads after single writes from two harts.

use std::fmt::Write;

use crate::csr::{self, Csr};
use crate::hart::Hart;
use crate::xlen::Xlen;

/// A hart whose registers hold as many ones as writes can leave, with every line up.
pub fn full_hart(xlen: Xlen) -> Hart {
    let mut hart = Hart::fresh_at(xlen, 15);
    hart.lines = Hart::LINE_BITS;
    for &csr in csr::turn_order(xlen) {
        let value = match csr {
            Csr::Hgatp | Csr::Vsatp => 0x8FFF_FFFF_FFFF_FFFF,
            Csr::Hstatus => 0xFFFF_FFFF_FFFC_7FFF,
            _ => u64::MAX,
        };
        csr::write(&mut hart, csr, value);
    }
    hart
}

/// The values written to each register: all ones, zero, and each single bit.
fn values(xlen: Xlen) -> impl Iterator<Item = u64> {
    [xlen.ones(), 0].into_iter().chain((0..xlen.bits()).map(|bit| 1 << bit))
}

/// The whole report of a width, one line for each write.
pub fn report(xlen: Xlen) -> String {
    let mut text = String::new();
    for (name, start) in [("fresh", Hart::fresh_at(xlen, 15)), ("full", full_hart(xlen))] {
        for &csr in csr::turn_order(xlen) {
            for value in values(xlen) {
                report_write(&mut text, name, &start, csr, value);
            }
        }
    }
    text
}

/// One line: the write, then the readings of the register and of all that changed.
fn report_write(text: &mut String, name: &str, start: &Hart, written: Csr, value: u64) {
    let digits = 2 * start.xlen.bytes();
    let mut hart = start.clone();
    csr::write(&mut hart, written, value);
    let _ = write!(text, "{name} {:03x} {value:0digits$x}", written.number());
    for &csr in csr::turn_order(start.xlen) {
        let reading = csr::read(&hart, csr);
        if csr == written || reading != csr::read(start, csr) {
            let _ = write!(text, " {:03x}={reading:0digits$x}", csr.number());
        }
    }
    text.push('\n');
}
