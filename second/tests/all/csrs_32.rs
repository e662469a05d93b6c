//! The register fields of width 32, and the well-made values of both widths.

use second::csr::{self, Csr};
use second::hart::Hart;
use second::registers;
use second::xlen::Xlen;

use crate::csrs::{after, starts, written};

/// hstatus has no VSXL, and keeps VGEIN alone where the number given is above 7.
#[test]
fn hstatus_fields() {
    let [fresh, full] = starts(Xlen::X32);
    assert_eq!(after(&fresh, 0x600, u64::MAX), 0x0070_03C0);
    assert_eq!(after(&fresh, 0x600, 7 << 12), 0x7000);
    assert_eq!(after(&fresh, 0x600, 8 << 12), 0);
    assert_eq!(full.hstatus, 0x0070_73C0);
    assert_eq!(after(&full, 0x600, 0), 0);
    assert_eq!(after(&full, 0x600, 0x20 << 12 | 0x40), 0x7040);
}

/// vsstatus has no UXL, and shows bit 31 exactly if bits 14:13 are 3.
#[test]
fn vsstatus_fields() {
    let [fresh, full] = starts(Xlen::X32);
    assert_eq!(after(&fresh, 0x200, u64::MAX), 0x800C_6122);
    assert_eq!(after(&fresh, 0x200, !(1 << 13)), 0x000C_4122);
    assert_eq!(after(&fresh, 0x200, 1 << 31 | 1 << 13), 0x2000);
    assert_eq!(after(&fresh, 0x200, 3 << 13), 0x8000_6000);
    assert_eq!(after(&full, 0x200, 0), 0);
}

/// hgatp takes MODE, VMID and PPN without its two low bits; bits 30:29 and 1:0 read 0.
#[test]
fn hgatp_fields() {
    for start in starts(Xlen::X32) {
        assert_eq!(after(&start, 0x680, 0xFFFF_FFFF), 0x9FFF_FFFC);
        for value in [0, 1 << 31, 0x7FFF_FFFF, 0x6000_0003, 0x1FC0_0000, 0x003F_FFFC] {
            assert_eq!(after(&start, 0x680, value), value & 0x9FFF_FFFC, "{value:x}");
        }
    }
}

/// vsatp takes every bit, whatever the mode was.
#[test]
fn vsatp_fields() {
    for start in starts(Xlen::X32) {
        for bit in 0..32 {
            assert_eq!(after(&start, 0x280, 1 << bit), 1 << bit);
        }
        for value in [0, 0xFFFF_FFFF, 0x7FFF_FFFF, 0x89AB_CDEF] {
            assert_eq!(after(&start, 0x280, value), value);
            assert_eq!(after(&start, 0x280, value | 0xF << 60), value);
        }
    }
}

/// vstvec is bits 31:2, and keeps its mode where it is 2 or 3.
#[test]
fn vstvec_fields() {
    let fresh = Hart::fresh_at(Xlen::X32, 15);
    let one = written(&fresh, Csr::Vstvec, 1);
    for mode in 0..4 {
        let taken = |old| if mode < 2 { mode } else { old };
        assert_eq!(after(&fresh, 0x205, 0xABC0 | mode), 0xABC0 | taken(0));
        assert_eq!(after(&one, 0x205, 0xABC0 | mode), 0xABC0 | taken(1));
    }
    assert_eq!(after(&fresh, 0x205, u64::MAX), 0xFFFF_FFFC);
    assert_eq!(after(&one, 0x205, u64::MAX), 0xFFFF_FFFD);
}

/// htimedeltah holds all 32 bits beside htimedelta; henvcfgh reads 0, and a write does nothing.
#[test]
fn upper_halves() {
    for start in starts(Xlen::X32) {
        let hart = written(&start, Csr::Htimedeltah, 0x1234_5678_9ABC_DEF0);
        assert_eq!(hart, Hart { htimedeltah: 0x9ABC_DEF0, ..start.clone() });
        assert_eq!(csr::read(&hart, Csr::Htimedeltah), 0x9ABC_DEF0);
        assert_eq!(csr::read(&hart, Csr::Htimedelta), start.htimedelta);
        assert_eq!(written(&start, Csr::Henvcfgh, u64::MAX), start);
        assert_eq!(csr::read(&start, Csr::Henvcfgh), 0);
    }
    assert_eq!(registers::full_hart(Xlen::X32).htimedeltah, 0xFFFF_FFFF);
}

/// Whether a stored register of width 64 may hold the value, told by its bits.
fn legal_64(csr: Csr, value: u64) -> bool {
    let within = |mask: u64| value & !mask == 0;
    let xl = value >> 32 & 3 == 2;
    match csr {
        Csr::Hstatus => within(0x3_0070_73C0) && xl,
        Csr::Hgeie => within(0xFE),
        Csr::Hideleg | Csr::Hvip => within(0x444),
        Csr::Hie => within(0x1444),
        Csr::Hedeleg => within(0xB1FF),
        Csr::Htimedeltah => value == 0,
        Csr::Hcounteren => within(7),
        Csr::Henvcfg => within(1),
        Csr::Hgatp => within(0x83FF_FFFF_FFFF_FFFC),
        Csr::Vsstatus => {
            let both = value >> 13 & 3 == 3;
            within(0x8000_0003_000C_6122) && xl && (value >> 63 == 1) == both
        }
        Csr::Vstvec => within(!2),
        Csr::Vsepc => within(!1),
        Csr::Vsatp => within(0x8FFF_FFFF_FFFF_FFFF),
        _ => true,
    }
}

/// The same for width 32: most rules are those of width 64, with bits above 31 clear.
fn legal_32(csr: Csr, value: u64) -> bool {
    let within = |mask: u64| value & !mask == 0;
    match csr {
        Csr::Hstatus => within(0x0070_73C0),
        Csr::Hgatp => within(0x9FFF_FFFC),
        Csr::Vsstatus => within(0x800C_6122) && (value >> 31 == 1) == (value >> 13 & 3 == 3),
        Csr::Vsatp | Csr::Htimedeltah => within(0xFFFF_FFFF),
        _ => within(0xFFFF_FFFF) && legal_64(csr, value),
    }
}

/// Well made is told apart for every stored register, with one and with two bits changed.
#[test]
fn well_made_values() {
    for xlen in Xlen::BOTH {
        let legal = if xlen == Xlen::X32 { legal_32 } else { legal_64 };
        for start in starts(xlen) {
            for csr in csr::REGISTERS.into_iter().filter(|csr| csr.is_stored()) {
                for pair in 0..64 * 64 {
                    let mut hart = start.clone();
                    let field = hart.stored_mut(csr).unwrap();
                    *field ^= 1 << (pair / 64) | 1 << (pair % 64);
                    let value = *field;
                    let expected = legal(csr, value);
                    assert_eq!(hart.is_well_made(), expected, "{xlen:?} {csr:?} {value:x}");
                }
            }
        }
    }
}

/// At width 32 no word of the record has a bit above 31; at width 64 these bits are free.
#[test]
fn upper_bits_of_words() {
    for xlen in Xlen::BOTH {
        let start = registers::full_hart(xlen);
        for bit in 32..64 {
            let words: [fn(&mut Hart) -> &mut u64; 6] = [
                |hart| &mut hart.pc,
                |hart| &mut hart.sepc,
                |hart| hart.page.insert(0),
                |hart| &mut hart.x[1],
                |hart| &mut hart.x[17],
                |hart| &mut hart.x[31],
            ];
            for (place, word) in words.iter().enumerate() {
                let mut hart = start.clone();
                *word(&mut hart) = 1 << bit;
                assert_eq!(hart.is_well_made(), xlen == Xlen::X64, "word {place} bit {bit}");
            }
            let mut hart = start.clone();
            hart.lines |= 1 << bit;
            assert!(!hart.is_well_made());
            let mut hart = start.clone();
            hart.x[0] |= 1 << bit;
            assert!(!hart.is_well_made());
        }
        let greatest = Hart {
            pc: xlen.ones(),
            sepc: xlen.ones() - 1,
            page: Some(xlen.ones() - 0xFFF),
            ..start.clone()
        };
        assert!(greatest.is_well_made());
    }
}

/// The report of width 32: words of eight digits, 25 registers, 32 single bits.
#[test]
fn register_report() {
    let report = registers::report(Xlen::X32);
    let lines: Vec<&str> = report.lines().collect();
    assert_eq!(lines.len(), 2 * 25 * 34);
    assert_eq!(lines[0], "fresh 600 ffffffff 600=007003c0");
    assert_eq!(lines[4 * 34 + 4], "fresh 645 00000004 645=00000004 644=00000004");
    assert_eq!(lines[11 * 34], "fresh 615 ffffffff 615=ffffffff");
    assert_eq!(lines[14 * 34], "fresh 61a ffffffff 61a=00000000");
    assert_eq!(lines[17 * 34], "fresh 680 ffffffff 680=9ffffffc");
    assert_eq!(lines[18 * 34], "fresh 200 ffffffff 200=800c6122");
    assert_eq!(lines[25 * 34 + 34], "full e12 ffffffff e12=000000fe");
    assert_eq!(lines.last(), Some(&"full 280 80000000 280=80000000"));
}
