//! The register rules: turn order, followers, masks, readings, kept fields, well-made values. The
//! fields of width 32 are in a file of their own.

use second::csr::{self, Csr};
use second::gen;
use second::hart::{Hart, Mode};
use second::registers;
use second::rng::Rng;
use second::xlen::Xlen;

/// The numbers of width 64 in turn order, copied from the paper.
const NUMBERS_64: [u64; 23] = [
    0x600, 0xE12, 0x607, 0x603, 0x645, 0x604, 0x644, 0x204, 0x244, 0x602, 0x605, 0x606, 0x60A,
    0x643, 0x64A, 0x680, 0x200, 0x205, 0x240, 0x241, 0x242, 0x243, 0x280,
];

/// The numbers of width 32: the two upper halves come after their lower halves.
const NUMBERS_32: [u64; 25] = [
    0x600, 0xE12, 0x607, 0x603, 0x645, 0x604, 0x644, 0x204, 0x244, 0x602, 0x605, 0x615, 0x606,
    0x60A, 0x61A, 0x643, 0x64A, 0x680, 0x200, 0x205, 0x240, 0x241, 0x242, 0x243, 0x280,
];

/// Both widths with their numbers.
const NUMBERS: [(Xlen, &[u64]); 2] = [(Xlen::X32, &NUMBERS_32), (Xlen::X64, &NUMBERS_64)];

/// The numbers of followers, copied from the paper.
const FOLLOWERS: [(u64, &[u64]); 8] = [
    (0x600, &[0x644, 0x244]),
    (0x607, &[0x644]),
    (0x603, &[0x204, 0x244]),
    (0x645, &[0x644, 0x244]),
    (0x604, &[0x204]),
    (0x644, &[0x645, 0x244]),
    (0x204, &[0x604]),
    (0x244, &[0x645, 0x644]),
];

/// The reading of a register after one write to a hart.
pub fn after(start: &Hart, number: u64, value: u64) -> u64 {
    let mut hart = start.clone();
    csr::write_number(&mut hart, number, value);
    csr::read(&hart, Csr::from_number(hart.xlen, number).unwrap())
}

/// A fresh hart and a full one.
pub fn starts(xlen: Xlen) -> [Hart; 2] {
    [Hart::fresh_at(xlen, 15), registers::full_hart(xlen)]
}

/// Turn order and followers are the paper's.
#[test]
fn order_and_followers() {
    for (xlen, numbers) in NUMBERS {
        let order = csr::turn_order(xlen);
        assert_eq!(order.iter().map(|csr| csr.number()).collect::<Vec<_>>(), numbers);
        for csr in order {
            let listed = FOLLOWERS.iter().find(|(number, _)| *number == csr.number());
            let expected = listed.map_or(&[][..], |(_, followers)| *followers);
            let found: Vec<u64> = csr.followers().iter().map(|csr| csr.number()).collect();
            assert_eq!(found, expected);
        }
        let stored = order.iter().filter(|csr| csr.is_stored()).count();
        assert_eq!(stored, if xlen == Xlen::X32 { 20 } else { 19 });
    }
}

/// Only the numbers of the width are implemented; a write to another leaves the record as it was.
#[test]
fn unimplemented_numbers() {
    for (xlen, numbers) in NUMBERS {
        let start = registers::full_hart(xlen);
        for number in (0..0x2000).chain([0x600 | 1 << 32, u64::MAX]) {
            assert_eq!(Csr::from_number(xlen, number).is_some(), numbers.contains(&number));
            if !numbers.contains(&number) {
                let mut hart = start.clone();
                csr::write_number(&mut hart, number, 0);
                assert_eq!(hart, start);
            }
        }
    }
}

/// A write to an upper half at width 64 leaves the record as it was, by number or not.
#[test]
fn upper_halves_at_64() {
    let start = registers::full_hart(Xlen::X64);
    for csr in [Csr::Htimedeltah, Csr::Henvcfgh] {
        assert_eq!(written(&start, csr, u64::MAX), start);
        assert!(!csr.is_at(Xlen::X64) && csr.is_at(Xlen::X32));
    }
}

/// A fresh hart is as the paper says, and keeps four feature bits.
#[test]
fn fresh_hart() {
    for (xlen, fixed) in [(Xlen::X32, 0), (Xlen::X64, 0x2_0000_0000)] {
        let hart = Hart::fresh_at(xlen, 0xFFF5);
        assert_eq!((hart.features, hart.xlen), (5, xlen));
        assert!(hart.is_well_made());
        assert!(!hart.virt && hart.mode == Mode::S && hart.page.is_none());
        assert!(!hart.sie && !hart.spie && !hart.spp);
        assert_eq!((hart.pc, hart.sepc, hart.lines, hart.x), (0, 0, 0, [0; 32]));
        for csr in csr::REGISTERS {
            let has_field = matches!(csr, Csr::Hstatus | Csr::Vsstatus);
            assert_eq!(csr::read(&hart, csr), if has_field { fixed } else { 0 });
        }
    }
    assert_eq!(Hart::fresh(7), Hart::fresh_at(Xlen::X64, 7));
}

/// Registers with a plain mask take exactly its bits.
#[test]
fn plain_masks() {
    let masks = [
        (0x607, 0xFE),
        (0x603, 0x444),
        (0x645, 0x444),
        (0x604, 0x1444),
        (0x602, 0xB1FF),
        (0x605, u64::MAX),
        (0x606, 7),
        (0x60A, 1),
        (0x643, u64::MAX),
        (0x64A, u64::MAX),
        (0x240, u64::MAX),
        (0x241, u64::MAX - 1),
        (0x242, u64::MAX),
        (0x243, u64::MAX),
    ];
    let mut rng = Rng::new(1);
    for xlen in Xlen::BOTH {
        let width = if xlen == Xlen::X32 { 0xFFFF_FFFF } else { u64::MAX };
        for (number, mask) in masks {
            for start in starts(xlen) {
                for _ in 0..100 {
                    let value = rng.bits();
                    assert_eq!(after(&start, number, value), value & mask & width);
                }
            }
        }
    }
}

/// hstatus keeps VGEIN alone where the number given is above 7.
#[test]
fn hstatus_fields() {
    let start = Hart::fresh(15);
    assert_eq!(after(&start, 0x600, u64::MAX), 0x2_0070_03C0);
    assert_eq!(after(&start, 0x600, 7 << 12), 0x2_0000_7000);
    assert_eq!(after(&start, 0x600, 8 << 12), 0x2_0000_0000);
    let full = registers::full_hart(Xlen::X64);
    assert_eq!(full.hstatus, 0x2_0070_73C0);
    assert_eq!(after(&full, 0x600, 0), 0x2_0000_0000);
    assert_eq!(after(&full, 0x600, 0x20 << 12 | 0x40), 0x2_0000_7040);
}

/// vsstatus shows bit 63 exactly if bits 14:13 are 3.
#[test]
fn vsstatus_fields() {
    let start = Hart::fresh(15);
    assert_eq!(after(&start, 0x200, u64::MAX), 0x8000_0002_000C_6122);
    assert_eq!(after(&start, 0x200, !(1 << 13)), 0x2_000C_4122);
    assert_eq!(after(&start, 0x200, 1 << 63 | 1 << 13), 0x2_0000_2000);
    assert_eq!(after(&start, 0x200, 3 << 13), 0x8000_0002_0000_6000);
    assert_eq!(after(&registers::full_hart(Xlen::X64), 0x200, 0), 0x2_0000_0000);
}

/// hgatp and vsatp keep MODE where it is neither 0 nor 8, and take the rest.
#[test]
fn atp_fields() {
    for (number, mask) in [(0x680, 0x03FF_FFFF_FFFF_FFFC), (0x280, 0x0FFF_FFFF_FFFF_FFFF)] {
        for (start, old) in [(Hart::fresh(15), 0), (registers::full_hart(Xlen::X64), 8)] {
            for mode in 0..16 {
                let taken = if mode == 0 || mode == 8 { mode } else { old };
                for low in [0, 0x0FFF_FFFF_FFFF_FFFF, 0x0123_4567_89AB_CDEF] {
                    let reading = after(&start, number, mode << 60 | low);
                    assert_eq!(reading, taken << 60 | low & mask);
                }
            }
        }
    }
}

/// vstvec keeps its mode where it is 2 or 3.
#[test]
fn vstvec_fields() {
    let start = Hart::fresh(15);
    let mut one = start.clone();
    csr::write(&mut one, Csr::Vstvec, 1);
    for mode in 0..4 {
        let taken = |old| if mode < 2 { mode } else { old };
        assert_eq!(after(&start, 0x205, 0xABC0 | mode), 0xABC0 | taken(0));
        assert_eq!(after(&one, 0x205, 0xABC0 | mode), 0xABC0 | taken(1));
    }
    assert_eq!(after(&start, 0x205, u64::MAX), u64::MAX - 3);
}

/// hip, vsip and vsie read what their sources say, for all small combinations.
#[test]
fn computed_readings() {
    let spread = |k: u64| (k & 1) << 2 | (k >> 1 & 1) << 6 | (k >> 2 & 1) << 10;
    for lines in (0..0x100).step_by(2) {
        for (k, xlen) in (0..512).flat_map(|k| Xlen::BOTH.map(|xlen| (k, xlen))) {
            let mut hart = Hart::fresh_at(xlen, 15);
            hart.lines = lines;
            hart.hvip = spread(k);
            hart.hideleg = spread(k >> 3);
            hart.hie = spread(k >> 6) | 1 << 12;
            hart.hgeie = lines & 0x0A;
            let vgein = k % 8;
            hart.hstatus |= vgein << 12;
            let line_up = vgein != 0 && lines & 1 << vgein != 0;
            let bit_12 = if lines & 0x0A != 0 { 0x1000 } else { 0 };
            let hip = hart.hvip | u64::from(line_up) << 10 | bit_12;
            assert_eq!(csr::read(&hart, Csr::Hgeip), lines);
            assert_eq!(csr::read(&hart, Csr::Hip), hip);
            for bit in [2, 6, 10] {
                let delegated = hart.hideleg >> bit & 1;
                let vsip = csr::read(&hart, Csr::Vsip) >> (bit - 1) & 1;
                let vsie = csr::read(&hart, Csr::Vsie) >> (bit - 1) & 1;
                assert_eq!(vsip, delegated & hip >> bit);
                assert_eq!(vsie, delegated & hart.hie >> bit);
            }
            assert_eq!(csr::read(&hart, Csr::Vsip) & !0x222, 0);
            assert_eq!(csr::read(&hart, Csr::Vsie) & !0x222, 0);
        }
    }
}

/// Writes to hip, vsip, vsie and hgeip change the bits the paper names and no other field.
#[test]
fn computed_writes() {
    let mut rng = Rng::new(2);
    for round in 0..4000 {
        let start = gen::hart(&mut rng, Xlen::BOTH[round % 2]);
        let value = rng.bits();
        let moved = |old: u64, to: u64, from: u64| old & !(1 << to) | (value >> from & 1) << to;

        let mut expected = start.clone();
        expected.hvip = moved(expected.hvip, 2, 2);
        assert_eq!(written(&start, Csr::Hip, value), expected);

        let mut expected = start.clone();
        if start.hideleg & 4 != 0 {
            expected.hvip = moved(expected.hvip, 2, 1);
        }
        assert_eq!(written(&start, Csr::Vsip, value), expected);

        let mut expected = start.clone();
        for (to, from) in [(2, 1), (6, 5), (10, 9)] {
            if start.hideleg & 1 << to != 0 {
                expected.hie = moved(expected.hie, to, from);
            }
        }
        assert_eq!(written(&start, Csr::Vsie, value), expected);
        assert_eq!(written(&start, Csr::Hgeip, value), start);
        assert_eq!(written(&start, Csr::Henvcfgh, value), start);
    }
}

/// The hart after one write.
pub fn written(start: &Hart, csr: Csr, value: u64) -> Hart {
    let mut hart = start.clone();
    csr::write(&mut hart, csr, value);
    hart
}

/// Every write leaves a well-made record well made, and every reading fits in a word.
#[test]
fn writes_keep_well_made() {
    for xlen in Xlen::BOTH {
        let mut rng = Rng::new(3);
        let mut hart = Hart::fresh_at(xlen, 15);
        for _ in 0..20_000 {
            let csr = rng.pick(csr::turn_order(xlen));
            let value = gen::word(&mut rng, Xlen::X64);
            csr::write(&mut hart, csr, value);
            assert!(hart.is_well_made());
            assert!(xlen.holds(csr::read(&hart, csr)));
        }
    }
}

/// The register report has its lines in order, and a few of them are known.
#[test]
fn register_report() {
    let report = registers::report(Xlen::X64);
    let lines: Vec<&str> = report.lines().collect();
    assert_eq!(lines.len(), 2 * 23 * 66);
    assert_eq!(lines[0], "fresh 600 ffffffffffffffff 600=00000002007003c0");
    assert_eq!(
        lines[4 * 66 + 4],
        "fresh 645 0000000000000004 645=0000000000000004 644=0000000000000004"
    );
    assert_eq!(lines[23 * 66 + 66], "full e12 ffffffffffffffff e12=00000000000000fe");
    assert!(lines.last().unwrap().starts_with("full 280 8000000000000000 280=8000000000000000"));
}
