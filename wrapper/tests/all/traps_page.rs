//! The trap back by hand, at both widths: what it leaves in the page, and the swap.

use nathiroeng::{Memory, Mode, Monitor, Xlen};

use crate::common::*;
use crate::traps::{guest, take, vsxl, ECALL, FAULT};

/// The five words are stored, and no other byte of a page without marks changes.
#[test]
fn five_words() {
    for (xlen, places) in [
        (Xlen::X32, [0x1400, 0x150C, 0x1528, 0x1510, 0x1110]),
        (Xlen::X64, [0x1800, 0x1A18, 0x1A50, 0x1A20, 0x1220]),
    ] {
        let (mut hart, mut bytes) = (guest(xlen, Mode::S), page(xlen));
        bytes.fill(0xA5);
        bytes[0xF80..0x1000].fill(0);
        bytes[0x200] = 0xFE; // every flag but the one of hstatus
        let mut expected = bytes.clone();
        take(&mut hart, &mut bytes, FAULT);
        let words = [vsxl(xlen) | 0x20_53C0, 0x1402, 0x3003, 0x1404, 0x202];
        for (place, word) in places.into_iter().zip(words) {
            put(xlen, &mut expected, place, word);
        }
        assert_eq!(bytes, expected);
    }
}

/// A word that is marked stays, and its mark; without feature 0 it is stored all the same, and the
/// mark stays.
#[test]
fn dirty_words() {
    let shown = [0x600, 0x643, 0x64A, 0x644, 0x244];
    for xlen in WIDTHS {
        let readings = [vsxl(xlen) | 0x20_53C0, 0x1402, 0x3003, 0x1404, 0x202];
        for (dirty, features) in (0..5).flat_map(|k| [15, 1, 14, 0].map(|features| (k, features))) {
            let (mut hart, mut bytes) = (guest(xlen, Mode::S), page(xlen));
            hart.set_features(features);
            mark(xlen, &mut bytes, shown[dirty], 0x5555);
            let bitmap = bytes[0xF80..0x1000].to_vec();
            take(&mut hart, &mut bytes, FAULT);
            let mut expected = readings;
            if features & 1 == 1 {
                expected[dirty] = 0x5555;
            }
            assert_eq!(shown.map(|number| csr(xlen, &bytes, number)), expected);
            assert_eq!(bytes[0xF80..0x1000], bitmap);
            assert_eq!([hart.hstatus(), hart.htval(), hart.htinst()], readings[..3]);
        }
    }
}

/// The swap is after the bits, which the swap word gets, and before the stores; it needs feature 3
/// and the flag.
#[test]
fn swap() {
    for (xlen, place) in [(Xlen::X32, 0x204), (Xlen::X64, 0x208)] {
        let xl = vsxl(xlen);
        for (features, flags) in [(15, 1), (8, 0xFF), (7, 1), (15, 0), (15, 0xFE)] {
            let (mut hart, mut bytes) = (guest(xlen, Mode::S), page(xlen));
            hart.set_features(features);
            bytes[0x200] = flags;
            put(xlen, &mut bytes, place, 0x10_0000);
            take(&mut hart, &mut bytes, FAULT);
            let swapped = features & 8 == 8 && flags & 1 == 1;
            // With VGEIN 0 no line is selected: bit 10 of hip and bit 9 of vsip are 0.
            let (hstatus, swap, hip, vsip) = if swapped {
                (xl | 0x10_0000, xl | 0x20_53C0, 0x1004, 2)
            } else {
                (xl | 0x20_53C0, 0x10_0000, 0x1404, 0x202)
            };
            assert_eq!((hart.hstatus(), word(xlen, &bytes, place)), (hstatus, swap));
            let words = [0x600, 0x644, 0x244].map(|number| csr(xlen, &bytes, number));
            assert_eq!(words, [hstatus, hip, vsip]);
            assert!(hart.spp() && !hart.virt());
        }
    }
}

/// No page, one elsewhere, or memory a byte short: the record changes, and no byte does.
#[test]
fn no_page() {
    for xlen in WIDTHS {
        let size = xlen.page_bytes();
        for (place, length) in [(None, size), (Some(BASE + 4096), size), (Some(BASE), size - 1)] {
            let (mut hart, mut bytes) = (guest(xlen, Mode::U), vec![0xFF; length]);
            hart.set_page(place);
            take(&mut hart, &mut bytes, FAULT);
            assert_eq!((hart.hstatus(), hart.virt()), (vsxl(xlen) | 0x20_52C0, false));
            assert_eq!((hart.page(), hart.pc(), hart.htval()), (place, 0x9000_0004, 0x1402));
            assert!(bytes.iter().all(|&byte| byte == 0xFF));
        }
    }
}

/// With the swap on, SRET brings the guest's hstatus and the trap puts it back, ready for the next.
#[test]
fn swapped_there_and_back() {
    for (xlen, place) in [(Xlen::X32, 0x204), (Xlen::X64, 0x208)] {
        let (mut hart, mut bytes) = (hart(xlen), page(xlen));
        let xl = vsxl(xlen);
        hart.set_hstatus(xl | 0x200);
        bytes[0x200] = 1;
        put(xlen, &mut bytes, place, 0x3080);
        for _ in 0..3 {
            let memory = Memory { base: BASE, bytes: &mut bytes };
            let mut monitor = Monitor { hart: &mut hart, memory, table: &mut [] };
            assert!(monitor.sync_sret().is_resumed());
            assert_eq!((hart.virt(), hart.hstatus()), (true, xl | 0x3000));
            assert_eq!(word(xlen, &bytes, place), xl | 0x200);
            take(&mut hart, &mut bytes, ECALL);
            assert_eq!((hart.virt(), hart.hstatus()), (false, xl | 0x200));
            assert_eq!(word(xlen, &bytes, place), xl | 0x3080);
            assert_eq!(csr(xlen, &bytes, 0x600), xl | 0x200);
        }
    }
}
