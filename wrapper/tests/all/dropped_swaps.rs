//! The bits that the swap of hstatus drops, by SRET and by the trap back, at both widths.

use nathiroeng::{csr, Mode, Report, SbiRet, Sret, Xlen};

use crate::common::*;
use crate::dropped::with;
use crate::traps::{guest, ECALL, FAULT};

/// Where the swap word is.
const fn swap(xlen: Xlen) -> usize {
    0x200 + xlen.word_bytes()
}

/// Words for the swap, and the bits that are dropped: at width 64 VSXL reads 2.
const fn swaps(xlen: Xlen) -> [(u64, u64); 3] {
    match xlen {
        Xlen::X32 => [(0x80, 0), (0x8000_0080, 0x8000_0000), (0x1F, 0x1F)],
        Xlen::X64 => [
            (0x2_0000_0080, 0),
            (0x80, 0x2_0000_0000),
            (0x8000_0002_0000_0080, 0x8000_0000_0000_0000),
        ],
    }
}

/// The reports of a swap that drops these bits.
fn reports(bits: u64) -> Vec<Report> {
    let report = Report { csr: csr::HSTATUS, bits };
    [report].into_iter().filter(|report| report.bits != 0).collect()
}

/// SRET's swap is judged before SPV is cleared; without the flag or the feature there is none.
#[test]
fn by_sret() {
    for (xlen, which) in WIDTHS.map(|xlen| [(xlen, 0), (xlen, 1), (xlen, 2)]).concat() {
        let (word, bits) = swaps(xlen)[which];
        for (features, flags) in [(15, 1), (12, 3), (7, 1), (15, 0)] {
            let (mut hart, mut bytes) = (hart(xlen), page(xlen));
            hart.set_features(features);
            bytes[0x200] = flags;
            put(xlen, &mut bytes, swap(xlen), word);
            let Sret::Resumed(told) = with(&mut hart, &mut bytes, |mut to| to.sync_sret()) else {
                panic!("refused");
            };
            let is_swapped = features & 8 == 8 && flags & 1 == 1;
            let expected = reports(if is_swapped { bits } else { 0 });
            assert_eq!(told.as_slice(), expected);
            assert_eq!(hart.dropped(), expected.len() as u64);
        }
    }
}

/// Where hstatus is marked too, its write is reported before the swap.
#[test]
fn twice() {
    let xl = 0x2_0000_0000;
    let (mut hart, mut bytes) = (hart(Xlen::X64), page(Xlen::X64));
    mark(Xlen::X64, &mut bytes, 0x600, xl | 1);
    bytes[0x200] = 1;
    let Sret::Resumed(told) = with(&mut hart, &mut bytes, |mut to| to.sync_sret()) else {
        panic!("refused");
    };
    assert_eq!(told.as_slice(), [1, xl].map(|bits| Report { csr: csr::HSTATUS, bits }));
    assert_eq!(hart.dropped(), 2);
}

/// The trap's swap; the bits that the trap itself sets are none of it. No page, no swap.
#[test]
fn by_trap() {
    for (xlen, which) in WIDTHS.map(|xlen| [(xlen, 0), (xlen, 1), (xlen, 2)]).concat() {
        let (word, bits) = swaps(xlen)[which];
        for (flags, has_page) in [(1, true), (0, true), (1, false)] {
            let (mut hart, mut bytes) = (guest(xlen, Mode::S), page(xlen));
            hart.set_page(has_page.then_some(BASE));
            bytes[0x200] = flags;
            put(xlen, &mut bytes, swap(xlen), word);
            let answer = with(&mut hart, &mut bytes, |mut monitor| monitor.trap(FAULT));
            assert_eq!((answer.ret, answer.resumed), (SbiRet::success(0), false));
            let expected = reports(if has_page && flags == 1 { bits } else { 0 });
            assert_eq!(answer.reports.as_slice(), expected);
            assert_eq!(hart.dropped(), expected.len() as u64);
        }
    }
}

/// A refused trap reports nothing, and the count stays.
#[test]
fn refused() {
    for xlen in WIDTHS {
        let (mut hart, mut bytes) = (guest(xlen, Mode::U), vec![0xFF; xlen.page_bytes()]);
        hart.set_virt(false);
        hart.set_dropped(5);
        let answer = with(&mut hart, &mut bytes, |mut monitor| monitor.trap(ECALL));
        assert_eq!(answer.ret, SbiRet::not_supported());
        assert!(answer.reports.as_slice().is_empty());
        assert_eq!(hart.dropped(), 5);
    }
}
