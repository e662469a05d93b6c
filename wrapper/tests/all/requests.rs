//! Requests of the hypervisor by hand, at both widths, and what the calls make of them.

use nathiroeng::{blocks, Hfence, HfenceType, Memory, Monitor, Page, SbiRet, Xlen, ALL};

use crate::common::*;

/// What a page holds before a request; no entry of it is pending.
const OLD: u8 = 0x5A;

/// A page of old bytes.
fn old(xlen: Xlen) -> Vec<u8> {
    vec![OLD; xlen.page_bytes()]
}

/// A fence of a type with every field in use: Order 9, VMID 5, ASID 7, three pages from 16 on.
fn some_fence(kind: HfenceType) -> Hfence {
    Hfence { kind, order: 9, vmid: 5, asid: 7, page_number: 16, page_count: 3 }
}

/// Asserts that a request gives a refusal and leaves every byte.
fn assert_refused(xlen: Xlen, bytes: &[u8], ret: SbiRet, ask: impl FnOnce(&mut Page) -> SbiRet) {
    let mut after = bytes.to_vec();
    assert_eq!(ask(&mut Page { xlen, bytes: &mut after }), ret);
    assert!(after == bytes, "a refusal that changes a byte");
}

/// A register's word and its bit, and no other byte.
#[test]
fn registers() {
    for xlen in WIDTHS {
        for number in [0x600, 0xE12, 0x644, 0x200, 0x280] {
            let mut bytes = old(xlen);
            let word = u64::MAX >> (64 - xlen.bits());
            let mut page = Page { xlen, bytes: &mut bytes };
            assert_eq!(page.write_csr(number, word), SbiRet::success(0));
            let mut expected = old(xlen);
            mark(xlen, &mut expected, number as usize, word);
            assert_eq!(bytes, expected);
        }
        for number in [0, 0x344, 0x1645, 0x6A8, 0xFFFF_FFFF, 0x645 | 1 << 32, ALL] {
            let invalid = SbiRet::invalid_param();
            assert_refused(xlen, &old(xlen), invalid, |page| page.write_csr(number, 0));
        }
    }
}

/// The upper halves are registers of width 32 only.
#[test]
fn upper_halves() {
    for number in [0x615, 0x61A] {
        let mut bytes = old(Xlen::X32);
        let mut page = Page { xlen: Xlen::X32, bytes: &mut bytes };
        assert_eq!(page.write_csr(number, 1), SbiRet::success(0));
        let invalid = SbiRet::invalid_param();
        assert_refused(Xlen::X64, &old(Xlen::X64), invalid, |page| page.write_csr(number, 1));
    }
}

/// The words of an entry of each type, bit for bit.
#[test]
fn fences() {
    let configs = [
        (0x8009_0000, 0x8009_0000_0000_0000, [16, 3]),
        (0x8100_0000, 0x8100_0000_0000_0000, [0, 0]),
        (0x8209_0A00, 0x8209_0000_0005_0000, [16, 3]),
        (0x8300_0A00, 0x8300_0000_0005_0000, [0, 0]),
        (0x8409_0A00, 0x8409_0000_0005_0000, [16, 3]),
        (0x8500_0A00, 0x8500_0000_0005_0000, [0, 0]),
        (0x8609_0A07, 0x8609_0000_0005_0007, [16, 3]),
        (0x8700_0A07, 0x8700_0000_0005_0007, [0, 0]),
    ];
    for (kind, (narrow, wide, [number, count])) in HfenceType::ALL.into_iter().zip(configs) {
        for (xlen, config) in [(Xlen::X32, narrow), (Xlen::X64, wide)] {
            let mut bytes = old(xlen);
            let mut page = Page { xlen, bytes: &mut bytes };
            assert_eq!(page.queue_hfence(some_fence(kind)), SbiRet::success(0));
            let mut expected = old(xlen);
            fence(xlen, &mut expected, 0, [config, number, count]);
            assert_eq!(bytes, expected, "{kind:?}");
        }
    }
}

/// Fences take the lowest entries that are free; with none left they are -4, and bad ones -3.
#[test]
fn free_entries() {
    for xlen in WIDTHS {
        let mut bytes = page(xlen);
        let mut page = Page { xlen, bytes: &mut bytes };
        for entry in 0..xlen.entries() as u64 {
            let kind = HfenceType::ALL[entry as usize % 8];
            assert_eq!(page.queue_hfence(some_fence(kind)), SbiRet::success(entry));
        }
        let good = some_fence(HfenceType::Gvma);
        assert_refused(xlen, &bytes, SbiRet::denied(), |page| page.queue_hfence(good));
        let bad = Hfence { order: 128, ..good };
        assert_refused(xlen, &bytes, SbiRet::invalid_param(), |page| page.queue_hfence(bad));
        fence(xlen, &mut bytes, 7, [0, 0, 0]);
        let mut page = Page { xlen, bytes: &mut bytes };
        assert_eq!(page.queue_hfence(good), SbiRet::success(7));
        assert_eq!(page.queue_hfence(good), SbiRet::denied());
    }
}

/// The limits of Order, VMID and ASID hold for every type: the greatest number is good, the next is
/// -3.
#[test]
fn limits() {
    for (xlen, vmid, asid) in [(Xlen::X32, 127, 511), (Xlen::X64, 16_383, 65_535)] {
        for kind in HfenceType::ALL {
            let ones = u64::MAX >> (64 - xlen.bits());
            let most = Hfence { kind, order: 127, vmid, asid, page_number: ones, page_count: ones };
            let mut bytes = page(xlen);
            let mut page = Page { xlen, bytes: &mut bytes };
            assert_eq!(page.queue_hfence(most), SbiRet::success(0));
            for fence in [
                Hfence { order: 128, ..most },
                Hfence { vmid: vmid + 1, ..most },
                Hfence { asid: asid + 1, ..most },
            ] {
                let invalid = SbiRet::invalid_param();
                assert_refused(xlen, &bytes, invalid, |page| page.queue_hfence(fence));
            }
        }
    }
}

/// At width 32 a page number or count of more than 32 bits is -3 for a type that has a range, 0, 2,
/// 4 and 6; the others do not look at it and store zero.
#[test]
fn wide_ranges() {
    for kind in HfenceType::ALL {
        let fence = some_fence(kind);
        let wide = [
            Hfence { page_number: 1 << 32, ..fence },
            Hfence { page_count: 1 << 32, ..fence },
            Hfence { page_number: 16 | 1 << 63, page_count: u64::MAX, ..fence },
        ];
        for fence in wide {
            let xlen = Xlen::X32;
            if kind.number() % 2 == 0 {
                let invalid = SbiRet::invalid_param();
                assert_refused(xlen, &old(xlen), invalid, |page| page.queue_hfence(fence));
                continue;
            }
            let plain = Hfence { page_number: 0, page_count: 0, ..fence };
            let pages = [fence, plain].map(|fence| {
                let mut bytes = old(xlen);
                let queued = Page { xlen, bytes: &mut bytes }.queue_hfence(fence);
                assert_eq!(queued, SbiRet::success(0), "{kind:?}");
                bytes
            });
            assert_eq!(pages[0], pages[1]);
        }
    }
}

/// Zero and X1 to X31 in the context; the first word given may be any, the bytes after stay.
#[test]
fn contexts() {
    for xlen in WIDTHS {
        let mut x: [u64; 32] = std::array::from_fn(|i| 0x8000_0000 + i as u64);
        x[0] = u64::MAX;
        let mut bytes = old(xlen);
        assert_eq!(Page { xlen, bytes: &mut bytes }.fill_context(&x), SbiRet::success(0));
        let mut expected = old(xlen);
        put(xlen, &mut expected, 0, 0);
        for (i, &word) in x.iter().enumerate().skip(1) {
            put(xlen, &mut expected, xlen.word_bytes() * i, word);
        }
        assert_eq!(bytes, expected);
    }
}

/// At width 32 a value of more than 32 bits is refused.
#[test]
fn wide_values() {
    let (xlen, invalid) = (Xlen::X32, SbiRet::invalid_param());
    assert_refused(xlen, &old(xlen), invalid, |page| page.write_csr(0x645, 1 << 32));
    for i in 1..32 {
        let mut x = [0; 32];
        x[i] = 1 << 32;
        assert_refused(xlen, &old(xlen), invalid, |page| page.fill_context(&x));
    }
}

/// A page of another length, the other width's among them, is -1 for every request.
#[test]
fn lengths() {
    for xlen in WIDTHS {
        for length in [0, 1, 4096, 8_191, 8_192, 8_193, 12_287, 12_288, 12_289] {
            if length == xlen.page_bytes() {
                continue;
            }
            let (bytes, failed) = (vec![OLD; length], SbiRet::failed());
            let fence = some_fence(HfenceType::Vvma);
            assert_refused(xlen, &bytes, failed, |page| page.write_csr(0x645, 4));
            assert_refused(xlen, &bytes, failed, |page| page.write_csr(ALL, 4));
            assert_refused(xlen, &bytes, failed, |page| page.queue_hfence(fence));
            assert_refused(xlen, &bytes, failed, |page| page.fill_context(&[1; 32]));
        }
    }
}

/// What only the functions on slices can ask: other widths, unknown types, other numbers of words.
#[test]
fn odd_requests() {
    for xlen in WIDTHS {
        let mut bytes = old(xlen);
        for bits in [0, 1, 31, 33, 63, 65, 128, 1 << 32 | xlen.bits(), u64::MAX] {
            assert_eq!(blocks::write_csr(&mut bytes, bits, 0x645, 4), -1);
            assert_eq!(blocks::queue_hfence(&mut bytes, bits, [8; 6]), -1);
            assert_eq!(blocks::fill_context(&mut bytes, bits, &[]), -1);
        }
        for kind in [8, 15, 16, 1 << 32, u64::MAX] {
            assert_eq!(blocks::queue_hfence(&mut bytes, xlen.bits(), [kind, 0, 0, 0, 0, 0]), -3);
        }
        for words in (0..70).filter(|&words| words != 32) {
            assert_eq!(blocks::fill_context(&mut bytes, xlen.bits(), &vec![1; words]), -3);
        }
        assert_eq!(bytes, old(xlen));
    }
}

/// All three requests, and then SRET: the register, the slots and X1 to X31 are as was asked for.
#[test]
fn carried_out() {
    let used = |vmid: u64| [1 << 63 | vmid << 16, 0, 16, 7];
    for xlen in WIDTHS {
        let (mut hart, mut bytes) = (hart(xlen), page(xlen));
        let mut table = [used(5), used(6)].concat();
        let memory = Memory { base: BASE, bytes: &mut bytes };
        let mut monitor = Monitor { hart: &mut hart, memory, table: &mut table };
        let mut page = Page { xlen, bytes: monitor.memory.bytes };
        assert_eq!(page.write_csr(0x645, 0xFFFF), SbiRet::success(0));
        let fence = Hfence { order: 0, ..some_fence(HfenceType::GvmaVmid) };
        assert_eq!(page.queue_hfence(fence), SbiRet::success(0));
        assert_eq!(page.fill_context(&[9; 32]), SbiRet::success(0));
        assert!(monitor.sync_sret().is_resumed());
        assert_eq!((hart.hvip(), csr(xlen, &bytes, 0x645)), (0x444, 0x444));
        assert_eq!((hart.x()[0], &hart.x()[1..]), (0, &[9; 31][..]));
        assert_eq!(table, [[0; 4], used(6)].concat());
        assert!(bytes[0xF80..0x1000].iter().all(|&byte| byte == 0));
    }
}
