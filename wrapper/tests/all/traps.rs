//! The trap back by hand, at both widths: the record, refusals, and the way from a set page into the
//! guest and out again.

use nathiroeng::{blocks, Hart, Memory, Mode, Monitor, Page, SbiRet, Sret, Trap, Xlen, ALL};

use crate::common::*;

/// VSXL of hstatus, which width 64 has.
pub fn vsxl(xlen: Xlen) -> u64 {
    if xlen == Xlen::X32 {
        0
    } else {
        0x2_0000_0000
    }
}

/// A load from a guest page that is not there.
pub const FAULT: Trap = Trap { cause: 21, tval: 0x5009, htval: 0x1402, htinst: 0x3003, gva: true };

/// An environment call; nothing else is told.
pub const ECALL: Trap = Trap { cause: 8, tval: 0, htval: 0, htinst: 0, gva: false };

/// A hart in its guest, in this mode. hstatus has VTW, VGEIN 5 and HU; line 5 is up and enabled, so
/// that hip reads 0x1404 and vsip 0x202.
pub fn guest(xlen: Xlen, mode: Mode) -> Hart {
    let mut hart = hart(xlen);
    hart.set_virt(true);
    hart.set_mode(mode);
    hart.set_hstatus(vsxl(xlen) | 0x20_5200);
    hart.set_lines(0x20);
    hart.set_hgeie(0x20);
    hart.set_hvip(4);
    hart.set_hideleg(0x404);
    hart.set_pc(0x8000_1235);
    hart.set_stvec(0x9000_0004);
    hart.x_mut()[31] = 7;
    hart
}

/// Makes a trap on a page of bytes and an empty table; it must be accepted.
pub fn take(hart: &mut Hart, bytes: &mut [u8], trap: Trap) {
    let memory = Memory { base: BASE, bytes };
    assert_eq!(Monitor { hart, memory, table: &mut [] }.trap(trap).ret, SbiRet::success(0));
}

/// From S: GVA, SPV, SPVP, SPP and SPIE become 1, SIE 0; the rest of the record stays.
#[test]
fn from_s() {
    for xlen in WIDTHS {
        let (mut hart, mut bytes) = (guest(xlen, Mode::S), page(xlen));
        hart.set_sie(true);
        let mut expected = hart.clone();
        take(&mut hart, &mut bytes, FAULT);
        expected.set_virt(false);
        expected.set_hstatus(vsxl(xlen) | 0x20_53C0);
        expected.set_spp(true);
        expected.set_spie(true);
        expected.set_sie(false);
        expected.set_sepc(0x8000_1234);
        expected.set_pc(0x9000_0004);
        expected.set_htval(0x1402);
        expected.set_htinst(0x3003);
        expected.set_scause(21);
        expected.set_stval(0x5009);
        assert_eq!(hart, expected);
    }
}

/// From U, with GVA, SPVP, SPP and SPIE set before: they become 0, SPV 1, and the mode S.
#[test]
fn from_u() {
    for xlen in WIDTHS {
        let (mut hart, mut bytes) = (guest(xlen, Mode::U), page(xlen));
        hart.set_hstatus(hart.hstatus() | 0x140);
        hart.set_spp(true);
        hart.set_spie(true);
        hart.set_htval(1);
        hart.set_htinst(2);
        hart.set_scause(3);
        hart.set_stval(4);
        let mut expected = hart.clone();
        take(&mut hart, &mut bytes, ECALL);
        expected.set_virt(false);
        expected.set_hstatus(vsxl(xlen) | 0x20_5280);
        expected.set_spp(false);
        expected.set_spie(false);
        expected.set_sepc(0x8000_1234);
        expected.set_mode(Mode::S);
        expected.set_pc(0x9000_0004);
        expected.set_htval(0);
        expected.set_htinst(0);
        expected.set_scause(8);
        expected.set_stval(0);
        assert_eq!(hart, expected);
    }
}

/// Asserts that a trap gives a refusal and changes nothing.
fn assert_refused(hart: &Hart, table_words: usize, ret: SbiRet) {
    let xlen = hart.xlen().unwrap_or(Xlen::X64);
    let (mut after, mut bytes) = (hart.clone(), vec![0xA5; xlen.page_bytes()]);
    let mut table = vec![1 << 63; table_words];
    let memory = Memory { base: BASE, bytes: &mut bytes };
    assert_eq!(Monitor { hart: &mut after, memory, table: &mut table }.trap(FAULT).ret, ret);
    assert_eq!((&after, table), (hart, vec![1 << 63; table_words]));
    assert!(bytes.iter().all(|&byte| byte == 0xA5));
}

/// V off is -2 in both modes; a record or a table that is not well made is -1, before it.
#[test]
fn refusals() {
    for (xlen, mode) in WIDTHS.map(|xlen| [(xlen, Mode::U), (xlen, Mode::S)]).concat() {
        for virt in [false, true] {
            let mut hart = guest(xlen, mode);
            hart.set_virt(virt);
            let failed = SbiRet::failed();
            for words in [1, 2, 3, 1023, 1025, 1028] {
                assert_refused(&hart, words, failed);
            }
            for low in 1..4 {
                let mut odd = hart.clone();
                odd.set_stvec(0x9000_0004 | low);
                assert_refused(&odd, 4, failed);
            }
            let mut odd = hart.clone();
            odd.set_sepc(1);
            assert_refused(&odd, 4, failed);
            if !virt {
                assert_refused(&hart, 4, SbiRet::not_supported());
                hart.set_features(0);
                hart.set_page(None);
                assert_refused(&hart, 1024, SbiRet::not_supported());
            }
        }
    }
}

/// Neither the features nor the page play a part in accepting a trap, and a table is not written.
#[test]
fn always_accepted() {
    for (features, xlen) in (0..16).flat_map(|features| WIDTHS.map(|xlen| (features, xlen))) {
        for words in [0, 4, 1024] {
            let (mut hart, mut table) = (guest(xlen, Mode::U), vec![u64::MAX; words]);
            hart.set_features(features);
            hart.set_page(None);
            let memory = Memory { base: 0, bytes: &mut [] };
            let mut monitor = Monitor { hart: &mut hart, memory, table: &mut table };
            assert_eq!(monitor.trap(ECALL).ret, SbiRet::success(0));
            assert_eq!(monitor.trap(ECALL).ret, SbiRet::not_supported());
            assert_eq!(table, vec![u64::MAX; words]);
        }
    }
}

/// The four words are stored as they are, at width 32 their low 32 bits, and of the number for GVA
/// bit 0 counts. The answer's block is all 0, and one of another length is left alone.
#[test]
fn numbers() {
    let words = [1 << 63 | 9, 1 << 32 | 0x8000_0000, u64::MAX, 0xFFFF_FFFE_0000_0001];
    let cut = [9, 0x8000_0000, 0xFFFF_FFFF, 1];
    for (xlen, expected) in [(Xlen::X32, cut), (Xlen::X64, words)] {
        for (gva, bit) in [(0, 0), (1, 1), (2, 0), (3, 1), (1 << 32, 0), (u64::MAX, 1)] {
            for length in [0, 3, 4, 5, 6] {
                let (mut hart, mut bytes) = (guest(xlen, Mode::S), page(xlen));
                let (block, mut answer, mut said) = (hart.words_mut(), vec![7; length], [9; 4]);
                let (bytes_of, told) = (&mut bytes, &mut answer);
                let code = blocks::trap(block, BASE, bytes_of, &[], words, gva, told, &mut said);
                assert_eq!((code, answer), (0, vec![if length == 5 { 0 } else { 7 }; length]));
                assert_eq!(said, [9; 4]);
                let told = [hart.scause(), hart.stval(), hart.htval(), hart.htinst()];
                assert_eq!((told, hart.hstatus() >> 6 & 1), (expected, bit));
                let stored = [csr(xlen, &bytes, 0x643), csr(xlen, &bytes, 0x64A)];
                assert_eq!(stored, expected[2..]);
            }
        }
    }
}

/// stvec, scause and stval are no registers of the page: their numbers are -3, and neither set nor
/// a synchronization changes them.
#[test]
fn no_numbers() {
    for xlen in WIDTHS {
        let (mut hart, mut bytes) = (hart(xlen), vec![0xFF; xlen.page_bytes()]);
        hart.set_stvec(0x100);
        hart.set_scause(1);
        hart.set_stval(2);
        let memory = Memory { base: BASE, bytes: &mut bytes };
        let mut monitor = Monitor { hart: &mut hart, memory, table: &mut [] };
        for number in [0x105, 0x142, 0x143] {
            assert_eq!(monitor.sync_csr(number).ret, SbiRet::invalid_param());
            let mut page = Page { xlen, bytes: monitor.memory.bytes };
            assert_eq!(page.write_csr(number, 4), SbiRet::invalid_param());
        }
        assert_eq!(monitor.sync_csr(ALL).ret, SbiRet::success(0));
        assert_eq!(monitor.set_shmem(BASE, 0, 0), SbiRet::success(0));
        assert!(monitor.sync_sret().is_resumed());
        assert_eq!((hart.stvec(), hart.scause(), hart.stval()), (0x100, 1, 2));
    }
}

/// Set, SRET into the guest, where every call is -2, and a trap: the calls are open again, the next
/// SRET goes on where the guest was, and a second trap in a row is -2.
#[test]
fn there_and_back() {
    for (xlen, mode) in WIDTHS.map(|xlen| [(xlen, Mode::U), (xlen, Mode::S)]).concat() {
        let (mut hart, mut bytes) = (Hart::fresh(xlen, 15), page(xlen));
        hart.set_stvec(0x100);
        hart.set_sepc(0x4000);
        hart.set_spp(mode == Mode::S);
        hart.set_spie(true);
        let memory = Memory { base: BASE, bytes: &mut bytes };
        let mut monitor = Monitor { hart: &mut hart, memory, table: &mut [] };
        assert_eq!(monitor.set_shmem(BASE, 0, 0), SbiRet::success(0));
        let mut page = Page { xlen, bytes: monitor.memory.bytes };
        assert_eq!(page.write_csr(0x600, 0x80), SbiRet::success(0));
        assert_eq!(page.fill_context(&[9; 32]), SbiRet::success(0));
        for (pc, next) in [(0x4000, 0x4010), (0x4010, 0x4020)] {
            assert!(monitor.sync_sret().is_resumed());
            let hart = &mut *monitor.hart;
            assert_eq!((hart.virt(), hart.mode(), hart.pc(), hart.sie()), (true, mode, pc, true));
            assert_eq!((hart.stvec(), hart.x()[1]), (0x100, 9));
            hart.set_pc(next);
            assert_eq!(monitor.probe_feature(0), SbiRet::not_supported());
            assert_eq!(monitor.sync_csr(ALL).ret, SbiRet::not_supported());
            assert_eq!(monitor.sync_sret(), Sret::Refused(SbiRet::not_supported()));
            assert_eq!(monitor.trap(FAULT).ret, SbiRet::success(0));
            assert_eq!(monitor.trap(FAULT).ret, SbiRet::not_supported());
            let hart = &*monitor.hart;
            assert_eq!((hart.virt(), hart.mode(), hart.pc()), (false, Mode::S, 0x100));
            assert_eq!((hart.sepc(), hart.sie(), hart.spie()), (next, false, true));
            let told = vsxl(xlen) | if mode == Mode::S { 0x1C0 } else { 0xC0 };
            assert_eq!(csr(xlen, monitor.memory.bytes, 0x600), told);
            assert_eq!(monitor.probe_feature(0), SbiRet::success(1));
            assert_eq!(monitor.line_change(0), SbiRet::success(0));
            assert_eq!(monitor.sync_csr(ALL).ret, SbiRet::success(0));
        }
    }
}
