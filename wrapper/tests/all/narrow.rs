//! What only width 32 has: its places, its registers, its narrow fields, and numbers that are cut.

use nathiroeng::Xlen::X32;
use nathiroeng::{fid, Memory, Monitor, SbiRet, Xlen, ALL, EID};

use crate::common::*;

/// A hart of width 32 with its page set, and that page.
fn start() -> (nathiroeng::Hart, Vec<u8>) {
    (hart(X32), page(X32))
}

/// Synchronizes every register of a page in which these are marked; gives the record and the page.
fn synced(marks: &[(usize, u64)]) -> (nathiroeng::Hart, Vec<u8>) {
    let (mut hart, mut bytes) = start();
    for &(number, word) in marks {
        mark(X32, &mut bytes, number, word);
    }
    let memory = Memory { base: BASE, bytes: &mut bytes };
    let mut monitor = Monitor { hart: &mut hart, memory, table: &mut [] };
    assert_eq!(monitor.sync_csr(ALL).ret, SbiRet::success(0));
    assert!(bytes[0xF80..0x1000].iter().all(|&byte| byte == 0));
    (hart, bytes)
}

/// hip's word is at 0x1510, hgeip's at 0x1C48.
#[test]
fn places() {
    let (mut hart, mut bytes) = start();
    hart.set_lines(0x24);
    bytes[0x1510] = 4;
    bytes[0xFA8] = 0xFF;
    let memory = Memory { base: BASE, bytes: &mut bytes };
    let mut monitor = Monitor { hart: &mut hart, memory, table: &mut [] };
    assert_eq!(monitor.sync_csr(0x644).ret, SbiRet::success(0));
    assert_eq!(monitor.sync_csr(0xE12).ret, SbiRet::success(0));
    assert_eq!((hart.hvip(), bytes[0xFA8], bytes[0x1C48]), (4, 0xEF, 0x24));
}

/// Both address registers take any mode bit, and vsatp every bit.
#[test]
fn address_registers() {
    let (hart, bytes) = synced(&[(0x680, 0xFFFF_FFFF), (0x280, 0xFFFF_FFFF)]);
    assert_eq!((hart.hgatp(), hart.vsatp()), (0x9FFF_FFFC, 0xFFFF_FFFF));
    assert_eq!(csr(X32, &bytes, 0x680), 0x9FFF_FFFC);
    let (hart, _) = synced(&[(0x680, 0x8000_0007), (0x280, 0x7FFF_FFFF)]);
    assert_eq!((hart.hgatp(), hart.vsatp()), (0x8000_0004, 0x7FFF_FFFF));
}

/// Bit 31 of vsstatus is set exactly if bits 14:13 are 3; neither status has a width's field.
#[test]
fn status_registers() {
    let (hart, _) = synced(&[(0x200, 0xFFFF_FFFF), (0x600, 0xFFFF_FFFF)]);
    assert_eq!((hart.vsstatus(), hart.hstatus()), (0x800C_6122, 0x0070_03C0));
    let (hart, _) = synced(&[(0x200, 0xFFFF_DFFF), (0x600, 0)]);
    assert_eq!((hart.vsstatus(), hart.hstatus()), (0x000C_4122, 0));
}

/// The upper halves: htimedeltah is stored, henvcfgh reads 0; width 64 has neither.
#[test]
fn upper_halves() {
    let marks = [(0x605, 1), (0x615, 0xFFFF_FFFF), (0x60A, 1), (0x61A, 0xFFFF_FFFF)];
    let (hart, bytes) = synced(&marks);
    assert_eq!((hart.htimedelta(), hart.htimedeltah(), hart.henvcfg()), (1, 0xFFFF_FFFF, 1));
    assert_eq!((csr(X32, &bytes, 0x615), csr(X32, &bytes, 0x61A)), (0xFFFF_FFFF, 0));
    for (xlen, ret) in [(X32, SbiRet::success(0)), (Xlen::X64, SbiRet::invalid_param())] {
        let (mut hart, mut bytes) = (crate::common::hart(xlen), page(xlen));
        let memory = Memory { base: BASE, bytes: &mut bytes };
        let mut monitor = Monitor { hart: &mut hart, memory, table: &mut [] };
        assert_eq!([0x615, 0x61A].map(|number| monitor.sync_csr(number).ret), [ret; 2]);
    }
}

/// Entry 119 is the last. Type 6, VMID 127 and ASID 511 stand in their narrow fields, and a
/// slot's greater numbers are others.
#[test]
fn last_entry() {
    let (mut hart, mut bytes) = start();
    fence(X32, &mut bytes, 119, [0x8600_FFFF, 16, 1]);
    let used = |vmid: u64, asid: u64| [(1 << 63) | (vmid << 16) | asid, 16, 0, 7];
    let others = [used(127, 0xFFFF), used(0x3FFF, 511)];
    let mut table = [used(127, 511), others[0], others[1]].concat();
    let memory = Memory { base: BASE, bytes: &mut bytes };
    let mut monitor = Monitor { hart: &mut hart, memory, table: &mut table };
    assert_eq!(monitor.sync_hfence(120), SbiRet::invalid_param());
    assert_eq!(monitor.sync_hfence(119), SbiRet::success(0));
    assert_eq!(table, [[0; 4], others[0], others[1]].concat());
    assert_eq!(config(X32, &bytes, 119), 0x0600_FFFF);
}

/// A reserved bit, a type above 7 or a word 2 makes an entry unreadable: every used slot goes.
#[test]
fn unreadable_entries() {
    for bit in [23, 27, 28, 29, 30] {
        let (mut hart, mut bytes) = start();
        fence(X32, &mut bytes, 5, [0x8200_0000 | 1 << bit, 0, 0]);
        let mut table = [1 << 63 | 1 << 62 | 3 << 16, 1, 2, 3, 5, 5, 5, 5];
        let memory = Memory { base: BASE, bytes: &mut bytes };
        let mut monitor = Monitor { hart: &mut hart, memory, table: &mut table };
        assert_eq!(monitor.sync_hfence(ALL), SbiRet::success(0));
        assert_eq!(table, [0, 0, 0, 0, 5, 5, 5, 5]);
        assert_eq!(config(X32, &bytes, 5), 0x0200_0000 | 1 << bit);
    }
}

/// Of EID, FID and the arguments the low 32 bits are taken; of the steps' limit all.
#[test]
fn cut() {
    let high = 0xABCD_0123 << 32;
    let (mut hart, mut bytes) = start();
    hart.set_page(None);
    let memory = Memory { base: BASE, bytes: &mut bytes };
    let mut monitor = Monitor { hart: &mut hart, memory, table: &mut [] };
    let set = monitor.call(EID | high, fid::SET_SHMEM | high, [BASE | high, high, high]);
    assert_eq!((set.ret, monitor.hart.page()), (SbiRet::success(0), Some(BASE)));
    assert_eq!(monitor.sync_csr(0x645 | high).ret, SbiRet::success(0));
    assert_eq!(monitor.sync_csr(0xFFFF_FFFF).ret, SbiRet::success(0));
    assert_eq!(monitor.sync_hfence(high), SbiRet::success(0));
    let run = monitor.sync_csr_stoppable(0xFFFF_FFFF, high);
    assert_eq!((run.ret, run.finished), (SbiRet::success(0), true));
    assert_eq!(monitor.set_shmem(0xFFFF_FFFF, 0xFFFF_FFFF | high, high), SbiRet::success(0));
    assert_eq!(monitor.hart.page(), None);
}

/// The swap word is at 0x204.
#[test]
fn autoswap() {
    let (mut hart, mut bytes) = start();
    hart.set_hstatus(0x40_0000);
    put(X32, &mut bytes, 0x200, 1);
    put(X32, &mut bytes, 0x204, 0x3080);
    let memory = Memory { base: BASE, bytes: &mut bytes };
    let mut monitor = Monitor { hart: &mut hart, memory, table: &mut [] };
    assert!(monitor.sync_sret().is_resumed());
    assert_eq!((hart.hstatus(), hart.virt()), (0x3000, true));
    assert_eq!((word(X32, &bytes, 0x204), word(X32, &bytes, 0x208)), (0x40_0000, 0));
    assert_eq!(csr(X32, &bytes, 0x600), 0x3000);
}

/// A page that ends above 2^32 is one; memory that is a byte short of a page has none.
#[test]
fn ends_of_memory() {
    let (mut hart, mut bytes) = start();
    let memory = Memory { base: 0xFFFF_F000, bytes: &mut bytes };
    let mut monitor = Monitor { hart: &mut hart, memory, table: &mut [] };
    assert_eq!(monitor.set_shmem(0xFFFF_F000, 0, 0), SbiRet::success(0));
    assert_eq!(monitor.sync_csr(ALL).ret, SbiRet::success(0));
    let memory = Memory { base: 0xFFFF_F000, bytes: &mut bytes[1..] };
    let mut monitor = Monitor { hart: &mut hart, memory, table: &mut [] };
    assert_eq!(monitor.sync_csr(ALL).ret, SbiRet::no_shmem());
    assert_eq!(monitor.set_shmem(0xFFFF_F000, 0, 0), SbiRet::invalid_address());
}
