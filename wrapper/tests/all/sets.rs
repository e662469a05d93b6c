//! The bytes that set leaves, at both widths: a blank page with the readings, and nothing else.

use nathiroeng::{Hart, Memory, Monitor, SbiRet, Xlen, ALL};

use crate::common::*;

/// The registers' readings in [`busy`] that are not 0, by number; hstatus and vsstatus apart, whose
/// readings differ by width.
const READINGS: [(usize, u64); 7] = [
    (0xE12, 8),
    (0x607, 8),
    (0x645, 0x44),
    (0x644, 0x1444),
    (0x603, 4),
    (0x244, 2),
    (0x643, 0x1234),
];

/// A hart without features whose registers hold something; line 3 is up and selected.
fn busy(xlen: Xlen) -> Hart {
    let mut hart = Hart::fresh(xlen, 0);
    hart.set_lines(8);
    hart.set_hstatus(hart.hstatus() | 3 << 12);
    hart.set_hgeie(8);
    hart.set_hvip(0x44);
    hart.set_hideleg(4);
    hart.set_htval(0x1234);
    hart
}

/// Sets the page at an offset in memory that begins at the base; gives the code and the value.
fn set(hart: &mut Hart, bytes: &mut [u8], offset: u64) -> SbiRet {
    let memory = Memory { base: BASE, bytes };
    Monitor { hart, memory, table: &mut [] }.set_shmem(BASE + offset, 0, 0)
}

/// All bytes of the page become zero and each register's word its reading, whatever the features.
#[test]
fn blank() {
    for (xlen, xl) in [(Xlen::X32, 0), (Xlen::X64, 0x2_0000_0000)] {
        let (mut hart, mut bytes) = (busy(xlen), page(xlen));
        bytes.fill(0xFF);
        assert_eq!(set(&mut hart, &mut bytes, 0), SbiRet::success(0));
        let mut expected = page(xlen);
        let status = [(0x600, xl | 3 << 12), (0x200, xl)];
        for (number, reading) in READINGS.into_iter().chain(status) {
            put(xlen, &mut expected, 0x1000 + xlen.word_bytes() * index(number), reading);
        }
        assert_eq!(bytes, expected);
        let mut same = busy(xlen);
        same.set_page(Some(BASE));
        assert_eq!(hart, same);
    }
}

/// A hypervisor is restarted on the same page: no mark of its first run is carried out.
#[test]
fn restart() {
    let used = [1 << 63, 0, 16, 7];
    for (xlen, config) in [(Xlen::X32, 0x8100_0000), (Xlen::X64, 0x8100_0000_0000_0000)] {
        let (mut hart, mut bytes, mut table) = (Hart::fresh(xlen, 15), page(xlen), used);
        let memory = Memory { base: BASE, bytes: &mut bytes };
        let mut monitor = Monitor { hart: &mut hart, memory, table: &mut table };
        // The first run: hvip is synchronized; what it marks then is not.
        assert_eq!(monitor.set_shmem(BASE, 0, 0), SbiRet::success(0));
        mark(xlen, monitor.memory.bytes, 0x645, 4);
        assert_eq!(monitor.sync_csr(ALL).ret, SbiRet::success(0));
        let start = monitor.hart.clone();
        mark(xlen, monitor.memory.bytes, 0x645, 0x440);
        mark(xlen, monitor.memory.bytes, 0x240, 0x1234);
        fence(xlen, monitor.memory.bytes, 0, [config, 0, 0]);
        // The second run, at the same address.
        assert_eq!(monitor.set_shmem(BASE, 0, 0), SbiRet::success(0));
        assert!(monitor.memory.bytes[..0x1000].iter().all(|&byte| byte == 0));
        assert_eq!(monitor.sync_csr(ALL).ret, SbiRet::success(0));
        assert_eq!(monitor.sync_hfence(ALL), SbiRet::success(0));
        assert_eq!((hart.hvip(), csr(xlen, &bytes, 0x645)), (4, 4));
        assert_eq!((hart, table), (start, used));
    }
}

/// A page that is moved: only the new one's bytes change, also where both overlap.
#[test]
fn moved() {
    for xlen in WIDTHS {
        let size = xlen.page_bytes();
        for start in (0..=size).step_by(4096) {
            let (mut hart, mut bytes) = (busy(xlen), vec![0xFF; 2 * size + 1]);
            hart.set_page(Some(BASE + 4096));
            assert_eq!(set(&mut hart, &mut bytes, start as u64), SbiRet::success(0));
            let (before, rest) = bytes.split_at(start);
            let (page, after) = rest.split_at(size);
            assert!(before.iter().chain(after).all(|&byte| byte == 0xFF));
            assert!(page[..0x1000].iter().all(|&byte| byte == 0));
            assert!(READINGS.iter().all(|&(number, reading)| csr(xlen, page, number) == reading));
        }
    }
}

/// A drop writes nothing, nor does a set that is refused: memory one byte short.
#[test]
fn unwritten() {
    for xlen in WIDTHS {
        let (mut hart, mut bytes) = (busy(xlen), vec![0xFF; 2 * xlen.page_bytes() - 1]);
        hart.set_page(Some(BASE));
        let start = hart.clone();
        let size = xlen.page_bytes() as u64;
        assert_eq!(set(&mut hart, &mut bytes, size), SbiRet::invalid_address());
        assert_eq!(hart, start);
        let memory = Memory { base: BASE, bytes: &mut bytes };
        let mut monitor = Monitor { hart: &mut hart, memory, table: &mut [] };
        assert_eq!(monitor.set_shmem(ALL, ALL, 0), SbiRet::success(0));
        assert_eq!(hart.page(), None);
        assert!(bytes.iter().all(|&byte| byte == 0xFF));
    }
}
