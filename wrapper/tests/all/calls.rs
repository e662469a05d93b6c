//! The calls, the stoppable forms and the line change by hand, at both widths.

use nathiroeng::{Memory, Mode, Monitor, SbiRet, Sret, Xlen, ALL, EID};

use crate::common::*;

/// Probe tells each feature of the hart and no other.
#[test]
fn probes() {
    for (features, xlen) in (0..16).flat_map(|features| WIDTHS.map(|xlen| (features, xlen))) {
        let mut hart = nathiroeng::Hart::fresh(xlen, features);
        let mut monitor =
            Monitor { hart: &mut hart, memory: Memory { base: 0, bytes: &mut [] }, table: &mut [] };
        for id in [0, 1, 2, 3, 4, 63, 64, u32::MAX] {
            let present = id < 4 && features >> id & 1 == 1;
            assert_eq!(monitor.probe_feature(id), SbiRet::success(u64::from(present)));
        }
    }
}

/// Set and drop, with the codes of bad parameters and addresses.
#[test]
fn sets() {
    for xlen in WIDTHS {
        let (mut hart, mut bytes) = (nathiroeng::Hart::fresh(xlen, 15), page(xlen));
        let memory = Memory { base: BASE, bytes: &mut bytes };
        let mut monitor = Monitor { hart: &mut hart, memory, table: &mut [] };
        assert_eq!(monitor.sync_csr(ALL).ret, SbiRet::no_shmem());
        assert_eq!(monitor.set_shmem(BASE, 0, 1), SbiRet::invalid_param());
        assert_eq!(monitor.set_shmem(BASE + 8, 0, 0), SbiRet::invalid_param());
        assert_eq!(monitor.set_shmem(ALL, 0, 0), SbiRet::invalid_param());
        assert_eq!(monitor.set_shmem(BASE + 4096, 0, 0), SbiRet::invalid_address());
        assert_eq!(monitor.set_shmem(BASE, 1, 0), SbiRet::invalid_address());
        assert_eq!(monitor.hart.page(), None);
        assert_eq!(monitor.set_shmem(BASE, 0, 0), SbiRet::success(0));
        assert_eq!(monitor.hart.page(), Some(BASE));
        assert_eq!(monitor.set_shmem(ALL, ALL, 0), SbiRet::success(0));
        assert_eq!(monitor.hart.page(), None);
    }
}

/// hvip dirty with 0 and hip dirty with 4: both words are 4 at the end.
#[test]
fn registers() {
    for xlen in WIDTHS {
        let (mut hart, mut bytes) = (hart(xlen), page(xlen));
        mark(xlen, &mut bytes, 0x645, 0);
        mark(xlen, &mut bytes, 0x644, 4);
        let memory = Memory { base: BASE, bytes: &mut bytes };
        let mut monitor = Monitor { hart: &mut hart, memory, table: &mut [] };
        for number in [0x344, 0x1644, 0x6A8] {
            assert_eq!(monitor.sync_csr(number).ret, SbiRet::invalid_param());
        }
        assert_eq!(monitor.sync_csr(ALL).ret, SbiRet::success(0));
        assert_eq!(hart.hvip(), 4);
        assert_eq!((csr(xlen, &bytes, 0x645), csr(xlen, &bytes, 0x644)), (4, 4));
        assert!(bytes[0xF80..0x1000].iter().all(|&byte| byte == 0));
    }
}

/// A fence removes the slot that it names, in two runs of one step each.
#[test]
fn fences_in_steps() {
    let used = |vmid: u64| (1 << 63) | (vmid << 16);
    for (xlen, done) in [(Xlen::X32, 0x0200_0A00), (Xlen::X64, 0x0200_0000_0005_0000)] {
        let (mut hart, mut bytes) = (hart(xlen), page(xlen));
        let pending = 1 << (xlen.bits() - 1);
        fence(xlen, &mut bytes, 2, [pending | done, 16, 1]);
        let mut table = [used(5), 0, 16, 7, used(6), 0, 16, 7];
        let memory = Memory { base: BASE, bytes: &mut bytes };
        let mut monitor = Monitor { hart: &mut hart, memory, table: &mut table };
        assert_eq!(monitor.sync_hfence(xlen.entries() as u64), SbiRet::invalid_param());
        for (limit, steps, finished) in [(0, 0, false), (1, 1, false), (9, 1, true), (0, 0, true)] {
            let run = monitor.sync_hfence_stoppable(ALL, limit);
            assert_eq!((run.ret, run.steps, run.finished), (SbiRet::success(0), steps, finished));
        }
        assert_eq!(monitor.sync_hfence(ALL), SbiRet::success(0));
        assert_eq!(table, [0, 0, 0, 0, used(6), 0, 16, 7]);
        assert_eq!(config(xlen, &bytes, 2), done);
    }
}

/// A register call in single steps ends as the whole call does, but for the count.
#[test]
fn registers_in_steps() {
    for xlen in WIDTHS {
        let mut ends = Vec::new();
        for whole in [true, false] {
            let (mut hart, mut bytes) = (hart(xlen), page(xlen));
            mark(xlen, &mut bytes, 0x600, u64::MAX);
            mark(xlen, &mut bytes, 0x603, u64::MAX);
            let memory = Memory { base: BASE, bytes: &mut bytes };
            let mut monitor = Monitor { hart: &mut hart, memory, table: &mut [] };
            for limit in 0..=if whole { 0 } else { 20 } {
                let run = monitor.sync_csr_stoppable(ALL, limit);
                assert_eq!((run.ret, run.steps), (SbiRet::success(0), limit));
                assert!(!run.finished);
            }
            assert_eq!(monitor.sync_csr(ALL).ret, SbiRet::success(0));
            // The same writes are counted more often.
            hart.set_dropped(0);
            ends.push((hart, bytes));
        }
        assert_eq!(ends[0], ends[1]);
    }
}

/// SRET resumes at sepc with the context's registers; a second one is refused with V on.
#[test]
fn returns() {
    for xlen in WIDTHS {
        let (mut hart, mut bytes) = (hart(xlen), page(xlen));
        hart.set_sepc(0x1234);
        hart.set_spp(true);
        put(xlen, &mut bytes, xlen.word_bytes(), 11);
        put(xlen, &mut bytes, 31 * xlen.word_bytes(), 12);
        mark(xlen, &mut bytes, 0x600, 0x80);
        let memory = Memory { base: BASE, bytes: &mut bytes };
        let mut monitor = Monitor { hart: &mut hart, memory, table: &mut [] };
        assert!(monitor.sync_sret().is_resumed());
        assert_eq!(monitor.sync_sret(), Sret::Refused(SbiRet::not_supported()));
        assert!(hart.virt() && hart.spie() && !hart.sie() && !hart.spp());
        assert_eq!((hart.mode(), hart.pc()), (Mode::S, 0x1234));
        assert_eq!((hart.x()[0], hart.x()[1], hart.x()[2], hart.x()[31]), (0, 11, 0, 12));
    }
}

/// Only a successful SRET is told as resumed.
#[test]
fn resumed_is_told() {
    for xlen in WIDTHS {
        let (mut hart, mut bytes) = (hart(xlen), page(xlen));
        let memory = Memory { base: BASE, bytes: &mut bytes };
        let mut monitor = Monitor { hart: &mut hart, memory, table: &mut [] };
        for fid in 0..4 {
            assert!(!monitor.call(EID, fid, [ALL, ALL, 0]).resumed);
        }
        let _ = monitor.set_shmem(BASE, 0, 0);
        let answer = monitor.call(EID, 4, [1, 2, 3]);
        assert_eq!((answer.ret, answer.resumed), (SbiRet::success(0), true));
        let answer = monitor.call(EID, 4, [1, 2, 3]);
        assert_eq!((answer.ret, answer.resumed), (SbiRet::not_supported(), false));
    }
}

/// Line 3 up, selected and enabled, shows in hip's word.
#[test]
fn lines() {
    for xlen in WIDTHS {
        let (mut hart, mut bytes) = (hart(xlen), page(xlen));
        hart.set_hstatus(hart.hstatus() | 3 << 12);
        hart.set_hgeie(8);
        let memory = Memory { base: BASE, bytes: &mut bytes };
        let mut monitor = Monitor { hart: &mut hart, memory, table: &mut [] };
        assert_eq!(monitor.line_change(1), SbiRet::invalid_param());
        assert_eq!(monitor.line_change(1 << 32 | 8), SbiRet::invalid_param());
        assert_eq!(monitor.line_change(8), SbiRet::success(0));
        assert_eq!(hart.lines(), 8);
        assert_eq!((csr(xlen, &bytes, 0xE12), csr(xlen, &bytes, 0x644)), (8, 0x1400));
    }
}
