//! The bits that register writes drop, at both widths: the reports of the register calls, and the
//! count in the record.

use nathiroeng::{blocks, csr, Hart, Memory, Monitor, Report, Run, SbiRet, Xlen};
use nathiroeng::{ALL, ANSWER_WORDS, EID, REPORT_WORDS};

use crate::common::*;

/// A word for hgatp with bits that it does not take, the reading, and those bits: at width 64 a mode
/// that is not supported.
const fn hgatp(xlen: Xlen) -> (u64, u64, u64) {
    match xlen {
        Xlen::X32 => (0xFFFF_FFFF, 0x9FFF_FFFC, 0x6000_0003),
        Xlen::X64 => (0x9000_0000_0000_0007, 4, 0x9000_0000_0000_0003),
    }
}

/// A fresh hart, and its page with hgatp marked.
fn start(xlen: Xlen) -> (Hart, Vec<u8>) {
    let mut bytes = page(xlen);
    mark(xlen, &mut bytes, 0x680, hgatp(xlen).0);
    (hart(xlen), bytes)
}

/// Does something with a monitor of the hart and the page.
pub fn with<T>(hart: &mut Hart, bytes: &mut [u8], act: impl FnOnce(Monitor) -> T) -> T {
    act(Monitor { hart, memory: Memory { base: BASE, bytes }, table: &mut [] })
}

/// The one report of hgatp.
fn told(xlen: Xlen) -> [Report; 1] {
    [Report { csr: csr::HGATP, bits: hgatp(xlen).2 }]
}

/// A fresh hgatp written 0x9000000000000007 reads 4 and drops 0x9000000000000003, by its number and
/// for all; a second call has nothing to write. A fresh hart has dropped nothing.
#[test]
fn mode_of_hgatp() {
    for (xlen, number) in WIDTHS.map(|xlen| [(xlen, csr::HGATP), (xlen, ALL)]).concat() {
        let (mut hart, mut bytes) = start(xlen);
        assert_eq!(hart.dropped(), 0);
        let answer = with(&mut hart, &mut bytes, |mut monitor| monitor.sync_csr(number));
        assert_eq!((answer.ret, answer.resumed), (SbiRet::success(0), false));
        assert_eq!(answer.reports.as_slice(), told(xlen));
        assert_eq!((hart.hgatp(), hart.dropped()), (hgatp(xlen).1, 1));
        let answer = with(&mut hart, &mut bytes, |mut monitor| monitor.sync_csr(number));
        assert!(answer.reports.as_slice().is_empty());
        assert_eq!(hart.dropped(), 1);
    }
}

/// Bits given 0 that read 1 are reported too, and registers that ignore writes; in turn order. What
/// is taken whole is not.
#[test]
fn either_way() {
    let xl = 0x2_0000_0000;
    for (xlen, expected) in [
        (Xlen::X32, vec![(0xE12, 0x24), (0x645, 0xFBBB), (0x61A, 1)]),
        (Xlen::X64, vec![(0x600, xl), (0xE12, 0x24), (0x645, 0xFBBB), (0x200, xl)]),
    ] {
        let (mut hart, mut bytes) = (hart(xlen), page(xlen));
        hart.set_lines(0x24);
        for (number, word) in [(0x200, 0), (0xE12, 0), (0x645, 0xFFFF), (0x600, 0), (0x240, 7)] {
            mark(xlen, &mut bytes, number, word);
        }
        mark(xlen, &mut bytes, 0x61A, 1);
        let answer = with(&mut hart, &mut bytes, |mut monitor| monitor.sync_csr(ALL));
        let found = answer.reports.as_slice().iter().map(|report| (report.csr, report.bits));
        assert_eq!(found.collect::<Vec<_>>(), expected);
        assert_eq!(hart.dropped(), expected.len() as u64);
    }
}

/// Every register drops something of its word: one report of each, and the count of all. SRET adds
/// the swap's.
#[test]
fn all_registers() {
    for (xlen, registers) in [(Xlen::X32, 25), (Xlen::X64, 23)] {
        let mut ends = Vec::new();
        for is_sret in [false, true] {
            let (mut hart, mut bytes) = (hart(xlen), page(xlen));
            hart.set_lines(0xFE);
            bytes[0xF80..].fill(0xFF);
            bytes[0x200..0x210].fill(0xFF);
            let answer = with(&mut hart, &mut bytes, |mut monitor| {
                monitor.call(EID, if is_sret { 4 } else { 2 }, [ALL, 0, 0])
            });
            assert_eq!((answer.ret, answer.resumed), (SbiRet::success(0), is_sret));
            assert_eq!(hart.dropped(), answer.reports.as_slice().len() as u64);
            ends.push(answer.reports);
        }
        let (sync, sret) = (ends[0].as_slice(), ends[1].as_slice());
        // Of all ones some registers take every bit.
        assert!(sync.len() > 12 && sync.len() < registers);
        assert_eq!((sret.len(), &sret[..sync.len()]), (sync.len() + 1, sync));
        assert_eq!(sret[sync.len()].csr, csr::HSTATUS);
    }
}

/// A refused call and a call that writes no register have no reports, and the count stays.
#[test]
fn none() {
    for xlen in WIDTHS {
        let (mut hart, mut bytes) = start(xlen);
        hart.set_dropped(5);
        with(&mut hart, &mut bytes, |mut monitor| {
            let calls = [(2, 0x344), (2, 0x645), (3, ALL), (0, 0), (5, 0), (1, BASE + 8)];
            for (fid, a0) in calls {
                let answer = monitor.call(EID, fid, [a0, 0, 0]);
                assert!(answer.reports.as_slice().is_empty());
            }
            let run = monitor.sync_csr_stoppable(0x344, 9);
            assert_eq!(run.ret, SbiRet::invalid_param());
            assert!(run.reports.as_slice().is_empty());
            monitor.hart.set_features(14);
            let answer = monitor.sync_csr(ALL);
            assert_eq!(answer.ret, SbiRet::not_supported());
            assert!(answer.reports.as_slice().is_empty());
            assert_eq!(monitor.line_change(8), SbiRet::success(0));
        });
        assert_eq!((hart.dropped(), hart.hgatp()), (5, 0));
    }
}

/// A stop between the write and the clearing of the mark: the next run writes again, and both are
/// reported and counted. After the clearing it does not.
#[test]
fn stops() {
    for xlen in WIDTHS {
        let stop = |hart: &mut Hart, bytes: &mut [u8], limit| -> Run {
            with(hart, bytes, |mut monitor| monitor.sync_csr_stoppable(csr::HGATP, limit))
        };
        for (first, again, count) in [(0, true, 1), (1, true, 2), (2, false, 1)] {
            let (mut hart, mut bytes) = start(xlen);
            let run = stop(&mut hart, &mut bytes, first);
            assert_eq!((run.ret, run.steps, run.finished), (SbiRet::success(0), first, false));
            let told = told(xlen);
            assert_eq!(run.reports.as_slice(), &told[..usize::from(first > 0)]);
            let run = stop(&mut hart, &mut bytes, 9);
            assert!(run.finished);
            assert_eq!(run.reports.as_slice(), &told[..usize::from(again)]);
            assert_eq!((hart.hgatp(), hart.dropped()), (hgatp(xlen).1, count));
        }
    }
}

/// The count stays at 2^32 - 1, and the reports are made all the same.
#[test]
fn last_count() {
    let last = (1 << 32) - 1;
    for xlen in WIDTHS {
        for (before, after) in [(last - 3, last - 1), (last - 2, last), (last - 1, last)] {
            let (mut hart, mut bytes) = start(xlen);
            hart.set_dropped(before);
            mark(xlen, &mut bytes, 0x645, 0xFFFF);
            let answer = with(&mut hart, &mut bytes, |mut monitor| monitor.sync_csr(ALL));
            let hvip = Report { csr: csr::HVIP, bits: 0xFBBB };
            assert_eq!(answer.reports.as_slice(), [hvip, told(xlen)[0]]);
            assert_eq!(hart.dropped(), after);
            mark(xlen, &mut bytes, 0x680, hgatp(xlen).0);
            let answer = with(&mut hart, &mut bytes, |mut monitor| monitor.sync_csr(ALL));
            assert_eq!(answer.reports.as_slice(), told(xlen));
            assert_eq!(hart.dropped(), last.min(after + 1));
        }
    }
}

/// Reports go to the start of their slice, word by word as far as there is room, and are counted
/// whatever the room is; what stands behind them stays. Nothing else depends on the room.
#[test]
fn room() {
    for xlen in WIDTHS {
        for length in [0, 1, 2, 3, 4, 5, 51, REPORT_WORDS, 60] {
            let (mut hart, mut bytes) = start(xlen);
            mark(xlen, &mut bytes, 0x645, 0xFFFF);
            let (mut answer, mut said) = ([7; ANSWER_WORDS], vec![9; length]);
            let (block, told, room) = (hart.words_mut(), &mut answer, &mut said);
            let args = [ALL, 0, 0];
            let code = blocks::call(block, BASE, &mut bytes, &mut [], EID, 2, args, told, room);
            assert_eq!((code, answer), (0, [0, 0, 0, 0, 2]));
            let words = [0x645, 0xFBBB, 0x680, hgatp(xlen).2];
            let behind = std::iter::repeat(9);
            assert_eq!(said, words.into_iter().chain(behind).take(length).collect::<Vec<_>>());
            assert_eq!((hart.hgatp(), hart.dropped()), (hgatp(xlen).1, 2));
        }
    }
}
