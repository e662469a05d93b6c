//! Blocks that are no record, and lengths that are wrong: code -1, and nothing changes.

use nathiroeng::{blocks, Hart, Memory, Monitor, SbiRet, Sret, Trap, Xlen, ALL, EID, HART_WORDS};
use nathiroeng::{ANSWER_WORDS, REPORT_WORDS};

use crate::common::*;

/// Asserts that everything is refused with -1 and nothing changes.
fn assert_refused(mut hart: Hart, table_words: usize) {
    let xlen = hart.xlen().unwrap_or(Xlen::X64);
    let (start, mut bytes, mut table) = (hart.clone(), page(xlen), vec![1 << 63; table_words]);
    mark(xlen, &mut bytes, 0x645, 4);
    let (bytes_before, table_before) = (bytes.clone(), table.clone());
    let memory = Memory { base: BASE, bytes: &mut bytes };
    let mut monitor = Monitor { hart: &mut hart, memory, table: &mut table };
    let failed = SbiRet::failed();
    assert_eq!(monitor.probe_feature(0), failed);
    assert_eq!(monitor.set_shmem(BASE, 0, 0), failed);
    assert_eq!(monitor.sync_csr(ALL).ret, failed);
    assert_eq!(monitor.sync_hfence(ALL), failed);
    assert_eq!(monitor.sync_sret(), Sret::Refused(failed));
    assert_eq!(monitor.line_change(0), failed);
    let trap = Trap { cause: 8, tval: 0, htval: 0, htinst: 0, gva: true };
    assert_eq!(monitor.trap(trap).ret, failed);
    assert!(monitor.trap(trap).reports.as_slice().is_empty());
    for run in [monitor.sync_csr_stoppable(ALL, 9), monitor.sync_hfence_stoppable(ALL, 9)] {
        assert_eq!((run.ret, run.steps, run.finished), (failed, 0, false));
        assert!(run.reports.as_slice().is_empty());
    }
    assert_eq!((hart, bytes, table), (start, bytes_before, table_before));
}

/// Asserts that a record of each width is refused after this damage.
fn assert_damaged(damage: impl Fn(&mut Hart)) {
    for xlen in WIDTHS {
        let mut hart = hart(xlen);
        damage(&mut hart);
        assert_refused(hart, 4);
    }
}

/// A flag or mode word of 2 or more.
#[test]
fn flags() {
    for place in [20, 22, 23, 26, 27, 28] {
        for word in [2, 3, 1 << 32, u64::MAX] {
            assert_damaged(|hart| hart.words_mut()[place] = word);
        }
    }
}

/// A page's address where no page is set.
#[test]
fn address_without_page() {
    assert_damaged(|hart| hart.words_mut()[20] = 0);
}

/// A count of dropped writes of 2^32 or more.
#[test]
fn counts() {
    for bit in 32..64 {
        for word in [1 << bit, 1 << bit | 0xFFFF_FFFF] {
            assert_damaged(|hart| hart.set_dropped(word));
        }
    }
}

/// A width that is neither 32 nor 64, in the record or asked for.
#[test]
fn widths() {
    for bits in [0, 1, 16, 31, 33, 63, 65, 128, 1 << 32 | 32, 1 << 32 | 64, u64::MAX] {
        assert_damaged(|hart| hart.words_mut()[62] = bits);
        let mut block = [1; HART_WORDS];
        assert_eq!(blocks::fresh(&mut block, bits, 15), -1);
        assert_eq!(block, [1; HART_WORDS]);
        assert_eq!(Hart::from_words([bits; HART_WORDS]).xlen(), None);
    }
}

/// Records that are not well made, and blocks of nothing but ones.
#[test]
fn not_well_made() {
    let damages: [fn(&mut Hart); 9] = [
        |hart| hart.set_lines(1),
        |hart| hart.set_sepc(1),
        |hart| hart.set_page(Some(BASE + 8)),
        |hart| hart.x_mut()[0] = 1,
        |hart| hart.set_features(16),
        |hart| hart.set_hstatus(1),
        |hart| hart.set_stvec(1),
        |hart| hart.set_stvec(2),
        |hart| hart.set_stvec(BASE | 3),
    ];
    damages.into_iter().for_each(assert_damaged);
    assert_refused(Hart::from_words([u64::MAX; HART_WORDS]), 4);
    assert_refused(Hart::from_words([0; HART_WORDS]), 4);
}

/// At width 32 a bit above 31 in any word; at width 64 a bit of htimedeltah.
#[test]
fn bits_of_the_other_width() {
    for bit in 32..64 {
        for place in 0..HART_WORDS {
            let mut hart = hart(Xlen::X32);
            hart.words_mut()[place] |= 1 << bit;
            assert_refused(hart, 4);
        }
    }
    for bit in 0..64 {
        let mut hart = hart(Xlen::X64);
        hart.set_htimedeltah(1 << bit);
        assert_refused(hart, 4);
    }
}

/// A record of the one width, told as the other's: its hstatus is not.
#[test]
fn the_other_width() {
    assert_damaged(|hart| {
        let other = if hart.xlen() == Some(Xlen::X32) { Xlen::X64 } else { Xlen::X32 };
        hart.set_xlen(other);
    });
}

/// Tables with part of a slot, or with more than 256 slots.
#[test]
fn tables() {
    for words in [1, 2, 3, 1023, 1025, 1028] {
        WIDTHS.into_iter().for_each(|xlen| assert_refused(hart(xlen), words));
    }
}

/// Asserts that a block is refused by the functions on slices, and that it and the room for reports
/// stay as they were, and the answer's block is all 0.
fn assert_no_record(block: &mut [u64]) {
    let before = block.to_vec();
    let (mut answer, mut reports) = ([7; ANSWER_WORDS], [9; REPORT_WORDS]);
    let (told, said) = (&mut answer, &mut reports);
    assert_eq!(blocks::call(block, 0, &mut [], &mut [], EID, 0, [0; 3], told, said), -1);
    assert_eq!(answer, [0; ANSWER_WORDS]);
    let (mut answer, said) = ([7; ANSWER_WORDS], &mut reports);
    let told = &mut answer;
    assert_eq!(blocks::sync_stoppable(block, 0, &mut [], &mut [], EID, 2, ALL, 9, told, said), -1);
    assert_eq!(answer, [0; ANSWER_WORDS]);
    let (mut answer, said) = ([7; ANSWER_WORDS], &mut reports);
    assert_eq!(blocks::trap(block, 0, &mut [], &[], [0; 4], 0, &mut answer, said), -1);
    assert_eq!(answer, [0; ANSWER_WORDS]);
    let mut answer = [7; ANSWER_WORDS];
    assert_eq!(blocks::line_change(block, 0, &mut [], &[], 0, &mut answer), -1);
    assert_eq!((answer, reports), ([0; ANSWER_WORDS], [9; REPORT_WORDS]));
    assert_eq!(block, before);
}

/// A record's block of another length, such as the 62 words without a width, the 64 without stvec or
/// the 67 without the count.
#[test]
fn lengths_of_records() {
    for length in (0..100).filter(|&length| length != HART_WORDS) {
        let mut block = vec![1; length];
        for bits in [32, 64] {
            assert_eq!(blocks::fresh(&mut block, bits, 15), -1);
        }
        assert_eq!(block, vec![1; length]);
        assert_no_record(&mut block);
    }
    for length in [62, 64, 66, 67] {
        let mut hart = hart(Xlen::X64);
        let old = &mut hart.words_mut()[..length];
        assert_no_record(old);
        old[22] = 1;
        assert_no_record(old);
    }
}

/// An answer's block of another length is left alone, and the code is the same.
#[test]
fn lengths_of_answers() {
    for length in [0, 1, 3, 4, 6, 8] {
        let mut hart = hart(Xlen::X64);
        let (block, mut answer) = (hart.words_mut(), vec![7; length]);
        let told = &mut answer;
        let code = blocks::call(block, 0, &mut [], &mut [], EID, 0, [3, 0, 0], told, &mut []);
        assert_eq!((code, answer), (0, vec![7; length]));
    }
}
