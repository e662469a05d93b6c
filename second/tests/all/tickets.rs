//! The sample tickets T1 to T12 and the cases that are run only.

use second::calls::{self, ALL, EID, SET, SYNC_CSR, SYNC_FENCE};
use second::csr::{self, Csr};
use second::fence::Entry;
use second::hart::Hart;
use second::page;
use second::xlen::Xlen;

use crate::common::*;

/// T1: where hip lies in the page.
#[test]
fn t1_place_of_hip() {
    assert_eq!(page::index_of_number(0x644), 0x144);
    assert_eq!(page::word_offset(Xlen::X64, 0x144), 0x1A20);
    assert_eq!(page::bit_place(0x144), (0xFA8, 4));
}

/// T2: where hgeip lies in the page.
#[test]
fn t2_place_of_hgeip() {
    assert_eq!(page::index_of_number(0xE12), 0x312);
    assert_eq!(page::word_offset(Xlen::X64, 0x312), 0x2890);
    assert_eq!(page::bit_place(0x312), (0xFE2, 2));
}

/// T3, T4, T5: register numbers that are refused.
#[test]
fn t3_t4_t5_bad_numbers() {
    for number in [0x344, 0x1644, 0x6A8] {
        let mut state = small_state();
        let answer = sync(&mut state, SYNC_CSR, number);
        assert_eq!((answer.code, answer.value, answer.resumed), (-3, 0, false));
        assert_eq!(state, small_state());
    }
}

/// T6: the mask of hvip, and vsip through hideleg.
#[test]
fn t6_hvip_and_vsip() {
    let mut hart = Hart::fresh(15);
    csr::write(&mut hart, Csr::Hvip, 0xFFFF);
    assert_eq!(csr::read(&hart, Csr::Hvip), 0x444);
    assert_eq!(csr::read(&hart, Csr::Vsip), 0);
    csr::write(&mut hart, Csr::Hideleg, 0x004);
    assert_eq!(csr::read(&hart, Csr::Vsip), 0x002);
}

/// T7: hip shows the selected line and the enabled line.
#[test]
fn t7_hip_from_lines() {
    let mut hart = Hart::fresh(15);
    hart.lines = 1 << 3;
    csr::write(&mut hart, Csr::Hstatus, 3 << 12);
    csr::write(&mut hart, Csr::Hgeie, 0x08);
    csr::write(&mut hart, Csr::Hvip, 0);
    assert_eq!(csr::read(&hart, Csr::Hip), 0x1400);
}

/// T8: an unknown MODE of hgatp is kept, the other fields are taken. A write by itself is not
/// counted.
#[test]
fn t8_hgatp_mode() {
    let mut hart = Hart::fresh(15);
    csr::write(&mut hart, Csr::Hgatp, 0x9000_0000_0000_0007);
    assert_eq!((csr::read(&hart, Csr::Hgatp), hart.dropped), (4, 0));
}

/// T9: hvip's word is stored again after hip's turn.
#[test]
fn t9_hvip_follows_hip() {
    let mut state = small_state();
    mark(&mut state, Csr::Hvip, 0);
    mark(&mut state, Csr::Hip, 4);
    assert_eq!(sync(&mut state, SYNC_CSR, ALL).code, 0);
    assert_eq!(csr_word(&state, Csr::Hvip), 4);
    assert_eq!(csr_word(&state, Csr::Hip), 4);
    assert_eq!(state.hart.hvip, 4);
}

/// T10: Order 9, one page from number 1, is pages 512 to 1023.
#[test]
fn t10_order_9() {
    let pages = [511, 512, 1023, 1024];
    for kind in [0, 2] {
        let slots = pages.map(|page| slot(false, 5, 0, 9999, page));
        let mut state = state_with_slots(&slots);
        put_entry(&mut state, 0, pending(kind, 9, 5, 0, 1, 1));
        assert_eq!(sync(&mut state, SYNC_FENCE, 0).code, 0);
        assert_eq!(used(&state), [true, false, false, true]);
    }
    for kind in [4, 6] {
        let slots = pages.map(|page| slot(false, 5, 0, page, 9999));
        let mut state = state_with_slots(&slots);
        put_entry(&mut state, 0, pending(kind, 9, 5, 0, 1, 1));
        assert_eq!(sync(&mut state, SYNC_FENCE, 0).code, 0);
        assert_eq!(used(&state), [true, false, false, true]);
    }
}

/// T11: a range that passes 2^64 does not come round to page 0.
#[test]
fn t11_no_wrap() {
    let slots = [slot(false, 0, 0, 0, 0), slot(false, 0, 0, u64::MAX, u64::MAX)];
    for kind in [0, 2, 4, 6] {
        let mut state = state_with_slots(&slots);
        put_entry(&mut state, 0, pending(kind, 0, 0, 0, u64::MAX, 2));
        assert_eq!(sync(&mut state, SYNC_FENCE, ALL).code, 0);
        assert_eq!(used(&state), [true, false]);
    }
}

/// T12: only Pending is cleared in Config.
#[test]
fn t12_config_after() {
    let mut state = small_state();
    let config = 0x8200_0000_0005_0000;
    let entry = Entry { xlen: Xlen::X64, config, page_number: 16, reserved: 0, page_count: 1 };
    put_entry(&mut state, 7, entry);
    assert_eq!(sync(&mut state, SYNC_FENCE, 7).code, 0);
    let after = Entry { config: 0x0200_0000_0005_0000, ..entry };
    assert_eq!(get_entry(&state, 7), after);
}

/// Run only: index 59 is the last.
#[test]
fn last_index() {
    let mut state = small_state();
    put_entry(&mut state, 59, pending(1, 0, 0, 0, 0, 0));
    assert_eq!(sync(&mut state.clone(), SYNC_FENCE, 60).code, -3);
    assert_eq!(sync(&mut state, SYNC_FENCE, 59).code, 0);
    assert!(!get_entry(&state, 59).is_pending());
}

/// Run only: Page_Count 0 names nothing, and the entry is done.
#[test]
fn page_count_zero() {
    let slots = [slot(false, 0, 0, 3, 3)];
    for kind in [0, 2, 4, 6] {
        let mut state = state_with_slots(&slots);
        put_entry(&mut state, 0, pending(kind, 0, 0, 0, 3, 0));
        assert_eq!(sync(&mut state, SYNC_FENCE, 0).code, 0);
        assert_eq!(used(&state), [true]);
        assert!(!get_entry(&state, 0).is_pending());
    }
}

/// Run only: lo all-ones with hi 0, and a drop with flags 1, are bad parameters.
#[test]
fn set_parameters() {
    let start = small_state();
    for args in [[ALL, 0, 0], [ALL, ALL, 1]] {
        let mut state = start.clone();
        assert_eq!(calls::call(&mut state, EID, SET, args).code, -3);
        assert_eq!(state, start);
    }
}

/// Run only: with no slots a fence is done at once.
#[test]
fn no_slots() {
    let mut state = small_state();
    put_entry(&mut state, 3, pending(1, 0, 0, 0, 0, 0));
    assert_eq!(sync(&mut state, SYNC_FENCE, ALL).code, 0);
    assert!(!get_entry(&state, 3).is_pending());
    assert!(state.table.is_empty());
}

/// Run only: memory that is one byte short holds no page.
#[test]
fn one_byte_short() {
    let mut start = small_state();
    start.memory.bytes.pop();
    for fid in 2..=4 {
        let mut state = start.clone();
        assert_eq!(sync(&mut state, fid, ALL).code, -9);
        assert_eq!(state, start);
    }
    let mut state = start.clone();
    assert_eq!(calls::call(&mut state, EID, SET, [BASE, 0, 0]).code, -5);
    assert_eq!(state, start);
}
