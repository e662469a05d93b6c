//! The record's methods and the documented places of its words, the registers' numbers, and replay's
//! sizes.

use nathiroeng::{csr, Hart, Mode, Page, SbiRet, Xlen, ANSWER_WORDS, HART_WORDS, REPORT_WORDS};
use nathiroeng::{REPLAY_LINE_BYTES, REPLAY_MEMORY_BYTES, REPLAY_PENDING_BYTES};
use nathiroeng::{REPLAY_STATE_WORDS, REPLAY_TABLE_WORDS};

/// A method that reads a word, with the one that puts it.
type Pair = (fn(&Hart) -> u64, fn(&mut Hart, u64));

/// The words with their places, in the order of the documented layout.
const WORDS: [(usize, Pair); 28] = [
    (0, (Hart::hstatus, Hart::set_hstatus)),
    (1, (Hart::hgeie, Hart::set_hgeie)),
    (2, (Hart::hideleg, Hart::set_hideleg)),
    (3, (Hart::hvip, Hart::set_hvip)),
    (4, (Hart::hie, Hart::set_hie)),
    (5, (Hart::hedeleg, Hart::set_hedeleg)),
    (6, (Hart::htimedelta, Hart::set_htimedelta)),
    (7, (Hart::hcounteren, Hart::set_hcounteren)),
    (8, (Hart::henvcfg, Hart::set_henvcfg)),
    (9, (Hart::htval, Hart::set_htval)),
    (10, (Hart::htinst, Hart::set_htinst)),
    (11, (Hart::hgatp, Hart::set_hgatp)),
    (12, (Hart::vsstatus, Hart::set_vsstatus)),
    (13, (Hart::vstvec, Hart::set_vstvec)),
    (14, (Hart::vsscratch, Hart::set_vsscratch)),
    (15, (Hart::vsepc, Hart::set_vsepc)),
    (16, (Hart::vscause, Hart::set_vscause)),
    (17, (Hart::vstval, Hart::set_vstval)),
    (18, (Hart::vsatp, Hart::set_vsatp)),
    (19, (Hart::lines, Hart::set_lines)),
    (24, (Hart::pc, Hart::set_pc)),
    (25, (Hart::sepc, Hart::set_sepc)),
    (29, (Hart::features, Hart::set_features)),
    (63, (Hart::htimedeltah, Hart::set_htimedeltah)),
    (64, (Hart::stvec, Hart::set_stvec)),
    (65, (Hart::scause, Hart::set_scause)),
    (66, (Hart::stval, Hart::set_stval)),
    (67, (Hart::dropped, Hart::set_dropped)),
];

/// Asserts that exactly these words differ between two records.
fn assert_changed(before: &Hart, after: &Hart, places: &[usize]) {
    for (place, (old, new)) in before.words().iter().zip(after.words()).enumerate() {
        assert_eq!(old != new, places.contains(&place), "word {place}");
    }
}

/// Each word is read and put at its place, and nothing else changes.
#[test]
fn words() {
    for (place, (get, set)) in WORDS {
        let start = Hart::fresh(Xlen::X64, 15);
        let mut hart = start.clone();
        set(&mut hart, 0x1234_5678);
        assert_eq!((get(&hart), hart.words()[place]), (0x1234_5678, 0x1234_5678));
        assert_changed(&start, &hart, &[place]);
    }
}

/// The words after the width's are where the header has them, and the block ends with them; so do the
/// answer's, and the room for reports is the same.
#[test]
fn last_words() {
    let header = include_str!("../../../include/nacl.h");
    let rows = [
        ("HART_HTIMEDELTAH", 63),
        ("HART_STVEC", 64),
        ("HART_SCAUSE", 65),
        ("HART_STVAL", 66),
        ("HART_DROPPED", 67),
        ("HART_WORDS", HART_WORDS),
        ("ANSWER_FINISHED", 3),
        ("ANSWER_REPORTS", 4),
        ("ANSWER_WORDS", ANSWER_WORDS),
        ("REPORT_WORDS", REPORT_WORDS),
    ];
    for (name, place) in rows {
        let told = format!("NACL_{name} = {place}");
        assert!(header.lines().any(|line| line.trim().starts_with(&told)), "{told}");
    }
    assert_eq!((HART_WORDS, ANSWER_WORDS, REPORT_WORDS), (68, 5, 52));
}

/// Each flag and the mode.
#[test]
fn flags() {
    type Flag = (fn(&Hart) -> bool, fn(&mut Hart, bool));
    let flags: [(usize, Flag); 4] = [
        (22, (Hart::virt, Hart::set_virt)),
        (26, (Hart::sie, Hart::set_sie)),
        (27, (Hart::spie, Hart::set_spie)),
        (28, (Hart::spp, Hart::set_spp)),
    ];
    for (place, (get, set)) in flags {
        let start = Hart::fresh(Xlen::X64, 15);
        let mut hart = start.clone();
        assert!(!get(&hart));
        set(&mut hart, true);
        assert!(get(&hart) && hart.words()[place] == 1);
        assert_changed(&start, &hart, &[place]);
    }
    let mut hart = Hart::fresh(Xlen::X64, 15);
    assert_eq!((hart.mode(), hart.words()[23]), (Mode::S, 1));
    hart.set_mode(Mode::U);
    assert_eq!((hart.mode(), hart.words()[23]), (Mode::U, 0));
}

/// The page's two words.
#[test]
fn page() {
    let start = Hart::fresh(Xlen::X64, 15);
    let mut hart = start.clone();
    assert_eq!(hart.page(), None);
    hart.set_page(Some(0x5000));
    assert_eq!((hart.page(), &hart.words()[20..22]), (Some(0x5000), &[1, 0x5000][..]));
    assert_changed(&start, &hart, &[20, 21]);
    hart.set_page(None);
    assert_eq!(hart, start);
}

/// The general registers are 32 words from word 30 on.
#[test]
fn general_registers() {
    let mut hart = Hart::fresh(Xlen::X64, 15);
    assert_eq!(hart.x().len(), 32);
    hart.x_mut()[31] = 9;
    assert_eq!((hart.words()[61], hart.x()[31]), (9, 9));
}

/// The width's word and its sizes.
#[test]
fn widths() {
    let start = Hart::fresh(Xlen::X64, 15);
    let mut hart = start.clone();
    assert_eq!((hart.xlen(), hart.words()[62]), (Some(Xlen::X64), 64));
    hart.set_xlen(Xlen::X32);
    assert_eq!((hart.xlen(), hart.words()[62]), (Some(Xlen::X32), 32));
    assert_changed(&start, &hart, &[62]);
    let sizes = |xlen: Xlen| (xlen.bits(), xlen.word_bytes(), xlen.page_bytes(), xlen.entries());
    assert_eq!(sizes(Xlen::X32), (32, 4, 8_192, 120));
    assert_eq!(sizes(Xlen::X64), (64, 8, 12_288, 60));
}

/// A fresh hart keeps four feature bits, and its words are the documented ones.
#[test]
fn fresh() {
    for (xlen, bits, xl) in [(Xlen::X32, 32, 0), (Xlen::X64, 64, 0x2_0000_0000)] {
        let hart = Hart::fresh(xlen, 0xFFF5);
        let mut words = [0; HART_WORDS];
        (words[0], words[12], words[23], words[29], words[62]) = (xl, xl, 1, 5, bits);
        assert_eq!(hart, Hart::from_words(words));
    }
}

/// The registers' names and numbers, in the order in which they are synchronized.
const NUMBERS: [(&str, u64, u64); 25] = [
    ("HSTATUS", csr::HSTATUS, 0x600),
    ("HGEIP", csr::HGEIP, 0xE12),
    ("HGEIE", csr::HGEIE, 0x607),
    ("HIDELEG", csr::HIDELEG, 0x603),
    ("HVIP", csr::HVIP, 0x645),
    ("HIE", csr::HIE, 0x604),
    ("HIP", csr::HIP, 0x644),
    ("VSIE", csr::VSIE, 0x204),
    ("VSIP", csr::VSIP, 0x244),
    ("HEDELEG", csr::HEDELEG, 0x602),
    ("HTIMEDELTA", csr::HTIMEDELTA, 0x605),
    ("HTIMEDELTAH", csr::HTIMEDELTAH, 0x615),
    ("HCOUNTEREN", csr::HCOUNTEREN, 0x606),
    ("HENVCFG", csr::HENVCFG, 0x60A),
    ("HENVCFGH", csr::HENVCFGH, 0x61A),
    ("HTVAL", csr::HTVAL, 0x643),
    ("HTINST", csr::HTINST, 0x64A),
    ("HGATP", csr::HGATP, 0x680),
    ("VSSTATUS", csr::VSSTATUS, 0x200),
    ("VSTVEC", csr::VSTVEC, 0x205),
    ("VSSCRATCH", csr::VSSCRATCH, 0x240),
    ("VSEPC", csr::VSEPC, 0x241),
    ("VSCAUSE", csr::VSCAUSE, 0x242),
    ("VSTVAL", csr::VSTVAL, 0x243),
    ("VSATP", csr::VSATP, 0x280),
];

/// The registers' numbers are those that can be written in a page, and the header has the same.
#[test]
fn numbers() {
    let header = include_str!("../../../include/nacl.h");
    let told = header.lines().filter_map(|line| line.trim().strip_prefix("NACL_CSR_"));
    let told: Vec<String> =
        told.map(|line| line.chars().take_while(|&c| c != ',').collect()).collect();
    let expected = NUMBERS.map(|(name, _, number)| format!("{name} = 0x{number:X}"));
    assert_eq!(told, expected);
    for (name, number, expected) in NUMBERS {
        assert_eq!(number, expected, "{name}");
        let is_upper = name == "HTIMEDELTAH" || name == "HENVCFGH";
        for xlen in [Xlen::X32, Xlen::X64] {
            let mut bytes = vec![0; xlen.page_bytes()];
            let ret = Page { xlen, bytes: &mut bytes }.write_csr(number, 1);
            let is_there = xlen == Xlen::X32 || !is_upper;
            assert_eq!(ret, if is_there { SbiRet::success(0) } else { SbiRet::invalid_param() });
        }
    }
}

/// The sizes of what a replay is lent; the header has the same.
#[test]
fn replay_sizes() {
    let header = include_str!("../../../include/nacl.h");
    let rows = [
        ("STATE_WORDS", REPLAY_STATE_WORDS, 71),
        ("MEMORY_BYTES", REPLAY_MEMORY_BYTES, 12_288),
        ("TABLE_WORDS", REPLAY_TABLE_WORDS, 256),
        ("PENDING_BYTES", REPLAY_PENDING_BYTES, 4_110),
        ("LINE_BYTES", REPLAY_LINE_BYTES, 633),
    ];
    for (name, number, expected) in rows {
        assert_eq!(number, expected, "{name}");
        let told = [format!("NACL_REPLAY_{name}"), number.to_string()];
        let is_there = |line: &str| {
            let words: Vec<&str> =
                line.split(|c: char| !c.is_ascii_alphanumeric() && c != '_').collect();
            let words: Vec<&str> = words.into_iter().filter(|word| !word.is_empty()).collect();
            words.windows(2).any(|pair| pair == told)
        };
        assert!(header.lines().any(is_there), "{told:?}");
    }
}
