//! Replay by hand: the reports at the end of a line.

use second::calls::{ALL, EID};
use second::csr::{self, Csr};
use second::page;
use second::recording::{call, lines, slot, trap, write};
use second::replay;
use second::xlen::Xlen;

use crate::common::BASE;
use crate::dropped::T8;
use crate::replays::{nacl, set, told};

/// A write of one word.
fn write_word(offset: u64, word: u64) -> Vec<u8> {
    write(offset, &word.to_le_bytes())
}

/// The records by which registers get their words and their marks.
fn marked(registers: &[(Csr, u64)]) -> Vec<u8> {
    let mut bitmap = [0; 0x80];
    let mut bytes = Vec::new();
    for &(csr, word) in registers {
        let index = page::index_of_number(csr.number());
        bytes.extend(write_word(page::word_offset(Xlen::X64, index) as u64, word));
        bitmap[index / 8] |= 1 << (index % 8);
    }
    [bytes, write(0xF80, &bitmap)].concat()
}

/// The records of a swap: the flag and the swap word.
fn swap(word: u64) -> Vec<u8> {
    [write(0x200, &[1]), write_word(0x208, word)].concat()
}

/// The line of the last record, without its number.
fn last(records: &[Vec<u8>]) -> String {
    let text = told(&records.concat());
    text.lines().last().unwrap().split_once(' ').unwrap().1.to_string()
}

/// T8, from bytes written out: hgatp has index 0x180, its word at 0x1C00 and its mark in 0xFB0.
#[test]
fn line_of_t8() {
    let write_hgatp = b"\x10\0\0\0\x02\0\0\x1C\0\0\0\0\0\0\x07\0\0\0\0\0\0\x90";
    let mark_hgatp = b"\x09\0\0\0\x02\0\xB0\x0F\0\0\0\0\0\0\x01";
    let before = [set(), write_hgatp.to_vec(), mark_hgatp.to_vec()].concat();
    for (a0, steps) in [(0x680, 3), (ALL, 38)] {
        let text = told(&[before.clone(), nacl(2, a0), nacl(2, a0)].concat());
        let end = format!("4 1 0 {steps} 0 680 9000000000000003\n5 1 0 {} 0\n", steps - 2);
        assert_eq!(text, format!("1 1 0 0 0\n2 2 0 0 0\n3 2 0 0 0\n{end}"));
    }
}

/// Digits: three and sixteen, with leading zeros and lower-case letters.
#[test]
fn digits() {
    let registers =
        [(Csr::Vsatp, 0xA << 60), (Csr::Hgeip, 0xABC_DEF0), (Csr::Vsepc, 1), (Csr::Henvcfg, 0xF)];
    let line = last(&[set(), marked(&registers), nacl(2, ALL)]);
    let [hgeip, henvcfg] = ["e12 000000000abcdef0", "60a 000000000000000e"];
    let [vsepc, vsatp] = ["241 0000000000000001", "280 a000000000000000"];
    assert_eq!(line, format!("1 0 44 0 {hgeip} {henvcfg} {vsepc} {vsatp}"));
}

/// SRET's line has the registers in turn order and then the swap, after the slots removed.
#[test]
fn line_of_sret() {
    let fence = write_word(0x800, 0x81 << 56);
    let registers = marked(&[(Csr::Hgatp, T8), (Csr::Hstatus, 1), (Csr::Hvip, 4)]);
    let records = [set(), slot(5, [1 << 63, 1, 1, 1]), fence, registers, swap(0x8080), nacl(4, 0)];
    let [hstatus, hgatp] = ["600 0000000200000001", "680 9000000000000003"];
    assert_eq!(last(&records), format!("1 0 0 1 {hstatus} {hgatp} 600 0000000200008000"));
}

/// A trap's line has the swap; without it nothing, though hstatus, htval and htinst change.
#[test]
fn line_of_a_trap() {
    let guest = [set(), swap(0x2_0000_0080), nacl(4, 0)].concat();
    let trapped = trap(u64::MAX, u64::MAX, u64::MAX, u64::MAX, 1);
    assert_eq!(last(&[guest.clone(), trapped.clone()]), "5 0 0 0");
    let records = [guest.clone(), swap(u64::MAX), trapped.clone()];
    assert_eq!(last(&records), "5 0 0 0 600 fffffffdff8ffc3f");
    let records = [guest, write_word(0x208, 0), write(0x200, &[0]), trapped];
    assert_eq!(last(&records), "5 0 0 0");
}

/// Refused calls and traps, and the kinds that write no register, have five fields whatever waits.
#[test]
fn five_fields() {
    let before = [set(), marked(&[(Csr::Hgatp, T8), (Csr::Hip, 0xFFFF)]), swap(0)].concat();
    for (record, line) in [
        (nacl(2, 0x681), "1 -3 0 0"),
        (call(EID + 1, 2, ALL, 0, 0), "1 -2 0 0"),
        (nacl(3, ALL), "1 0 0 0"),
        (nacl(0, 3), "1 0 0 0"),
        (nacl(2, 0x643), "1 0 1 0"),
        (call(EID, 1, BASE, 0, 0), "1 0 0 0"),
        (trap(1, 2, 3, 4, 5), "5 -2 0 0"),
        (lines(0xFE), "3 0 0 0"),
        (write(0x1C00, &[0xFF; 8]), "2 0 0 0"),
        (slot(0, [u64::MAX; 4]), "4 0 0 0"),
    ] {
        assert_eq!(last(&[before.clone(), record]), line);
    }
}

/// The longest line: the 17 registers that can drop bits, and the swap.
#[test]
fn most_reports() {
    let registers: Vec<(Csr, u64)> =
        csr::turn_order(Xlen::X64).iter().map(|&csr| (csr, u64::MAX)).collect();
    let records = [set(), marked(&registers), swap(u64::MAX), nacl(4, 0)];
    let line = last(&records);
    assert_eq!((line.split(' ').count(), line.len()), (4 + 2 * 18, 7 + 21 * 18));
    assert!(line.starts_with("1 0 0 0 600 fffffffdff8ffc3f e12 ffffffffffffffff 607 "));
    assert!(line.ends_with(" 280 f000000000000000 600 fffffffdff8ffc3f"));
    let (_, state) = replay::replayed_state(&records.concat());
    assert_eq!(state.hart.dropped, 18);
}

/// The count of the record at the end is the number of reports in all lines.
#[test]
fn count_and_lines() {
    let marks = marked(&[(Csr::Hgatp, T8), (Csr::Vsepc, 1)]);
    let records = [set(), marks.clone(), nacl(2, ALL), nacl(2, 0x681), marks, nacl(2, 0x241)];
    let bytes = records.concat();
    let reports: usize = told(&bytes).lines().map(|line| (line.split(' ').count() - 5) / 2).sum();
    assert_eq!((reports, replay::replayed_state(&bytes).1.hart.dropped), (3, 3));
}
