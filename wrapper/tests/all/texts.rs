//! The lister.

use nathiroeng::{list, Xlen, LIST_BYTES};

use crate::common::*;

/// The whole listing as text.
fn listing(image: &[u8]) -> String {
    let mut out = vec![0; LIST_BYTES];
    let length = list(image, &mut out);
    String::from_utf8(out[..length].to_vec()).unwrap()
}

/// The sample of the papers; width 32 has eight digits.
#[test]
fn sample() {
    let rows = [
        (Xlen::X32, 0x8200_0A00, "csr 645 00000004\n"),
        (Xlen::X64, 0x8200_0000_0005_0000, "csr 645 0000000000000004\n"),
    ];
    for (xlen, config, line) in rows {
        let mut bytes = page(xlen);
        mark(xlen, &mut bytes, 0x645, 4);
        fence(xlen, &mut bytes, 2, [config, 16, 1]);
        let rest = "fence 2 type 2 order 0 vmid 5 asid 0 page 16 count 1\n\
            dirty 1 pending 1\n";
        assert_eq!(listing(&bytes), line.to_string() + rest);
    }
}

/// Other lengths, and an empty page.
#[test]
fn lengths() {
    for length in [0, 1, 8_191, 8_193, 12_287, 12_289] {
        assert_eq!(listing(&vec![0; length]), "bad length\n");
    }
    for xlen in WIDTHS {
        assert_eq!(listing(&page(xlen)), "dirty 0 pending 0\n");
    }
}

/// With too little room the beginning is written, and the whole length is given.
#[test]
fn little_room() {
    let mut out = [b'-'; 9];
    assert_eq!(list(&[], &mut out[..3]), 11);
    assert_eq!(&out, b"bad------");
    assert_eq!(list(&[], &mut []), 11);
}

/// The longest listing of each width has room in the stated bytes.
#[test]
fn longest() {
    let rows = [
        (Xlen::X32, 0x877F_FFFF, "dirty 25 pending 120\n"),
        (Xlen::X64, 0x877F_0000_3FFF_FFFF, "dirty 23 pending 60\n"),
    ];
    for (xlen, config, last) in rows {
        let mut bytes = page(xlen);
        bytes.fill(0xFF);
        for entry in 0..xlen.entries() {
            fence(xlen, &mut bytes, entry, [config, u64::MAX, u64::MAX]);
        }
        let text = listing(&bytes);
        assert!(text.len() <= LIST_BYTES);
        assert!(!text.contains("all") && text.ends_with(last));
        let lines = if xlen == Xlen::X32 { 25 + 120 + 1 } else { 23 + 60 + 1 };
        assert_eq!(text.lines().count(), lines);
    }
}
