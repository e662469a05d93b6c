//! The bytes of records, and the sample recordings.

use nathiroeng::EID;

/// A header with this length of the body and this kind, good or bad.
pub fn header(length: u32, kind: u16) -> Vec<u8> {
    [&length.to_le_bytes()[..], &kind.to_le_bytes()].concat()
}

/// A record of this kind with this body.
fn record(kind: u16, body: &[u8]) -> Vec<u8> {
    [header(body.len() as u32, kind), body.to_vec()].concat()
}

/// The bytes of words.
fn bytes(words: &[u64]) -> Vec<u8> {
    words.iter().flat_map(|word| word.to_le_bytes()).collect()
}

/// A call of any extension.
pub fn any_call(eid: u64, fid: u64, args: [u64; 3]) -> Vec<u8> {
    record(1, &bytes(&[&[eid, fid], &args[..]].concat()))
}

/// A call with one argument.
pub fn call(fid: u64, a0: u64) -> Vec<u8> {
    any_call(EID, fid, [a0, 0, 0])
}

/// A memory write.
pub fn write(offset: u64, written: &[u8]) -> Vec<u8> {
    record(2, &[&bytes(&[offset]), written].concat())
}

/// A line change.
pub fn lines(lines: u64) -> Vec<u8> {
    record(3, &bytes(&[lines]))
}

/// A table slot placed.
pub fn slot(index: u64, words: [u64; 4]) -> Vec<u8> {
    record(4, &bytes(&[&[index], &words[..]].concat()))
}

/// A trap back.
pub fn trap(words: [u64; 4], gva: u64) -> Vec<u8> {
    record(5, &bytes(&[&words[..], &[gva]].concat()))
}

/// Names a sample recording: its bytes and its lines.
macro_rules! sample {
    ($name:literal) => {
        (
            include_bytes!(concat!("../../../examples/recordings/", $name, ".rec")).as_slice(),
            include_str!(concat!("../../../examples/recordings/", $name, ".txt")),
        )
    };
}

/// The sample recordings, with the lines that each must print.
pub const SAMPLES: [(&[u8], &str); 6] = [
    sample!("good-day"),
    sample!("lost-ticket"),
    sample!("cut"),
    sample!("bad"),
    sample!("every-kind"),
    sample!("dropped"),
];

/// The page that the lost ticket leaves, and its listing.
pub const LOST_PAGE: &[u8] = include_bytes!("../../../examples/recordings/lost-ticket.page");
pub const LOST_LISTING: &str = include_str!("../../../examples/recordings/lost-ticket.page.txt");
