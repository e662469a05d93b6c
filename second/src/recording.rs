//! Recordings: the bytes of each kind of record, and a recorder that follows the state.

use crate::hypervisor::{self, Request};
use crate::page;
use crate::replay::{Replay, HEADER};
use crate::state::State;
use crate::xlen::Xlen;

/// A header with this length of the body and this kind, good or bad.
pub fn header(length: u32, kind: u16) -> [u8; HEADER] {
    let mut bytes = [0; HEADER];
    bytes[..4].copy_from_slice(&length.to_le_bytes());
    bytes[4..].copy_from_slice(&kind.to_le_bytes());
    bytes
}

/// A record of this kind with this body.
fn record(kind: u16, body: &[u8]) -> Vec<u8> {
    [&header(body.len() as u32, kind), body].concat()
}

/// A record of this kind whose body is these words.
fn record_of_words(kind: u16, words: &[u64]) -> Vec<u8> {
    record(kind, &words.iter().flat_map(|word| word.to_le_bytes()).collect::<Vec<u8>>())
}

/// Kind 1: a call.
pub fn call(eid: u64, fid: u64, a0: u64, a1: u64, a2: u64) -> Vec<u8> {
    record_of_words(1, &[eid, fid, a0, a1, a2])
}

/// Kind 2: a memory write, which is good with 1 to 4,096 bytes.
pub fn write(offset: u64, bytes: &[u8]) -> Vec<u8> {
    record(2, &[&offset.to_le_bytes(), bytes].concat())
}

/// Kind 3: a line change.
pub fn lines(lines: u64) -> Vec<u8> {
    record_of_words(3, &[lines])
}

/// Kind 4: a table slot placed.
pub fn slot(index: u64, [head, virtual_page, physical_page, host_page]: [u64; 4]) -> Vec<u8> {
    record_of_words(4, &[index, head, virtual_page, physical_page, host_page])
}

/// Kind 5: a trap back; bit 0 of the last word is GVA.
pub fn trap(cause: u64, tval: u64, htval: u64, htinst: u64, gva_word: u64) -> Vec<u8> {
    record_of_words(5, &[cause, tval, htval, htinst, gva_word])
}

/// Where the records of a good recording begin.
pub fn starts(bytes: &[u8]) -> Vec<usize> {
    let mut starts = Vec::new();
    let mut at = 0;
    while at < bytes.len() {
        starts.push(at);
        at += HEADER + page::word(Xlen::X32, bytes, at) as usize;
    }
    starts
}

/// A recording that grows, and the state that it has led to.
#[derive(Clone, Debug, Default)]
pub struct Recorder {
    bytes: Vec<u8>,
    replay: Replay,
}

impl Recorder {
    /// A recorder that has recorded nothing.
    pub fn new() -> Recorder {
        Recorder::default()
    }

    /// The state after what is recorded.
    pub fn state(&self) -> &State {
        self.replay.state()
    }

    /// The bytes that are recorded.
    pub fn into_bytes(self) -> Vec<u8> {
        self.bytes
    }

    /// Records a good record.
    pub fn add(&mut self, record: &[u8]) {
        self.bytes.extend_from_slice(record);
        self.replay.feed(record, &mut Vec::new());
    }

    /// Records the stores by which the hypervisor carries out a request on the page, each as a
    /// memory write; gives the request's value, or the code of its refusal.
    pub fn perform(&mut self, request: &Request) -> Result<u64, i64> {
        let mut page = self.state().memory.bytes.clone();
        let value = hypervisor::perform(64, &mut page, request)?;
        for (offset, length) in stores(request, value as usize) {
            self.add(&write(offset as u64, &page[offset..][..length]));
        }
        Ok(value)
    }
}

/// The offsets and the lengths of the stores of an accepted request, in their order.
fn stores(request: &Request, value: usize) -> Vec<(usize, usize)> {
    match request {
        Request::WriteCsr { number, .. } => {
            let index = page::index_of_number(*number);
            vec![(page::word_offset(Xlen::X64, index), 8), (page::bit_place(index).0, 1)]
        }
        Request::QueueFence(_) => {
            let entry = page::entry_offset(Xlen::X64, value);
            [1, 3, 2, 0].map(|place| (entry + 8 * place, 8)).to_vec()
        }
        Request::FillContext(_) => vec![(page::context_offset(Xlen::X64, 0), 32 * 8)],
    }
}
