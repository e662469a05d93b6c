//! The sample recordings, with the lines that each must print.

use crate::calls::{ALL, EID, PROBE, SET, SYNC_CSR, SYNC_FENCE, SYNC_SRET};
use crate::csr::{Csr, SPV};
use crate::hypervisor::{Fence, Request};
use crate::lister;
use crate::page;
use crate::recording::{self, Recorder};
use crate::replay::{self, BASE};
use crate::xlen::Xlen;

/// A sample: its name and its bytes.
#[derive(Clone, PartialEq, Eq, Debug)]
pub struct Sample {
    pub name: &'static str,
    pub bytes: Vec<u8>,
}

/// Every sample.
pub fn all() -> Vec<Sample> {
    vec![
        Sample { name: "good-day", bytes: good_day() },
        Sample { name: LOST_TICKET, bytes: lost_ticket() },
        Sample { name: "cut", bytes: cut() },
        Sample { name: "bad", bytes: bad() },
        Sample { name: "every-kind", bytes: every_kind() },
        Sample { name: "dropped", bytes: dropped() },
    ]
}

/// The sample whose page at the end is shown too.
const LOST_TICKET: &str = "lost-ticket";

/// The names and the contents of all files: each sample with its lines, and the page that the lost
/// ticket leaves with its listing.
pub fn files() -> Vec<(String, Vec<u8>)> {
    let mut files = Vec::new();
    for Sample { name, bytes } in all() {
        let (lines, state) = replay::replayed_state(&bytes);
        files.push((format!("{name}.rec"), bytes));
        files.push((format!("{name}.txt"), lines));
        if name == LOST_TICKET {
            let page = state.memory.bytes;
            let listing = lister::list(&page);
            files.push((format!("{name}.page"), page));
            files.push((format!("{name}.page.txt"), listing.into_bytes()));
        }
    }
    files
}

/// A call of the extension with one argument.
fn call(fid: u64, a0: u64) -> Vec<u8> {
    recording::call(EID, fid, a0, 0, 0)
}

/// A used slot of this VMID and ASID, for a virtual and a physical page.
fn slot(index: u64, [vmid, asid]: [u64; 2], [virtual_page, physical_page]: [u64; 2]) -> Vec<u8> {
    let head = 1 << 63 | vmid << 16 | asid;
    recording::slot(index, [head, virtual_page, physical_page, 0x80_0000 + index])
}

/// A fence for the pages from the first on.
fn fence(kind: u64, [vmid, asid]: [u64; 2], [page_number, page_count]: [u64; 2]) -> Request {
    Request::QueueFence(Fence { kind, order: 0, vmid, asid, page_number, page_count })
}

/// A write of a register.
fn write_csr(csr: Csr, value: u64) -> Request {
    Request::WriteCsr { number: csr.number(), value }
}

/// Records stores of requests; a refused one stores nothing.
fn perform(recorder: &mut Recorder, requests: &[Request]) {
    for request in requests {
        let _ = recorder.perform(request);
    }
}

/// A day on which all is well: registers and fences are queued and synchronized, the guest runs and
/// traps back. Every code is 0.
fn good_day() -> Vec<u8> {
    let mut day = Recorder::new();
    day.add(&call(PROBE, 1));
    day.add(&call(SET, BASE));
    for record in [
        slot(0, [5, 1], [0x10, 0x40]),
        slot(1, [5, 1], [0x11, 0x41]),
        slot(2, [5, 2], [0x10, 0x42]),
        slot(3, [6, 1], [0x10, 0x43]),
        slot(63, [6, 1], [0x11, 0x44]),
    ] {
        day.add(&record);
    }
    perform(&mut day, &[write_csr(Csr::Hideleg, 0x444), write_csr(Csr::Hvip, 4)]);
    day.add(&call(SYNC_CSR, ALL));
    perform(&mut day, &[fence(2, [5, 0], [0x40, 1]), fence(6, [5, 2], [0x10, 1])]);
    day.add(&call(SYNC_FENCE, 0));
    day.add(&call(SYNC_FENCE, ALL));
    day.add(&recording::lines(0x08));
    perform(&mut day, &[write_csr(Csr::Hgeie, 0x08), write_csr(Csr::Hstatus, SPV | 3 << 12)]);
    perform(&mut day, &[fence(3, [6, 0], [0, 0]), Request::FillContext((0..32).collect())]);
    day.add(&call(SYNC_SRET, 0));
    day.add(&recording::lines(0));
    day.add(&recording::trap(21, 0x1_1008, 0x1041, 0, 1));
    day.add(&call(SYNC_CSR, Csr::Htval.number()));
    day.into_bytes()
}

/// Two fences are queued, in entries 0 and 1. Entry 0 is synchronized, and then entry 2 instead of
/// entry 1: nothing is removed, the second slot stays, and entry 1 stays pending.
fn lost_ticket() -> Vec<u8> {
    let mut desk = Recorder::new();
    desk.add(&call(SET, BASE));
    desk.add(&slot(0, [5, 0], [0x30, 15]));
    desk.add(&slot(1, [5, 0], [0x31, 16]));
    perform(&mut desk, &[fence(2, [5, 0], [15, 1]), fence(2, [5, 0], [16, 1])]);
    desk.add(&call(SYNC_FENCE, 0));
    desk.add(&call(SYNC_FENCE, 2));
    desk.add(&call(SYNC_CSR, Csr::Hip.number()));
    desk.into_bytes()
}

/// The last record ends in the middle of its body.
fn cut() -> Vec<u8> {
    let mut bytes = call(SET, BASE);
    bytes.extend(recording::lines(0x02));
    let last = recording::write(0x240, b"the end of this is missing");
    bytes.extend(&last[..20]);
    bytes
}

/// A line change whose length is 7, with good records before it and after it.
fn bad() -> Vec<u8> {
    let mut bytes = call(SET, BASE);
    bytes.extend(call(SYNC_CSR, Csr::Hvip.number()));
    bytes.extend(recording::header(7, 3));
    bytes.extend([2, 0, 0, 0, 0, 0, 0]);
    bytes.extend(recording::lines(0x02));
    bytes.extend(call(SYNC_CSR, ALL));
    bytes
}

/// Every kind with every code that it can have.
fn every_kind() -> Vec<u8> {
    let mut all = Recorder::new();
    let used = [1 << 63, 1, 1, 1];
    for record in [
        // No page is set yet.
        call(SYNC_CSR, ALL),
        call(SYNC_FENCE, 0),
        call(SYNC_SRET, 0),
        recording::call(EID, SET, BASE, 0, 1),
        recording::call(EID, SET, BASE, 1, 0),
        call(SET, BASE),
        call(PROBE, 7),
        recording::call(0x10, 0, 0, 0, 0),
        call(5, 0),
        call(SYNC_CSR, 0x344),
        call(SYNC_FENCE, 60),
        recording::write(12_287, &[0]),
        recording::write(12_287, &[0, 0]),
        recording::write(u64::MAX, &[0]),
        recording::lines(0xFE),
        recording::lines(1),
        recording::slot(63, used),
        recording::slot(64, used),
        recording::trap(8, 0, 0, 0, 0),
    ] {
        all.add(&record);
    }
    perform(&mut all, &[fence(1, [0, 0], [0, 0]), write_csr(Csr::Hstatus, SPV)]);
    // Into the guest, where every call is refused, and back.
    for record in [
        call(SYNC_SRET, 0),
        call(PROBE, 0),
        recording::trap(8, 0, 0, 0, 2),
        call(SYNC_CSR, ALL),
        call(SYNC_FENCE, ALL),
        recording::call(EID, SET, ALL, ALL, 0),
        call(SYNC_CSR, ALL),
    ] {
        all.add(&record);
    }
    all.into_bytes()
}

/// The swap word for hstatus, written by the hypervisor.
fn write_swap(word: u64) -> Vec<u8> {
    recording::write(page::hstatus_swap(Xlen::X64) as u64, &word.to_le_bytes())
}

/// Writes with dropped bits: hgatp with an unsupported MODE, hip with 0 while a line is up, and
/// hstatus swapped at SRET and at the trap back. Among them are writes and swaps with none.
fn dropped() -> Vec<u8> {
    let mut desk = Recorder::new();
    desk.add(&call(SET, BASE));
    let wrong = write_csr(Csr::Hgatp, 0x9000_0000_0000_0007);
    perform(&mut desk, &[wrong, write_csr(Csr::Htval, 0x9000_0000_0000_0007)]);
    // A refused call reports nothing; the next ones carry out what was written.
    desk.add(&call(SYNC_CSR, 0x681));
    desk.add(&call(SYNC_CSR, Csr::Hgatp.number()));
    desk.add(&call(SYNC_CSR, ALL));
    perform(&mut desk, &[write_csr(Csr::Hgatp, 0x8000_0000_0000_0004)]);
    desk.add(&call(SYNC_CSR, ALL));
    desk.add(&recording::lines(0x08));
    perform(&mut desk, &[write_csr(Csr::Hgeie, 0x08), write_csr(Csr::Hip, 0)]);
    desk.add(&call(SYNC_CSR, ALL));
    perform(&mut desk, &[write_csr(Csr::Vsepc, 0x8001), write_csr(Csr::Hstatus, 0x1)]);
    desk.add(&recording::write(page::AUTOSWAP_FLAGS as u64, &[1]));
    desk.add(&write_swap(SPV | 0x9000));
    desk.add(&call(SYNC_SRET, 0));
    desk.add(&recording::trap(8, 0, 0, 0, 0));
    desk.add(&call(SYNC_SRET, 0));
    desk.add(&write_swap(u64::MAX));
    desk.add(&recording::trap(8, 0, 0, 0, 0));
    desk.into_bytes()
}
