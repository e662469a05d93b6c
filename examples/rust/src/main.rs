//! A first call: a fresh hart sets its page, which makes it blank; the hypervisor writes hvip in
//! it, and every register is synchronized; then it fills in the registers of its guest and goes
//! there. Then the same with a hart of width 32, whose page is smaller, and a fence. Then, at both
//! widths, a guest that a trap brings back.

use nathiroeng::csr::{HGATP, HSTATUS, HTVAL, HVIP};
use nathiroeng::{Hart, Hfence, HfenceType, Memory, Monitor, Page, Trap, Xlen, ALL};

const BASE: u64 = 0x8000_0000;

/// The bit SPV of hstatus: SRET goes to the guest.
const SPV: u64 = 1 << 7;

/// The little-endian word at an offset.
fn word_at(xlen: Xlen, page: &[u8], offset: usize) -> u64 {
    let mut bytes = [0; 8];
    let size = xlen.word_bytes();
    bytes[..size].copy_from_slice(&page[offset..][..size]);
    u64::from_le_bytes(bytes)
}

/// A register's word.
fn word_of(xlen: Xlen, page: &[u8], csr: u64) -> u64 {
    let index = (((csr & 0xC00) >> 2) | (csr & 0xFF)) as usize;
    word_at(xlen, page, 0x1000 + xlen.word_bytes() * index)
}

/// The hypervisor fills in X1 to X31 of its guest and goes there; prints what they are then.
fn go_to_guest(xlen: Xlen, monitor: &mut Monitor) {
    let x = std::array::from_fn(|i| 0x100 + i as u64);
    let mut page = Page { xlen, bytes: monitor.memory.bytes };
    assert!(page.fill_context(&x).is_ok());
    let resumed = monitor.sync_sret().is_resumed();
    println!("resumed {resumed}, X1 {:x}, X31 {:x}", monitor.hart.x()[1], monitor.hart.x()[31]);
}

/// Width 64: 0xFFFF in hvip.
fn wide() {
    let xlen = Xlen::X64;
    let mut hart = Hart::fresh(xlen, 15);
    let mut bytes = [0; Xlen::X64.page_bytes()];
    println!("width {}, a page of {} bytes", xlen.bits(), bytes.len());
    let memory = Memory { base: BASE, bytes: &mut bytes };
    let mut monitor = Monitor { hart: &mut hart, memory, table: &mut [] };
    println!("set_shmem {}", monitor.set_shmem(BASE, 0, 0).error);
    let mut page = Page { xlen, bytes: monitor.memory.bytes };
    assert!(page.write_csr(HVIP, 0xFFFF).is_ok());
    println!("sync_csr {}", monitor.sync_csr(ALL).ret.error);
    let word = word_of(xlen, monitor.memory.bytes, HVIP);
    println!("hvip {:x}, its word {word:x}", monitor.hart.hvip());
    go_to_guest(xlen, &mut monitor);
}

/// Width 32: all ones in hgatp, and a fence for VMID 5, page 16.
fn narrow() {
    let xlen = Xlen::X32;
    let mut hart = Hart::fresh(xlen, 15);
    let mut bytes = [0; Xlen::X32.page_bytes()];
    println!("width {}, a page of {} bytes", xlen.bits(), bytes.len());
    // Two slots in use, for VMID 5 and 6; the third word is the guest's physical page.
    let mut table = [1 << 63 | 5 << 16, 0, 16, 0, 1 << 63 | 6 << 16, 0, 16, 0];
    let memory = Memory { base: BASE, bytes: &mut bytes };
    let mut monitor = Monitor { hart: &mut hart, memory, table: &mut table };
    println!("set_shmem {}", monitor.set_shmem(BASE, 0, 0).error);
    let mut page = Page { xlen, bytes: monitor.memory.bytes };
    assert!(page.write_csr(HGATP, 0xFFFF_FFFF).is_ok());
    println!("sync_csr {}", monitor.sync_csr(ALL).ret.error);
    let word = word_of(xlen, monitor.memory.bytes, HGATP);
    println!("hgatp {:x}, its word {word:x}", monitor.hart.hgatp());
    let mut page = Page { xlen, bytes: monitor.memory.bytes };
    let fence = Hfence::new(HfenceType::GvmaVmid);
    let queued = page.queue_hfence(Hfence { vmid: 5, page_number: 16, page_count: 1, ..fence });
    assert!(queued.is_ok());
    println!("sync_hfence {}", monitor.sync_hfence(queued.value).error);
    let entry = 0x800 + 4 * xlen.word_bytes() * queued.value as usize;
    let config = word_at(xlen, monitor.memory.bytes, entry);
    let used = [monitor.table[0] >> 63, monitor.table[4] >> 63];
    println!("Config {config:08x}, slots in use: {used:?}");
    go_to_guest(xlen, &mut monitor);
}

/// Into the guest's S mode, where no call is answered, and back by a load's guest-page fault.
fn guest(xlen: Xlen) {
    let (mut hart, mut bytes) = (Hart::fresh(xlen, 15), vec![0; xlen.page_bytes()]);
    println!("width {}, into the guest and back", xlen.bits());
    // The hypervisor's handler, and where its guest begins.
    hart.set_stvec(0x8010_0000);
    hart.set_sepc(0x1000);
    hart.set_spp(true);
    let memory = Memory { base: BASE, bytes: &mut bytes };
    let mut monitor = Monitor { hart: &mut hart, memory, table: &mut [] };
    assert!(monitor.set_shmem(BASE, 0, 0).is_ok());
    let mut page = Page { xlen, bytes: monitor.memory.bytes };
    assert!(page.fill_context(&[0; 32]).is_ok() && page.write_csr(HSTATUS, SPV).is_ok());
    assert!(monitor.sync_sret().is_resumed());
    let probe = monitor.probe_feature(2).error;
    println!("V {}, mode {:?}, probe_feature {probe}", monitor.hart.virt(), monitor.hart.mode());
    // The guest has come to 0x1042; htval is its physical address shifted right by 2.
    monitor.hart.set_pc(0x1042);
    let fault = Trap { cause: 21, tval: 0x5008, htval: 0x8000_5008 >> 2, htinst: 0, gva: true };
    let (trap, probe) = (monitor.trap(fault).ret.error, monitor.probe_feature(2).error);
    let (virt, mode, pc) = (hart.virt(), hart.mode(), hart.pc());
    println!("trap {trap}: V {virt}, mode {mode:?}, pc {pc:x}, probe_feature {probe}");
    println!("sepc {:x}, scause {:x}, stval {:x}", hart.sepc(), hart.scause(), hart.stval());
    let [hstatus, htval] = [HSTATUS, HTVAL].map(|csr| word_of(xlen, &bytes, csr));
    println!("hstatus {:x}, its word {hstatus:x}", hart.hstatus());
    println!("htval {:x}, its word {htval:x}", hart.htval());
}

fn main() {
    wide();
    narrow();
    guest(Xlen::X64);
    guest(Xlen::X32);
}
