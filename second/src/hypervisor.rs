//! The hypervisor's half of the page: it writes registers, queues fences and fills the SRET
//! context. A request knows a page and the bits of a width, and no hart, address or feature.
//!
//! Each gives its value, or the code of its refusal. All of it is judged before the first store, so
//! that a refusal changes no byte.

use crate::calls::{DENIED, FAILED, INVALID_PARAM};
use crate::csr::Csr;
use crate::fence::{Config, Entry};
use crate::page;
use crate::xlen::Xlen;

/// The fields of a fence that is asked for.
#[derive(Clone, Copy, PartialEq, Eq, Debug)]
pub struct Fence {
    pub kind: u64,
    pub order: u64,
    pub vmid: u64,
    pub asid: u64,
    pub page_number: u64,
    pub page_count: u64,
}

/// What the hypervisor asks for.
#[derive(Clone, PartialEq, Eq, Debug)]
pub enum Request {
    WriteCsr { number: u64, value: u64 },
    QueueFence(Fence),
    FillContext(Vec<u64>),
}

/// Carries out any request.
pub fn perform(bits: u64, page: &mut [u8], request: &Request) -> Result<u64, i64> {
    match request {
        Request::WriteCsr { number, value } => write_csr(bits, page, *number, *value),
        Request::QueueFence(fence) => queue_fence(bits, page, *fence),
        Request::FillContext(x) => fill_context(bits, page, x),
    }
}

/// The width with so many bits, whose length the page must have.
fn width(bits: u64, page: &[u8]) -> Result<Xlen, i64> {
    Xlen::from_bits(bits).filter(|xlen| page.len() == xlen.page_size()).ok_or(FAILED)
}

/// Stores a register's word, then sets its dirty bit; gives 0.
pub fn write_csr(bits: u64, page: &mut [u8], number: u64, value: u64) -> Result<u64, i64> {
    let xlen = width(bits, page)?;
    let csr = Csr::from_number(xlen, number).ok_or(INVALID_PARAM)?;
    if !xlen.holds(value) {
        return Err(INVALID_PARAM);
    }
    page::set_csr_word(xlen, page, csr, value);
    page::set_dirty(page, csr);
    Ok(0)
}

/// How many stores queue a fence: one for each word of its entry.
pub const QUEUE_STORES: usize = 4;

/// Queues a fence in the lowest entry that is not pending; gives the entry's number.
pub fn queue_fence(bits: u64, page: &mut [u8], fence: Fence) -> Result<u64, i64> {
    queue_first_stores(bits, page, fence, QUEUE_STORES)
}

/// Leaves the page as it is after the first stores of `queue_fence`, of which there are four.
pub fn queue_first_stores(
    bits: u64,
    page: &mut [u8],
    fence: Fence,
    stores: usize,
) -> Result<u64, i64> {
    let xlen = width(bits, page)?;
    if !fence.is_good(xlen) {
        return Err(INVALID_PARAM);
    }
    let number = free_entry(xlen, page).ok_or(DENIED)?;
    for (place, word) in in_order(fence.entry(xlen)).into_iter().take(stores) {
        let offset = page::entry_offset(xlen, number) + place * xlen.bytes();
        page::set_word(xlen, page, offset, word);
    }
    Ok(number as u64)
}

/// The lowest entry that is not pending, if there is one.
fn free_entry(xlen: Xlen, page: &[u8]) -> Option<usize> {
    let pending = Config::at(xlen).pending;
    let config = |number| page::word(xlen, page, page::entry_offset(xlen, number));
    (0..xlen.entry_count()).find(|&number| pending.of(config(number)) == 0)
}

/// The words of an entry with their places, in the order in which they are stored: the range first,
/// Config last.
fn in_order(entry: Entry) -> [(usize, u64); QUEUE_STORES] {
    [(1, entry.page_number), (3, entry.page_count), (2, entry.reserved), (0, entry.config)]
}

impl Fence {
    /// Whether the type names a range of pages; for the others the range is not looked at.
    fn has_range(&self) -> bool {
        matches!(self.kind, 0 | 2 | 4 | 6)
    }

    /// Whether the type is known and every field fits: Order, VMID and ASID for every type, the
    /// range for those that have one.
    fn is_good(&self, xlen: Xlen) -> bool {
        let config = Config::at(xlen);
        let range_fits = xlen.holds(self.page_number) && xlen.holds(self.page_count);
        self.kind <= 7
            && self.order <= config.order.most
            && self.vmid <= config.vmid.most
            && self.asid <= config.asid.most
            && (range_fits || !self.has_range())
    }

    /// The pending entry with this fence; what its type does not use is zero.
    fn entry(&self, xlen: Xlen) -> Entry {
        let has_range = self.has_range();
        let (has_vmid, has_asid) = match self.kind {
            0 | 1 => (false, false),
            2..=5 => (true, false),
            _ => (true, true),
        };
        let kept = |is_used: bool, field: u64| if is_used { field } else { 0 };
        let config = Config::at(xlen).word(
            self.kind,
            kept(has_range, self.order),
            kept(has_vmid, self.vmid),
            kept(has_asid, self.asid),
        );
        let page_number = kept(has_range, self.page_number);
        let page_count = kept(has_range, self.page_count);
        Entry { xlen, config, page_number, reserved: 0, page_count }.pending()
    }
}

/// Stores zero and X1 to X31 in the SRET context; gives 0. The first of the 32 words given is not
/// looked at.
pub fn fill_context(bits: u64, page: &mut [u8], x: &[u64]) -> Result<u64, i64> {
    let xlen = width(bits, page)?;
    if x.len() != 32 || !x[1..].iter().all(|&word| xlen.holds(word)) {
        return Err(INVALID_PARAM);
    }
    page::set_word(xlen, page, page::context_offset(xlen, 0), 0);
    for (i, &word) in x.iter().enumerate().skip(1) {
        page::set_word(xlen, page, page::context_offset(xlen, i), word);
    }
    Ok(0)
}
