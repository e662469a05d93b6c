//! A request of the hypervisor, and what both sides make of it.

use nathiroeng::{blocks, Hfence, HfenceType, Page, SbiRet, Xlen};
use second::hypervisor::{self, Fence, Request};

use crate::guard::Guarded;

/// What both sides are given: a page, the bits of a width, and the request.
#[derive(Clone, PartialEq, Eq, Debug)]
pub struct Ask {
    pub bits: u64,
    pub page: Vec<u8>,
    pub request: Request,
    /// Whether the library is reached by the wrapper's methods, where one can ask this.
    pub by_names: bool,
}

/// What one side leaves.
#[derive(Clone, PartialEq, Eq, Debug)]
pub struct Reply {
    /// The value, or a negative code.
    pub told: i64,
    /// Whether nothing beside the page has changed.
    pub kept: bool,
    pub page: Vec<u8>,
}

/// The library's reply.
pub fn ours(ask: &Ask) -> Reply {
    let words = match &ask.request {
        Request::FillContext(words) => words.as_slice(),
        _ => &[],
    };
    let (mut page, mut x) = (Guarded::new(&ask.page), Guarded::new(words));
    let told = match Xlen::from_bits(ask.bits).filter(|_| ask.by_names) {
        Some(xlen) => by_names(Page { xlen, bytes: page.lend() }, &ask.request, x.lend()),
        None => None,
    };
    let told = told.unwrap_or_else(|| by_blocks(page.lend(), ask.bits, &ask.request, x.lend()));
    let kept = page.is_kept() && x.is_kept() && x.take() == words;
    Reply { told, kept, page: page.take() }
}

/// Through the wrapper's methods; none where they can't ask this.
fn by_names(mut page: Page, request: &Request, x: &[u64]) -> Option<i64> {
    let ret = match *request {
        Request::WriteCsr { number, value } => page.write_csr(number, value),
        Request::QueueFence(Fence { kind, order, vmid, asid, page_number, page_count }) => {
            let kind = *HfenceType::ALL.get(usize::try_from(kind).ok()?)?;
            page.queue_hfence(Hfence { kind, order, vmid, asid, page_number, page_count })
        }
        Request::FillContext(_) => page.fill_context(x.try_into().ok()?),
    };
    Some(match ret {
        SbiRet { error: 0, value } => value as i64,
        SbiRet { error, value: 0 } => error,
        _ => i64::MIN, // a refusal with a value
    })
}

/// Through the functions on slices.
fn by_blocks(page: &mut [u8], bits: u64, request: &Request, x: &[u64]) -> i64 {
    match *request {
        Request::WriteCsr { number, value } => blocks::write_csr(page, bits, number, value),
        Request::QueueFence(Fence { kind, order, vmid, asid, page_number, page_count }) => {
            blocks::queue_hfence(page, bits, [kind, order, vmid, asid, page_number, page_count])
        }
        Request::FillContext(_) => blocks::fill_context(page, bits, x),
    }
}

/// The second program's reply.
pub fn seconds(ask: &Ask) -> Reply {
    let mut page = ask.page.clone();
    let told = match hypervisor::perform(ask.bits, &mut page, &ask.request) {
        Ok(value) => value as i64,
        Err(code) => code,
    };
    Reply { told, kept: true, page }
}
