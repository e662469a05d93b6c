//! Random requests of the hypervisor, and pages for them.

use super::{entry, fill_page, widened, word};
use crate::csr::{self, REGISTERS};
use crate::fence::{self, Config, Entry};
use crate::hypervisor::{Fence, Request};
use crate::rng::Rng;
use crate::xlen::Xlen;

/// A fence with good fields, which often meet those of slots.
pub fn good_fence(rng: &mut Rng, xlen: Xlen) -> Fence {
    let entry = entry(rng, xlen, true);
    Fence {
        kind: entry.kind() & 7,
        order: entry.order(),
        vmid: entry.vmid(),
        asid: entry.asid(),
        page_number: entry.page_number,
        page_count: entry.page_count,
    }
}

/// A number by the greatest that is good: that one, the next, one with more bits, or any.
fn near(rng: &mut Rng, most: u64) -> u64 {
    match rng.below(4) {
        0 => most,
        1 => most.wrapping_add(1),
        2 => most | 1 << rng.below(64),
        _ => word(rng, Xlen::X64),
    }
}

/// A fence, of which one field or two are often at the limit or above.
pub fn fence(rng: &mut Rng, xlen: Xlen) -> Fence {
    let mut fence = good_fence(rng, xlen);
    let config = Config::at(xlen);
    for _ in 0..rng.below(3) {
        let (field, most) = match rng.below(6) {
            0 => (&mut fence.kind, 7),
            1 => (&mut fence.order, config.order.most),
            2 => (&mut fence.vmid, config.vmid.most),
            3 => (&mut fence.asid, config.asid.most),
            4 => (&mut fence.page_number, xlen.ones()),
            _ => (&mut fence.page_count, xlen.ones()),
        };
        *field = near(rng, most);
    }
    fence
}

/// A register's number, or one near it, of the other width or any.
fn number(rng: &mut Rng, xlen: Xlen) -> u64 {
    let register = rng.pick(csr::turn_order(xlen)).number();
    match rng.below(12) {
        0 => word(rng, Xlen::X64),
        1 => rng.below(0x1000),
        2 => register ^ 1 << rng.below(64),
        3 => rng.pick(&REGISTERS).number(),
        _ => register,
    }
}

/// The words of a context that is accepted; the first may be any.
fn good_context(rng: &mut Rng, xlen: Xlen) -> Vec<u64> {
    let mut words: Vec<u64> = (0..32).map(|_| word(rng, xlen)).collect();
    words[0] = word(rng, Xlen::X64);
    words
}

/// The words of a context: sometimes too few or too many, sometimes one that is too wide.
fn context(rng: &mut Rng, xlen: Xlen) -> Vec<u64> {
    let mut words = good_context(rng, xlen);
    match rng.below(8) {
        0 => words.resize(rng.pick(&[0, 1, 31, 33, 64]), 7),
        1 | 2 => words[rng.below(32) as usize] = near(rng, xlen.ones()),
        _ => {}
    }
    words
}

/// A request that is accepted where there is room for a fence.
pub fn good_request(rng: &mut Rng, xlen: Xlen) -> Request {
    match rng.below(4) {
        0 => {
            let number = rng.pick(csr::turn_order(xlen)).number();
            Request::WriteCsr { number, value: word(rng, xlen) }
        }
        1 => Request::FillContext(good_context(rng, xlen)),
        _ => Request::QueueFence(good_fence(rng, xlen)),
    }
}

/// Any request, about every other one good.
pub fn request(rng: &mut Rng, xlen: Xlen) -> Request {
    match rng.below(4) {
        0 => {
            let (number, value) = (number(rng, xlen), word(rng, xlen));
            Request::WriteCsr { number, value: widened(rng, xlen, value) }
        }
        1 => Request::FillContext(context(rng, xlen)),
        _ => Request::QueueFence(fence(rng, xlen)),
    }
}

/// A page of the width: zeros, ones, noise or marks; sometimes every entry is pending, or every one
/// but one.
pub fn request_page(rng: &mut Rng, xlen: Xlen) -> Vec<u8> {
    let mut page = vec![0; xlen.page_size()];
    match rng.below(8) {
        0 => {}
        1 => page.fill(0xFF),
        2 => page.iter_mut().for_each(|byte| *byte = rng.bits() as u8),
        _ => fill_page(rng, xlen, &mut page),
    }
    if rng.one_in(4) {
        let spared = rng.below(2 * xlen.entry_count() as u64) as usize;
        for number in 0..xlen.entry_count() {
            if number == spared {
                fence::clear_pending(xlen, &mut page, number);
            } else {
                Entry::load(xlen, &page, number).pending().store(&mut page, number);
            }
        }
    }
    page
}
