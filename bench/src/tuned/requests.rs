//! The hypervisor's requests; memory is the page.

use second::calls::{DENIED, FAILED, INVALID_PARAM};
use second::hypervisor::Fence;

use super::page::{self, Page, BITMAP, ENTRIES};
use super::record::State;
use super::words::{self, TURNS, TURN_AT};

impl State {
    /// Memory as a page, if it has the length of one.
    #[inline(always)]
    fn whole_page(&mut self) -> Result<&mut Page, i64> {
        self.memory.as_mut_slice().try_into().map_err(|_| FAILED)
    }
}

/// Writes a register's word and marks it dirty.
pub fn write_csr(state: &mut State, number: u64, value: u64) -> Result<u64, i64> {
    let page = state.whole_page()?;
    if number >= 0x1000 || number & 0x300 != 0x200 {
        return Err(INVALID_PARAM);
    }
    let t = usize::from(TURN_AT[words::index(number as usize)]);
    if t == TURNS {
        return Err(INVALID_PARAM);
    }
    page::set_csr_word(page, t, value);
    page::set_dirty(page, t);
    Ok(0)
}

/// The fields of Config that each type uses: Order, VMID, ASID.
const USED: [u64; 8] = {
    let (order, vmid, asid) = (0x7F << 48, 0x3FFF << 16, 0xFFFF);
    let both = vmid | asid;
    [order, 0, order | vmid, vmid, order | vmid, vmid, order | both, both]
};

/// Queues a fence in the lowest entry that is free.
pub fn queue_fence(state: &mut State, fence: Fence) -> Result<u64, i64> {
    let page = state.whole_page()?;
    if fence.kind > 7 || fence.order > 127 || fence.vmid > 0x3FFF || fence.asid > 0xFFFF {
        return Err(INVALID_PARAM);
    }
    let entries = page[ENTRIES..BITMAP].as_chunks_mut::<32>().0;
    let number = entries.iter().position(|entry| entry[7] & 0x80 == 0).ok_or(DENIED)?;
    let words = entries[number].as_chunks_mut().0;
    let has_range = 1 - fence.kind % 2;
    words[1] = (has_range * fence.page_number).to_le_bytes();
    words[3] = (has_range * fence.page_count).to_le_bytes();
    words[2] = [0; 8];
    let fields = (fence.order << 48) | (fence.vmid << 16) | fence.asid;
    let config = (1 << 63) | (fence.kind << 56) | (fields & USED[fence.kind as usize]);
    words[0] = config.to_le_bytes();
    Ok(number as u64)
}

/// Fills the SRET context.
pub fn fill_context(state: &mut State, x: &[u64]) -> Result<u64, i64> {
    let page = state.whole_page()?;
    let x: &[u64; 32] = x.try_into().map_err(|_| INVALID_PARAM)?;
    page::set_word(page, 0, 0);
    for (i, &word) in x.iter().enumerate().skip(1) {
        page::set_word(page, 8 * i, word);
    }
    Ok(0)
}
