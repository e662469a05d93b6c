//! The hypervisor's half of the shared page.

use crate::{ffi, Hfence, SbiRet, Xlen};

/// A shared page as its hypervisor fills it. It knows no hart, no address and no feature; what is
/// filled in is served only where the hart has the feature, so probe first: 0 for registers, 1 for
/// fences, 2 for the context.
///
/// A refusal changes no byte, and an accepted request no bit but those that it names. Every
/// request is -1 where the bytes are not as many as the width's page has
/// ([`Xlen::page_bytes`]). Nothing is cut: at width 32 a word to be stored that does not fit in 32
/// bits is -3, so extend numbers by zeros and not by their sign, though
/// [`Monitor::call`](crate::Monitor::call) takes the low 32 bits of either.
///
/// The stores are plain ones: put a barrier of your own before another hart may look at the page,
/// and where the monitor may make a line change in an interrupt meanwhile, write hgeip, hip or vsip
/// with interrupts held off, or write again.
///
/// ```
/// use nathiroeng::{csr, Hart, Hfence, HfenceType, Memory, Monitor, Page, SbiRet, Xlen};
///
/// let mut hart = Hart::fresh(Xlen::X64, 15);
/// let mut bytes = [0; Xlen::X64.page_bytes()];
/// // One slot in use, for VMID 5; the third word is the guest's physical page.
/// let mut table = [1 << 63 | 5 << 16, 0, 16, 0];
/// let memory = Memory { base: 0x8000_0000, bytes: &mut bytes };
/// let mut monitor = Monitor { hart: &mut hart, memory, table: &mut table };
/// assert_eq!(monitor.set_shmem(0x8000_0000, 0, 0), SbiRet::success(0));
///
/// // The hypervisor: hvip, the fence of one page, and the registers of its guest.
/// let mut page = Page { xlen: Xlen::X64, bytes: monitor.memory.bytes };
/// assert_eq!(page.write_csr(csr::HVIP, 4), SbiRet::success(0));
/// let start = Hfence::new(HfenceType::GvmaVmid);
/// let fence = Hfence { vmid: 5, page_number: 16, page_count: 1, ..start };
/// assert_eq!(page.queue_hfence(fence), SbiRet::success(0));
/// assert_eq!(page.fill_context(&[7; 32]), SbiRet::success(0));
///
/// // The monitor carries out all of it.
/// assert!(monitor.sync_sret().is_resumed());
/// assert_eq!((hart.hvip(), hart.x()[0], hart.x()[31]), (4, 0, 7));
/// assert_eq!(table, [0; 4]);
/// ```
#[derive(Debug)]
pub struct Page<'a> {
    /// The width of the hart whose page it is.
    pub xlen: Xlen,
    /// The bytes of the page.
    pub bytes: &'a mut [u8],
}

/// The answer of a request: a value of 0 or more, or a negative code.
fn answer(told: i64) -> SbiRet {
    match u64::try_from(told) {
        Ok(value) => SbiRet::success(value),
        Err(_) => SbiRet { error: told, value: 0 },
    }
}

impl Page<'_> {
    /// Writes a register: stores the value in its word, then sets its dirty bit.
    ///
    /// -3 for a number that the width does not implement, [`ALL`](crate::ALL) among them; the
    /// module [`csr`](crate::csr) has those that there are.
    pub fn write_csr(&mut self, csr_num: u64, value: u64) -> SbiRet {
        answer(ffi::write_csr(self.bytes, self.xlen.bits(), csr_num, value))
    }

    /// Queues a fence in the lowest entry that is not pending; the value is the entry's number,
    /// which [`sync_hfence`](crate::Monitor::sync_hfence) takes. The entry becomes pending with the
    /// last store.
    ///
    /// -3 for a field above its limit, then -4 where every entry is pending: call
    /// [`sync_hfence`](crate::Monitor::sync_hfence), which frees entries, then ask again.
    pub fn queue_hfence(&mut self, hfence: Hfence) -> SbiRet {
        answer(ffi::queue_hfence(self.bytes, self.xlen.bits(), hfence.fields()))
    }

    /// Fills the SRET context: zero, and then X1 to X31. The first of the words is not looked at.
    pub fn fill_context(&mut self, x: &[u64; 32]) -> SbiRet {
        answer(ffi::fill_context(self.bytes, self.xlen.bits(), x))
    }
}
