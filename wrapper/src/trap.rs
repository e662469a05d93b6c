//! A trap back from the guest as the hart tells it.

/// What a trap tells. A hart of width 32 takes the low 32 bits of each word.
#[derive(Clone, Copy, PartialEq, Eq, Debug)]
pub struct Trap {
    /// What scause takes: the number of an exception, or of an interrupt with the uppermost bit.
    pub cause: u64,
    /// What stval takes: the address that faulted, an instruction, or 0.
    pub tval: u64,
    /// What htval takes, as it is: for a guest-page fault the guest physical address shifted right
    /// by 2.
    pub htval: u64,
    /// What htinst takes: the instruction that trapped, or 0.
    pub htinst: u64,
    /// What GVA of hstatus takes: whether `tval` is a guest virtual address.
    pub gva: bool,
}

impl Trap {
    /// The words in the order of the C function: cause, tval, htval, htinst.
    pub(crate) const fn words(&self) -> [u64; 4] {
        [self.cause, self.tval, self.htval, self.htinst]
    }
}
