//! What a call gives back.

use crate::Reports;

/// A code and a value, as in the SBI specification and in RustSBI.
#[derive(Clone, Copy, PartialEq, Eq, Debug)]
#[must_use]
pub struct SbiRet {
    /// The code: 0, or one of the negative numbers below.
    pub error: i64,
    /// Probe's value, or the entry of a queued fence; else 0.
    pub value: u64,
}

impl SbiRet {
    /// Success, with this value.
    pub const fn success(value: u64) -> SbiRet {
        SbiRet { error: 0, value }
    }

    /// -1: the record or the table is not well made, or a page to be filled has not the width's
    /// length.
    pub const fn failed() -> SbiRet {
        SbiRet { error: -1, value: 0 }
    }

    /// -2: V is on or the mode is U, there is no such call, or its feature is absent; for a trap, V
    /// is off.
    pub const fn not_supported() -> SbiRet {
        SbiRet { error: -2, value: 0 }
    }

    /// -3: a bad parameter.
    pub const fn invalid_param() -> SbiRet {
        SbiRet { error: -3, value: 0 }
    }

    /// -4: every fence entry of the page is pending; synchronize fences, then ask again.
    pub const fn denied() -> SbiRet {
        SbiRet { error: -4, value: 0 }
    }

    /// -5: the page to set does not lie in memory.
    pub const fn invalid_address() -> SbiRet {
        SbiRet { error: -5, value: 0 }
    }

    /// -9: no page is set, or it does not lie in memory.
    pub const fn no_shmem() -> SbiRet {
        SbiRet { error: -9, value: 0 }
    }

    /// Whether the code is 0.
    pub const fn is_ok(&self) -> bool {
        self.error == 0
    }
}

/// The answer of any call, and of a trap: `resumed` says that the hart goes on at its new pc instead
/// of getting the code.
#[derive(Clone, Copy, PartialEq, Eq, Debug)]
#[must_use]
pub struct Answer {
    /// Code and value.
    pub ret: SbiRet,
    /// True exactly for a successful SRET call.
    pub resumed: bool,
    /// The register writes that dropped bits.
    pub reports: Reports,
}

/// The answer of the SRET call, which returns nothing to its caller when it succeeds.
#[derive(Clone, Copy, PartialEq, Eq, Debug)]
#[must_use]
#[allow(clippy::large_enum_variant)] // nothing is allocated here
pub enum Sret {
    /// The hart goes on at its new pc, in its new mode; the register writes that dropped bits.
    Resumed(Reports),
    /// The call was refused.
    Refused(SbiRet),
}

impl Sret {
    /// Whether the hart goes on at its new pc.
    pub const fn is_resumed(&self) -> bool {
        matches!(self, Sret::Resumed(_))
    }
}

/// The answer of a stoppable run. One that has not finished has code 0.
#[derive(Clone, Copy, PartialEq, Eq, Debug)]
#[must_use]
pub struct Run {
    /// Code and value.
    pub ret: SbiRet,
    /// The steps made; 0 for a refusal.
    pub steps: u64,
    /// Whether these were all steps of the call; false for a refusal.
    pub finished: bool,
    /// The register writes of this run that dropped bits.
    pub reports: Reports,
}
