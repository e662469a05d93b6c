//! What register writes say of the bits that they dropped.

use core::fmt;

use crate::{ffi, REPORT_WORDS};

/// A register write that dropped bits: not all bits of the word that was given are what the register
/// reads right after this write.
#[derive(Clone, Copy, PartialEq, Eq, Default, Debug)]
#[repr(C)]
pub struct Report {
    /// The register's number; [`csr`](crate::csr) has them by name.
    pub csr: u64,
    /// The bits that differ, which are never none: those given 1 that read 0, and those given 0 that
    /// read 1.
    pub bits: u64,
}

/// The most reports that there can be: one of each register of width 32, and the swap's.
const MOST: usize = REPORT_WORDS / 2;

/// The reports of a call, a run or a trap, in the order of the writes. A refused one has none.
///
/// The writes are those of the marked registers in a synchronization, and the swap of hstatus by SRET
/// and by a trap. A stopped run reports its own writes, so that one which the next run makes again is
/// reported, and counted in the [record](crate::Hart::dropped), twice.
///
/// ```
/// use nathiroeng::{csr, Hart, Memory, Monitor, Page, Report, SbiRet, Xlen};
///
/// let mut hart = Hart::fresh(Xlen::X64, 15);
/// let mut bytes = [0; Xlen::X64.page_bytes()];
/// let memory = Memory { base: 0x8000_0000, bytes: &mut bytes };
/// let mut monitor = Monitor { hart: &mut hart, memory, table: &mut [] };
/// assert_eq!(monitor.set_shmem(0x8000_0000, 0, 0), SbiRet::success(0));
///
/// // Mode 9 of hgatp is not supported, and its two low bits read 0.
/// let mut page = Page { xlen: Xlen::X64, bytes: monitor.memory.bytes };
/// assert_eq!(page.write_csr(csr::HGATP, 0x9000_0000_0000_0007), SbiRet::success(0));
/// let answer = monitor.sync_csr(csr::HGATP);
/// assert_eq!(answer.ret, SbiRet::success(0));
/// let report = Report { csr: csr::HGATP, bits: 0x9000_0000_0000_0003 };
/// assert_eq!(answer.reports.as_slice(), [report]);
/// assert_eq!((hart.hgatp(), hart.dropped()), (4, 1));
/// ```
#[derive(Clone, Copy, PartialEq, Eq, Default)]
pub struct Reports {
    /// The reports, and none behind them.
    all: [Report; MOST],
    count: usize,
}

impl Reports {
    /// Room for all reports, as words.
    pub(crate) fn words_mut(&mut self) -> &mut [u64] {
        ffi::report_words(&mut self.all)
    }

    /// These reports, of which there are so many.
    pub(crate) fn counted(self, count: u64) -> Reports {
        Reports { count: MOST.min(count as usize), ..self }
    }

    /// The reports.
    pub fn as_slice(&self) -> &[Report] {
        &self.all[..self.count]
    }
}

impl fmt::Debug for Reports {
    fn fmt(&self, to: &mut fmt::Formatter) -> fmt::Result {
        to.debug_list().entries(self.as_slice()).finish()
    }
}
