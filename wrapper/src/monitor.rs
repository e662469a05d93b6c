//! The calls, the stoppable forms, the line change and the trap back, on what the monitor lends.

use crate::{ffi, fid, Answer, Hart, Reports, Run, SbiRet, Sret, Trap, ANSWER_WORDS, EID};

/// L1 memory: bytes, and the physical address of the first.
#[derive(Debug)]
pub struct Memory<'a> {
    /// The physical address of the first byte.
    pub base: u64,
    /// The bytes.
    pub bytes: &'a mut [u8],
}

/// What a call is lent: the hart's record, L1 memory and the translation table.
///
/// A refusal leaves all three as they were.
#[derive(Debug)]
pub struct Monitor<'a> {
    /// The record of the hart that calls.
    pub hart: &'a mut Hart,
    /// L1 memory.
    pub memory: Memory<'a>,
    /// The translation table: four 64-bit words a slot at both widths, at most 1,024 words.
    pub table: &'a mut [u64],
}

impl Monitor<'_> {
    /// Probes a feature: value 1 if it is present, else 0.
    pub fn probe_feature(&mut self, feature_id: u32) -> SbiRet {
        self.call(EID, fid::PROBE_FEATURE, [u64::from(feature_id), 0, 0]).ret
    }

    /// Sets the shared page, or drops it if both halves of the address are all ones.
    ///
    /// A page that is set is blank: all its bytes are zeroed, and then each register's reading is
    /// stored in its word, whatever the features. So fill a page after it is set, not before. Marks
    /// that stood in it are gone, unserved, also where the same address is set again. No other byte
    /// changes, not of an old page either. Dropping the page writes nothing.
    ///
    /// ```
    /// use nathiroeng::{Hart, Memory, Monitor, SbiRet, Xlen};
    ///
    /// let mut hart = Hart::fresh(Xlen::X32, 15);
    /// hart.set_htval(0x1234);
    /// let mut bytes = [0xFF; Xlen::X32.page_bytes()];
    /// let memory = Memory { base: 0x8000_0000, bytes: &mut bytes };
    /// let mut monitor = Monitor { hart: &mut hart, memory, table: &mut [] };
    /// assert_eq!(monitor.set_shmem(0x8000_0000, 0, 0), SbiRet::success(0));
    /// // Nothing is marked, and htval's word, at index 0x143, is its reading.
    /// assert!(bytes[..0x1000].iter().all(|&byte| byte == 0));
    /// assert_eq!(bytes[0x150C..0x1510], [0x34, 0x12, 0, 0]);
    /// ```
    pub fn set_shmem(&mut self, shmem_phys_lo: u64, shmem_phys_hi: u64, flags: u64) -> SbiRet {
        self.call(EID, fid::SET_SHMEM, [shmem_phys_lo, shmem_phys_hi, flags]).ret
    }

    /// Synchronizes one register, or every one for [`ALL`](crate::ALL). The answer has a
    /// [report](crate::Reports) of each write that dropped bits.
    pub fn sync_csr(&mut self, csr_num: u64) -> Answer {
        self.call(EID, fid::SYNC_CSR, [csr_num, 0, 0])
    }

    /// Synchronizes one fence entry, or every one for [`ALL`](crate::ALL).
    pub fn sync_hfence(&mut self, entry_index: u64) -> SbiRet {
        self.call(EID, fid::SYNC_HFENCE, [entry_index, 0, 0]).ret
    }

    /// Synchronizes what the features allow and emulates SRET. Where V is on then, the hart is in its
    /// guest, and every call is -2 until a [`trap`](Monitor::trap). The synchronization can't be refused:
    /// a code is that of SRET's own checks.
    pub fn sync_sret(&mut self) -> Sret {
        let answer = self.call(EID, fid::SYNC_SRET, [0; 3]);
        if answer.resumed {
            Sret::Resumed(answer.reports)
        } else {
            Sret::Refused(answer.ret)
        }
    }

    /// The first `limit` steps of [`sync_csr`](Monitor::sync_csr), or all if there are fewer.
    pub fn sync_csr_stoppable(&mut self, csr_num: u64, limit: u64) -> Run {
        self.sync_stoppable(EID, fid::SYNC_CSR, csr_num, limit)
    }

    /// The first `limit` steps of [`sync_hfence`](Monitor::sync_hfence), or all if there are
    /// fewer.
    pub fn sync_hfence_stoppable(&mut self, entry_index: u64, limit: u64) -> Run {
        self.sync_stoppable(EID, fid::SYNC_HFENCE, entry_index, limit)
    }

    /// The platform's guest external interrupt lines are now `lines`. The table is only looked
    /// at. Code 0, -1 or -3.
    pub fn line_change(&mut self, lines: u64) -> SbiRet {
        let mut answer = [0; ANSWER_WORDS];
        let error = ffi::line_change(
            self.hart.words_mut(),
            self.memory.base,
            self.memory.bytes,
            self.table,
            lines,
            &mut answer,
        );
        SbiRet { error, value: answer[0] }
    }

    /// The trap back from the guest: L1 goes on in its handler, at the record's
    /// [`stvec`](Hart::stvec). Code 0; or -1, where the record or the table is not well made, then -2,
    /// where V is off. The table is only looked at.
    ///
    /// V goes off; in hstatus GVA takes the trap's, SPV becomes 1 and SPVP takes the old mode; SPP
    /// takes the old mode too, SPIE takes SIE, and SIE becomes 0; sepc takes pc with bit 0 cleared, the
    /// mode becomes S, and pc takes stvec; htval, htinst, scause and stval take what the trap tells.
    /// Then, with feature 3 and the page's flag, hstatus is swapped as in SRET, so that the swap word
    /// gets the new bits; a swap that drops bits is reported. Then the clean words of hstatus, htval,
    /// htinst, hip and vsip are stored: those whose dirty bit is clear or, without feature 0, all five.
    /// Where no page is set, or it does not lie in memory, there is no swap and no store.
    ///
    /// ```
    /// use nathiroeng::{csr, Hart, Memory, Mode, Monitor, Page, SbiRet, Trap, Xlen};
    ///
    /// let mut hart = Hart::fresh(Xlen::X64, 15);
    /// hart.set_stvec(0x8020_0000);
    /// let mut bytes = [0; Xlen::X64.page_bytes()];
    /// let memory = Memory { base: 0x8000_0000, bytes: &mut bytes };
    /// let mut monitor = Monitor { hart: &mut hart, memory, table: &mut [] };
    /// assert_eq!(monitor.set_shmem(0x8000_0000, 0, 0), SbiRet::success(0));
    ///
    /// // The hypervisor sets SPV of hstatus, so that SRET goes to the guest, which answers no call.
    /// let mut page = Page { xlen: Xlen::X64, bytes: monitor.memory.bytes };
    /// assert_eq!(page.write_csr(csr::HSTATUS, 1 << 7), SbiRet::success(0));
    /// assert!(monitor.sync_sret().is_resumed());
    /// assert_eq!(monitor.probe_feature(0), SbiRet::not_supported());
    ///
    /// // A guest-page fault brings it back.
    /// let fault = Trap { cause: 21, tval: 0x5008, htval: 0x1402, htinst: 0, gva: true };
    /// assert_eq!(monitor.trap(fault).ret, SbiRet::success(0));
    /// assert_eq!(monitor.probe_feature(0), SbiRet::success(1));
    /// assert_eq!((hart.mode(), hart.pc(), hart.scause()), (Mode::S, 0x8020_0000, 21));
    /// ```
    pub fn trap(&mut self, trap: Trap) -> Answer {
        let (mut answer, mut reports) = ([0; ANSWER_WORDS], Reports::default());
        let error = ffi::trap(
            self.hart.words_mut(),
            self.memory.base,
            self.memory.bytes,
            self.table,
            trap.words(),
            u64::from(trap.gva),
            &mut answer,
            reports.words_mut(),
        );
        let ret = SbiRet { error, value: answer[0] };
        Answer { ret, resumed: answer[1] == 1, reports: reports.counted(answer[4]) }
    }

    /// Any call, by the numbers and arguments that the hart's registers hold: at width 32 the
    /// low 32 bits of each.
    pub fn call(&mut self, eid: u64, fid: u64, args: [u64; 3]) -> Answer {
        let (mut answer, mut reports) = ([0; ANSWER_WORDS], Reports::default());
        let error = ffi::call(
            self.hart.words_mut(),
            self.memory.base,
            self.memory.bytes,
            self.table,
            eid,
            fid,
            args,
            &mut answer,
            reports.words_mut(),
        );
        let ret = SbiRet { error, value: answer[0] };
        Answer { ret, resumed: answer[1] == 1, reports: reports.counted(answer[4]) }
    }

    /// Any stoppable call, by its numbers; only register and fence calls have this form.
    pub fn sync_stoppable(&mut self, eid: u64, fid: u64, a0: u64, limit: u64) -> Run {
        let (mut answer, mut reports) = ([0; ANSWER_WORDS], Reports::default());
        let error = ffi::sync_stoppable(
            self.hart.words_mut(),
            self.memory.base,
            self.memory.bytes,
            self.table,
            eid,
            fid,
            a0,
            limit,
            &mut answer,
            reports.words_mut(),
        );
        let ret = SbiRet { error, value: answer[0] };
        let reports = reports.counted(answer[4]);
        Run { ret, steps: answer[2], finished: answer[3] == 1, reports }
    }
}
