//! The C functions, and the same functions on slices. The only unsafe code of the crate.
//!
//! A slice's pointer is never null, is aligned and good for its length, and no `&mut` slice
//! overlaps another one: all that the C functions ask of a caller. So the functions on slices
//! are safe for every content and every length. Reports are lent as the words that they are.

mod replays;

pub use replays::{replay_feed, replay_finish, replay_start};

use core::slice;

use crate::Report;

mod c {
    extern "C" {
        pub fn nacl_fresh(hart: *mut u64, hart_words: usize, xlen: u64, features: u64) -> i64;

        pub fn nacl_call(
            hart: *mut u64,
            hart_words: usize,
            base: u64,
            memory: *mut u8,
            memory_bytes: usize,
            table: *mut u64,
            table_words: usize,
            eid: u64,
            fid: u64,
            a0: u64,
            a1: u64,
            a2: u64,
            answer: *mut u64,
            answer_words: usize,
            reports: *mut u64,
            report_words: usize,
        ) -> i64;

        pub fn nacl_sync_stoppable(
            hart: *mut u64,
            hart_words: usize,
            base: u64,
            memory: *mut u8,
            memory_bytes: usize,
            table: *mut u64,
            table_words: usize,
            eid: u64,
            fid: u64,
            a0: u64,
            limit: u64,
            answer: *mut u64,
            answer_words: usize,
            reports: *mut u64,
            report_words: usize,
        ) -> i64;

        pub fn nacl_line_change(
            hart: *mut u64,
            hart_words: usize,
            base: u64,
            memory: *mut u8,
            memory_bytes: usize,
            table: *const u64,
            table_words: usize,
            lines: u64,
            answer: *mut u64,
            answer_words: usize,
        ) -> i64;

        pub fn nacl_trap(
            hart: *mut u64,
            hart_words: usize,
            base: u64,
            memory: *mut u8,
            memory_bytes: usize,
            table: *const u64,
            table_words: usize,
            cause: u64,
            tval: u64,
            htval: u64,
            htinst: u64,
            gva: u64,
            answer: *mut u64,
            answer_words: usize,
            reports: *mut u64,
            report_words: usize,
        ) -> i64;

        pub fn nacl_list(
            image: *const u8,
            image_bytes: usize,
            out: *mut u8,
            out_bytes: usize,
        ) -> usize;

        pub fn nacl_write_csr(
            page: *mut u8,
            page_bytes: usize,
            xlen: u64,
            csr: u64,
            value: u64,
        ) -> i64;

        pub fn nacl_queue_hfence(
            page: *mut u8,
            page_bytes: usize,
            xlen: u64,
            kind: u64,
            order: u64,
            vmid: u64,
            asid: u64,
            page_number: u64,
            page_count: u64,
        ) -> i64;

        pub fn nacl_fill_context(
            page: *mut u8,
            page_bytes: usize,
            xlen: u64,
            x: *const u64,
            x_words: usize,
        ) -> i64;
    }
}

/// Makes the block a fresh hart's of a width, with the features in the low four bits of the
/// number. 0, or -1 for a block that has not 68 words and for a width that is neither 32 nor 64;
/// the block is then left alone.
pub fn fresh(hart: &mut [u64], xlen: u64, features: u64) -> i64 {
    unsafe { c::nacl_fresh(hart.as_mut_ptr(), hart.len(), xlen, features) }
}

/// Any call. Gives the code, fills the answer's block, if that has five words, and writes the
/// reports to the start of their slice, word by word as far as there is room.
#[allow(clippy::too_many_arguments)]
pub fn call(
    hart: &mut [u64],
    base: u64,
    memory: &mut [u8],
    table: &mut [u64],
    eid: u64,
    fid: u64,
    args: [u64; 3],
    answer: &mut [u64],
    reports: &mut [u64],
) -> i64 {
    unsafe {
        c::nacl_call(
            hart.as_mut_ptr(),
            hart.len(),
            base,
            memory.as_mut_ptr(),
            memory.len(),
            table.as_mut_ptr(),
            table.len(),
            eid,
            fid,
            args[0],
            args[1],
            args[2],
            answer.as_mut_ptr(),
            answer.len(),
            reports.as_mut_ptr(),
            reports.len(),
        )
    }
}

/// The first `limit` steps of a register or fence call, or all if there are fewer, with their
/// reports.
#[allow(clippy::too_many_arguments)]
pub fn sync_stoppable(
    hart: &mut [u64],
    base: u64,
    memory: &mut [u8],
    table: &mut [u64],
    eid: u64,
    fid: u64,
    a0: u64,
    limit: u64,
    answer: &mut [u64],
    reports: &mut [u64],
) -> i64 {
    unsafe {
        c::nacl_sync_stoppable(
            hart.as_mut_ptr(),
            hart.len(),
            base,
            memory.as_mut_ptr(),
            memory.len(),
            table.as_mut_ptr(),
            table.len(),
            eid,
            fid,
            a0,
            limit,
            answer.as_mut_ptr(),
            answer.len(),
            reports.as_mut_ptr(),
            reports.len(),
        )
    }
}

/// The platform's lines are now `lines`. There are no reports.
pub fn line_change(
    hart: &mut [u64],
    base: u64,
    memory: &mut [u8],
    table: &[u64],
    lines: u64,
    answer: &mut [u64],
) -> i64 {
    unsafe {
        c::nacl_line_change(
            hart.as_mut_ptr(),
            hart.len(),
            base,
            memory.as_mut_ptr(),
            memory.len(),
            table.as_ptr(),
            table.len(),
            lines,
            answer.as_mut_ptr(),
            answer.len(),
        )
    }
}

/// The trap back from the guest, by its cause, tval, htval and htinst, and a number of which only
/// bit 0, GVA, counts. There is a report where the swap dropped bits.
#[allow(clippy::too_many_arguments)]
pub fn trap(
    hart: &mut [u64],
    base: u64,
    memory: &mut [u8],
    table: &[u64],
    words: [u64; 4],
    gva: u64,
    answer: &mut [u64],
    reports: &mut [u64],
) -> i64 {
    let [cause, tval, htval, htinst] = words;
    unsafe {
        c::nacl_trap(
            hart.as_mut_ptr(),
            hart.len(),
            base,
            memory.as_mut_ptr(),
            memory.len(),
            table.as_ptr(),
            table.len(),
            cause,
            tval,
            htval,
            htinst,
            gva,
            answer.as_mut_ptr(),
            answer.len(),
            reports.as_mut_ptr(),
            reports.len(),
        )
    }
}

/// The words of some reports, to be written: of each the CSR's number and the bits.
pub fn report_words(reports: &mut [Report]) -> &mut [u64] {
    let length = 2 * reports.len();
    // A report is two words and nothing else, and the words are borrowed as the reports were.
    unsafe { slice::from_raw_parts_mut(reports.as_mut_ptr().cast(), length) }
}

/// Writes the listing of a page to the start of `out`, as much as has room there, and gives
/// the length of the whole, at most [`LIST_BYTES`](crate::LIST_BYTES). The text is ASCII. The
/// image's length tells the page's width; one that no width has lists as `bad length`.
pub fn list(image: &[u8], out: &mut [u8]) -> usize {
    unsafe { c::nacl_list(image.as_ptr(), image.len(), out.as_mut_ptr(), out.len()) }
}

/// Writes a register's word in a page of a width and marks it dirty. 0, or a negative code.
pub fn write_csr(page: &mut [u8], xlen: u64, csr: u64, value: u64) -> i64 {
    unsafe { c::nacl_write_csr(page.as_mut_ptr(), page.len(), xlen, csr, value) }
}

/// Queues a fence in a page of a width, by its Type, Order, VMID, ASID, Page_Number and
/// Page_Count. The entry's number, or a negative code.
pub fn queue_hfence(page: &mut [u8], xlen: u64, fields: [u64; 6]) -> i64 {
    let [kind, order, vmid, asid, page_number, page_count] = fields;
    unsafe {
        c::nacl_queue_hfence(
            page.as_mut_ptr(),
            page.len(),
            xlen,
            kind,
            order,
            vmid,
            asid,
            page_number,
            page_count,
        )
    }
}

/// Fills the SRET context of a page of a width from 32 words, of which the first is not looked
/// at. 0, or a negative code.
pub fn fill_context(page: &mut [u8], xlen: u64, x: &[u64]) -> i64 {
    unsafe { c::nacl_fill_context(page.as_mut_ptr(), page.len(), xlen, x.as_ptr(), x.len()) }
}
