//! The page lister: what waits in a page, as text.

use std::fmt::Write;

use crate::csr;
use crate::fence::Entry;
use crate::page;
use crate::xlen::Xlen;

/// The listing of a page, whose length tells its width: dirty registers, pending entries, and the
/// two totals.
pub fn list(bytes: &[u8]) -> String {
    let Some(xlen) = Xlen::of_page_size(bytes.len()) else {
        return "bad length\n".to_string();
    };
    let digits = 2 * xlen.bytes();
    let mut text = String::new();
    let mut dirty = 0;
    for &csr in csr::turn_order(xlen) {
        if page::is_dirty(bytes, csr) {
            dirty += 1;
            let word = page::csr_word(xlen, bytes, csr);
            let _ = writeln!(text, "csr {:03x} {word:0digits$x}", csr.number());
        }
    }
    let mut pending = 0;
    for number in 0..xlen.entry_count() {
        let entry = Entry::load(xlen, bytes, number);
        if entry.is_pending() {
            pending += 1;
            let _ = writeln!(text, "fence {} {}", number, describe(&entry));
        }
    }
    let _ = writeln!(text, "dirty {dirty} pending {pending}");
    text
}

/// The fields of an entry as they stand, or `all` for one that is unreadable.
fn describe(entry: &Entry) -> String {
    if !entry.is_readable() {
        return "all".to_string();
    }
    format!(
        "type {} order {} vmid {} asid {} page {} count {}",
        entry.kind(),
        entry.order(),
        entry.vmid(),
        entry.asid(),
        entry.page_number,
        entry.page_count
    )
}
