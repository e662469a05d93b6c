//! The rows of the papers: sample tickets, cases that are run only, the extension's tables, set, the
//! hypervisor's half, the trap back and dropped bits, and what the widths do not share.

use super::Result;
use super::{
    back, back_page, dropped, dropped_swaps, extension, hypervisor, sets, tickets, widths,
};
use crate::case::{Case, Difference};

/// A row: what it is called, and how it is run.
pub struct Row {
    name: &'static str,
    run: fn(&mut Case) -> Result,
}

/// A row with this name.
const fn row(name: &'static str, run: fn(&mut Case) -> Result) -> Row {
    Row { name, run }
}

/// All rows.
pub const ROWS: [Row; 74] = [
    row("T1 hip's place", tickets::place_of_hip),
    row("T2 hgeip's place", tickets::place_of_hgeip),
    row("T3 sync 0x344", |case| tickets::bad_number(case, 0x344)),
    row("T4 sync 0x1644", |case| tickets::bad_number(case, 0x1644)),
    row("T5 sync 0x6A8", |case| tickets::bad_number(case, 0x6A8)),
    row("T6 hvip and vsip", tickets::hvip_and_vsip),
    row("T7 hip from lines", tickets::hip_from_lines),
    row("T8 hgatp's mode", tickets::mode_of_hgatp),
    row("T9 hvip follows hip", tickets::hvip_follows_hip),
    row("T10 order 9", tickets::order_9),
    row("T11 no wrap", tickets::no_wrap),
    row("T12 Config after", tickets::config_after),
    row("run only: the last index in, the next is -3", tickets::last_index),
    row("run only: Page_Count 0", tickets::count_0),
    row("run only: lo all-ones with hi 0 is -3", |case| tickets::bad_set(case, [u64::MAX, 0, 0])),
    row("run only: drop with flags 1 is -3", |case| {
        tickets::bad_set(case, [u64::MAX, u64::MAX, 1])
    }),
    row("run only: no slots", tickets::no_slots),
    row("run only: memory one byte short", tickets::one_byte_short),
    row("the order of the checks", tickets::order_of_checks),
    row("the greatest totals of steps", tickets::totals),
    row("the lister's sample", tickets::listing),
    row("table 1: features", extension::features),
    row("table 5: types of fences", extension::types),
    row("table 6: SRET context", extension::context),
    row("table 7: autoswap", extension::autoswap),
    row("table 8: errors of set", extension::set_errors),
    row("tables 9 to 11: errors of the synchronizations", extension::sync_errors),
    row("table 12: functions", extension::functions),
    row("the example of hvip and hip", extension::hvip_before_hip),
    row("set: a blank page with the readings", sets::blank),
    row("set: the same address again", sets::again),
    row("set: a page over the old one", sets::overlapping),
    row("set: a drop, and memory one byte short", sets::unwritten),
    row("write a register: places", hypervisor::places),
    row("write a register: numbers and values", hypervisor::numbers),
    row("queue a fence: table 5, bit for bit", hypervisor::configs),
    row("queue a fence: limits", hypervisor::limits),
    row("queue a fence: ranges that do not fit", hypervisor::wide_ranges),
    row("queue a fence: free entries", hypervisor::free_entries),
    row("fill the context: table 6", hypervisor::context),
    row("requests: pages and widths", hypervisor::pages),
    row("requests: what is asked for is carried out", hypervisor::carried_out),
    row("trap: the fields of the record, from S and from U", back::fields),
    row("trap: sepc, pc and stvec", back::addresses),
    row("trap: the words that are told, and GVA", back::words_told),
    row("trap: the five words", back_page::five_words),
    row("trap: dirty words in the way", back_page::dirty_words),
    row("trap: a dirty word is carried out afterwards", back_page::carried_out),
    row("trap: the swap, after the bits", back_page::swap),
    row("trap: the swap is a write", back_page::swap_by_the_rule),
    row("trap: no page in memory", back_page::no_page),
    row("trap: check 1, then V", back::codes),
    row("trap: stvec's two low bits", back::handler),
    row("trap: into the guest and back", back::there_and_back),
    row("trap: the swap there and back", back_page::swapped_there_and_back),
    row("trap: the record's block", back::blocks),
    row("dropped bits: T8", dropped::mode_of_hgatp),
    row("dropped bits: either way", dropped::either_way),
    row("dropped bits: hip, vsip, vsie and hgeip", dropped::derived),
    row("dropped bits: what writes no register", dropped::no_writes),
    row("dropped bits: the count stays at 2^32-1", dropped::last_count),
    row("dropped bits: the count's word", dropped::count_word),
    row("dropped bits: stops", dropped::stops),
    row("dropped bits: the most reports, and their room", dropped::most),
    row("dropped bits: the room of a register call", dropped::rooms),
    row("dropped bits: SRET's swap, before SPV is cleared", dropped_swaps::by_sret),
    row("dropped bits: the trap's swap", dropped_swaps::by_trap),
    row("dropped bits: any count and any room of a swap", dropped_swaps::counts_and_rooms),
    row("the upper halves", widths::upper_halves),
    row("bits of vsstatus", widths::vsstatus),
    row("entries that cannot be read", widths::unreadable),
    row("the greatest VMID and ASID", widths::greatest_ids),
    row("bits of the record that only the other width has", widths::foreign_bits),
    row("memory at the end of the addresses", widths::end_of_addresses),
];

/// Runs the row with the case's number.
pub fn run(case: &mut Case) -> Result {
    let Some(row) = ROWS.get(case.index as usize) else {
        return Err(Difference { text: "there is no such row\n".to_string() });
    };
    if case.is_shown {
        println!("{}", row.name);
    }
    (row.run)(case).map_err(|found| Difference { text: format!("{}\n{}", row.name, found.text) })
}
