//! The registers: their readings, writes and turns.

use super::page::{self, Page};
use super::record::Record;
use super::words::*;
use super::Budget;

/// The interrupt bits that hideleg can hand to the guest.
const VS_BITS: u64 = 0x444;

/// The field VGEIN of hstatus.
const VGEIN: u64 = 0x3F << 12;

/// The field MODE of hgatp and vsatp.
const MODE: u64 = 0xF << 60;

/// What hip reads.
#[inline(always)]
fn hip(record: &Record) -> u64 {
    let vgein = (record.csrs[HSTATUS] & VGEIN) >> 12;
    // Line 0 is never up, so a VGEIN of 0 selects nothing.
    let selected = (record.lines >> vgein) & 1;
    let enabled = u64::from(record.lines & record.csrs[HGEIE] != 0);
    record.csrs[HVIP] | (selected << 10) | (enabled << 12)
}

/// What the register with this turn reads.
#[inline(always)]
pub fn read(record: &Record, t: usize) -> u64 {
    let csrs = &record.csrs;
    match t {
        turn::HSTATUS => csrs[HSTATUS],
        turn::HGEIP => record.lines,
        turn::HGEIE => csrs[HGEIE],
        turn::HIDELEG => csrs[HIDELEG],
        turn::HVIP => csrs[HVIP],
        turn::HIE => csrs[HIE],
        turn::HIP => hip(record),
        turn::VSIE => (csrs[HIE] & csrs[HIDELEG] & VS_BITS) >> 1,
        turn::VSIP => (hip(record) & csrs[HIDELEG] & VS_BITS) >> 1,
        _ => csrs[t - 4],
    }
}

/// The old word with the bits of the mask from the new one.
#[inline(always)]
fn merge(old: u64, new: u64, mask: u64) -> u64 {
    old ^ ((old ^ new) & mask)
}

/// Which bits of MODE are taken: all if it is 0 or 8, else none.
#[inline(always)]
fn mode_taken(value: u64) -> u64 {
    if value & (7 << 60) == 0 {
        MODE
    } else {
        0
    }
}

/// Writes the register with this turn.
#[inline(always)]
pub fn write(record: &mut Record, t: usize, value: u64) {
    let csrs = &mut record.csrs;
    match t {
        turn::HSTATUS => {
            let vgein = if value & VGEIN <= 7 << 12 { value } else { csrs[HSTATUS] };
            csrs[HSTATUS] = (value & 0x70_03C0) | (vgein & VGEIN) | XL_64;
        }
        turn::HGEIP => {}
        turn::HGEIE => csrs[HGEIE] = value & 0xFE,
        turn::HIDELEG => csrs[HIDELEG] = value & VS_BITS,
        turn::HVIP => csrs[HVIP] = value & VS_BITS,
        turn::HIE => csrs[HIE] = value & 0x1444,
        turn::HIP => csrs[HVIP] = merge(csrs[HVIP], value, 4),
        turn::VSIE => csrs[HIE] = merge(csrs[HIE], value << 1, csrs[HIDELEG] & VS_BITS),
        turn::VSIP => csrs[HVIP] = merge(csrs[HVIP], value << 1, csrs[HIDELEG] & 4),
        _ => write_plain(csrs, t - 4, value),
    }
}

/// Writes a register that no other one depends on, by its place in the record.
#[inline(always)]
fn write_plain(csrs: &mut [u64; 19], place: usize, value: u64) {
    csrs[place] = match place {
        HEDELEG => value & 0xB1FF,
        HCOUNTEREN => value & 7,
        HENVCFG => value & 1,
        // Bits that are in no field are clear in the old word.
        HGATP => merge(csrs[HGATP], value, 0x03FF_FFFF_FFFF_FFFC | mode_taken(value)),
        VSATP => merge(csrs[VSATP], value, !MODE | mode_taken(value)),
        VSSTATUS => {
            let dirty = (value >> 13) & (value >> 14) & 1;
            (value & 0xC_6122) | XL_64 | (dirty << 63)
        }
        VSTVEC if value & 2 != 0 => merge(value, csrs[VSTVEC], 3),
        VSEPC => value & !1,
        _ => value,
    };
}

/// The turns of the registers whose words are stored after this one's.
#[inline(always)]
fn followers(t: usize) -> &'static [usize] {
    match t {
        turn::HSTATUS => &[turn::HIP, turn::VSIP],
        turn::HGEIE => &[turn::HIP],
        turn::HIDELEG => &[turn::VSIE, turn::VSIP],
        turn::HVIP => &[turn::HIP, turn::VSIP],
        turn::HIE => &[turn::VSIE],
        turn::HIP => &[turn::HVIP, turn::VSIP],
        turn::VSIE => &[turn::HIE],
        turn::VSIP => &[turn::HVIP, turn::HIP],
        _ => &[],
    }
}

/// Stores the reading of the register with this turn in its word.
#[inline(always)]
pub fn store(record: &Record, page: &mut Page, t: usize) {
    page::set_csr_word(page, t, read(record, t));
}

/// The turn of one register, whose code is made for it alone; false if the steps ran out.
#[inline(always)]
fn take<const T: usize, B: Budget>(record: &mut Record, page: &mut Page, steps: &mut B) -> bool {
    if page::is_dirty(page, T) {
        if !steps.step() {
            return false;
        }
        write(record, T, page::csr_word(page, T));
        if !steps.step() {
            return false;
        }
        page::clear_dirty(page, T);
    }
    if !steps.step() {
        return false;
    }
    store(record, page, T);
    for &follower in followers(T) {
        if !page::is_dirty(page, follower) {
            if !steps.step() {
                return false;
            }
            store(record, page, follower);
        }
    }
    true
}

/// Writes one register from its word and clears its bit, if it is dirty.
#[inline(always)]
fn serve<const T: usize>(record: &mut Record, page: &mut Page) {
    if page::is_dirty(page, T) {
        write(record, T, page::csr_word(page, T));
        page::clear_dirty(page, T);
    }
}

/// Chooses the code of one register, or goes through all of them.
macro_rules! registers {
    ($($t:literal)*) => {
        /// One register's turn; false if the steps ran out.
        #[inline(always)]
        pub fn one<B: Budget>(
            t: usize,
            record: &mut Record,
            page: &mut Page,
            steps: &mut B,
        ) -> bool {
            match t {
                $($t => take::<$t, B>(record, page, steps),)*
                _ => true,
            }
        }

        /// All turns; false if the steps ran out.
        pub fn all_steps<B: Budget>(record: &mut Record, page: &mut Page, steps: &mut B) -> bool {
            $(take::<$t, B>(record, page, steps))&&*
        }

        /// All turns, none broken: a dirty word is nobody's but its own register's until it is
        /// served, and at the end every word is its register's last reading.
        pub fn all(record: &mut Record, page: &mut Page) {
            if page::any_dirty(page) {
                $(serve::<$t>(record, page);)*
            }
            store_all(record, page);
        }

        /// Stores the reading of every register in its word.
        #[inline(always)]
        pub fn store_all(record: &Record, page: &mut Page) {
            $(store(record, page, $t);)*
        }
    };
}

registers!(0 1 2 3 4 5 6 7 8 9 10 11 12 13 14 15 16 17 18 19 20 21 22);
