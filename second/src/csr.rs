//! The registers of both widths: their numbers, turn order, followers, readings and writes.

use crate::hart::Hart;
use crate::xlen::Xlen;

/// A register of the hypervisor extension that this monitor implements at some width.
#[derive(Clone, Copy, PartialEq, Eq, Debug)]
pub enum Csr {
    Hstatus,
    Hgeip,
    Hgeie,
    Hideleg,
    Hvip,
    Hie,
    Hip,
    Vsie,
    Vsip,
    Hedeleg,
    Htimedelta,
    Htimedeltah,
    Hcounteren,
    Henvcfg,
    Henvcfgh,
    Htval,
    Htinst,
    Hgatp,
    Vsstatus,
    Vstvec,
    Vsscratch,
    Vsepc,
    Vscause,
    Vstval,
    Vsatp,
}

/// Every register of either width in turn order, sources before dependents.
pub const REGISTERS: [Csr; 25] = [
    Csr::Hstatus,
    Csr::Hgeip,
    Csr::Hgeie,
    Csr::Hideleg,
    Csr::Hvip,
    Csr::Hie,
    Csr::Hip,
    Csr::Vsie,
    Csr::Vsip,
    Csr::Hedeleg,
    Csr::Htimedelta,
    Csr::Htimedeltah,
    Csr::Hcounteren,
    Csr::Henvcfg,
    Csr::Henvcfgh,
    Csr::Htval,
    Csr::Htinst,
    Csr::Hgatp,
    Csr::Vsstatus,
    Csr::Vstvec,
    Csr::Vsscratch,
    Csr::Vsepc,
    Csr::Vscause,
    Csr::Vstval,
    Csr::Vsatp,
];

/// The registers of width 64 in turn order: all but the upper halves.
const REGISTERS_64: [Csr; 23] = {
    let mut found = [Csr::Hstatus; 23];
    let (mut from, mut to) = (0, 0);
    while from < REGISTERS.len() {
        if REGISTERS[from].is_at(Xlen::X64) {
            found[to] = REGISTERS[from];
            to += 1;
        }
        from += 1;
    }
    found
};

/// The registers of a width in turn order.
pub fn turn_order(xlen: Xlen) -> &'static [Csr] {
    match xlen {
        Xlen::X32 => &REGISTERS,
        Xlen::X64 => &REGISTERS_64,
    }
}

/// The bit GVA of hstatus: whether a trap told a guest virtual address.
pub const GVA: u64 = 1 << 6;

/// The bit SPV of hstatus: V before the trap.
pub const SPV: u64 = 1 << 7;

/// The bit SPVP of hstatus: the guest's mode before the trap.
pub const SPVP: u64 = 1 << 8;

/// The field VGEIN of hstatus, which selects a line.
pub const VGEIN: u64 = 0x3F << 12;

/// The interrupt bits that hideleg can hand to the guest: 2, 6 and 10.
const VS_BITS: u64 = 0x444;

impl Csr {
    /// The register's number.
    pub fn number(self) -> u64 {
        match self {
            Csr::Hstatus => 0x600,
            Csr::Hgeip => 0xE12,
            Csr::Hgeie => 0x607,
            Csr::Hideleg => 0x603,
            Csr::Hvip => 0x645,
            Csr::Hie => 0x604,
            Csr::Hip => 0x644,
            Csr::Vsie => 0x204,
            Csr::Vsip => 0x244,
            Csr::Hedeleg => 0x602,
            Csr::Htimedelta => 0x605,
            Csr::Htimedeltah => 0x615,
            Csr::Hcounteren => 0x606,
            Csr::Henvcfg => 0x60A,
            Csr::Henvcfgh => 0x61A,
            Csr::Htval => 0x643,
            Csr::Htinst => 0x64A,
            Csr::Hgatp => 0x680,
            Csr::Vsstatus => 0x200,
            Csr::Vstvec => 0x205,
            Csr::Vsscratch => 0x240,
            Csr::Vsepc => 0x241,
            Csr::Vscause => 0x242,
            Csr::Vstval => 0x243,
            Csr::Vsatp => 0x280,
        }
    }

    /// The register with this number, if the width has one.
    pub fn from_number(xlen: Xlen, number: u64) -> Option<Csr> {
        turn_order(xlen).iter().copied().find(|csr| csr.number() == number)
    }

    /// Whether the width has the register: upper halves are there at width 32 only.
    pub const fn is_at(self, xlen: Xlen) -> bool {
        matches!(xlen, Xlen::X32) || !matches!(self, Csr::Htimedeltah | Csr::Henvcfgh)
    }

    /// Whether the record has a field for the register; the others are computed or always 0.
    pub fn is_stored(self) -> bool {
        !matches!(self, Csr::Hgeip | Csr::Hip | Csr::Vsie | Csr::Vsip | Csr::Henvcfgh)
    }

    /// The registers whose words are stored again after this one's turn, in their order.
    pub fn followers(self) -> &'static [Csr] {
        match self {
            Csr::Hstatus => &[Csr::Hip, Csr::Vsip],
            Csr::Hgeie => &[Csr::Hip],
            Csr::Hideleg => &[Csr::Vsie, Csr::Vsip],
            Csr::Hvip => &[Csr::Hip, Csr::Vsip],
            Csr::Hie => &[Csr::Vsie],
            Csr::Hip => &[Csr::Hvip, Csr::Vsip],
            Csr::Vsie => &[Csr::Hie],
            Csr::Vsip => &[Csr::Hvip, Csr::Hip],
            _ => &[],
        }
    }
}

/// What the register reads.
pub fn read(hart: &Hart, csr: Csr) -> u64 {
    match csr {
        Csr::Hgeip => hart.lines,
        Csr::Hip => read_hip(hart),
        Csr::Vsie => (hart.hie & hart.hideleg & VS_BITS) >> 1,
        Csr::Vsip => (read_hip(hart) & hart.hideleg & VS_BITS) >> 1,
        Csr::Hstatus => hart.hstatus,
        Csr::Hgeie => hart.hgeie,
        Csr::Hideleg => hart.hideleg,
        Csr::Hvip => hart.hvip,
        Csr::Hie => hart.hie,
        Csr::Hedeleg => hart.hedeleg,
        Csr::Htimedelta => hart.htimedelta,
        Csr::Htimedeltah => hart.htimedeltah,
        Csr::Hcounteren => hart.hcounteren,
        Csr::Henvcfg => hart.henvcfg,
        Csr::Henvcfgh => 0,
        Csr::Htval => hart.htval,
        Csr::Htinst => hart.htinst,
        Csr::Hgatp => hart.hgatp,
        Csr::Vsstatus => hart.vsstatus,
        Csr::Vstvec => hart.vstvec,
        Csr::Vsscratch => hart.vsscratch,
        Csr::Vsepc => hart.vsepc,
        Csr::Vscause => hart.vscause,
        Csr::Vstval => hart.vstval,
        Csr::Vsatp => hart.vsatp,
    }
}

/// What hip reads: hvip, the selected line at bit 10, any enabled line at bit 12.
fn read_hip(hart: &Hart) -> u64 {
    let vgein = (hart.hstatus & VGEIN) >> 12;
    let mut hip = hart.hvip;
    if vgein != 0 && (hart.lines >> vgein) & 1 == 1 {
        hip |= 1 << 10;
    }
    if hart.lines & hart.hgeie != 0 {
        hip |= 1 << 12;
    }
    hip
}

/// Writes a value to the register; the record keeps what the register does not take, and all of
/// it where its width does not have the register.
pub fn write(hart: &mut Hart, csr: Csr, value: u64) {
    let xlen = hart.xlen;
    match csr {
        Csr::Hgeip | Csr::Henvcfgh => {}
        Csr::Hip => hart.hvip = merge(hart.hvip, value, 1 << 2),
        Csr::Vsie => hart.hie = merge(hart.hie, value << 1, hart.hideleg & VS_BITS),
        Csr::Vsip => hart.hvip = merge(hart.hvip, value << 1, hart.hideleg & (1 << 2)),
        _ => {
            if let Some(field) = hart.stored_mut(csr) {
                *field = legalize(xlen, csr, *field, value);
            }
        }
    }
}

/// What a stored register holds after a write, from what it held before. A word takes the low
/// bits of the value; a register that the width does not have takes nothing.
pub fn legalize(xlen: Xlen, csr: Csr, old: u64, value: u64) -> u64 {
    let value = xlen.cut(value);
    if !csr.is_at(xlen) {
        return old;
    }
    match csr {
        Csr::Hstatus => {
            let vgein = if (value & VGEIN) >> 12 <= 7 { value } else { old };
            (value & 0x70_03C0) | (vgein & VGEIN) | xl_field(xlen)
        }
        Csr::Hgeie => value & Hart::LINE_BITS,
        Csr::Hideleg | Csr::Hvip => value & VS_BITS,
        Csr::Hie => value & 0x1444,
        Csr::Hedeleg => value & 0xB1FF,
        Csr::Hcounteren => value & 7,
        Csr::Henvcfg => value & 1,
        Csr::Hgatp => atp_mode(xlen, old, value) | (value & hgatp_vmid_and_ppn(xlen)),
        Csr::Vsstatus => {
            let sd = if (value >> 13) & 3 == 3 { 1 << (xlen.bits() - 1) } else { 0 };
            (value & 0xC_6122) | xl_field(xlen) | sd
        }
        Csr::Vstvec => (value & !3) | if value & 3 <= 1 { value & 3 } else { old & 3 },
        Csr::Vsepc => value & !1,
        Csr::Vsatp => atp_mode(xlen, old, value) | (value & !atp_mode_field(xlen)),
        Csr::Htimedelta | Csr::Htimedeltah | Csr::Htval | Csr::Htinst => value,
        Csr::Vsscratch | Csr::Vscause | Csr::Vstval => value,
        Csr::Hgeip | Csr::Hip | Csr::Vsie | Csr::Vsip | Csr::Henvcfgh => old,
    }
}

/// Writes by number; the record is unchanged where the number is not implemented.
pub fn write_number(hart: &mut Hart, number: u64, value: u64) {
    if let Some(csr) = Csr::from_number(hart.xlen, number) {
        write(hart, csr, value);
    }
}

/// The old word with the bits of the mask taken from the new one.
fn merge(old: u64, new: u64, mask: u64) -> u64 {
    (old & !mask) | (new & mask)
}

/// VSXL of hstatus and UXL of vsstatus, which always read 2 (64 bits); width 32 has neither.
pub fn xl_field(xlen: Xlen) -> u64 {
    match xlen {
        Xlen::X32 => 0,
        Xlen::X64 => 2 << 32,
    }
}

/// The field MODE of hgatp and vsatp.
fn atp_mode_field(xlen: Xlen) -> u64 {
    match xlen {
        Xlen::X32 => 1 << 31,
        Xlen::X64 => 0xF << 60,
    }
}

/// MODE after a write: at width 64 taken if 0 or 8, else kept; at width 32 taken.
fn atp_mode(xlen: Xlen, old: u64, value: u64) -> u64 {
    let taken = xlen == Xlen::X32 || matches!(value >> 60, 0 | 8);
    atp_mode_field(xlen) & if taken { value } else { old }
}

/// The fields VMID and PPN of hgatp.
fn hgatp_vmid_and_ppn(xlen: Xlen) -> u64 {
    match xlen {
        Xlen::X32 => 0x1FFF_FFFC,
        Xlen::X64 => 0x03FF_FFFF_FFFF_FFFC,
    }
}
