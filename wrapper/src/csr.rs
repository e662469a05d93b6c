//! The registers by their CSR numbers, in the order in which they are synchronized.

/// The number of hstatus.
pub const HSTATUS: u64 = 0x600;
/// The number of hgeip, which ignores writes.
pub const HGEIP: u64 = 0xE12;
/// The number of hgeie.
pub const HGEIE: u64 = 0x607;
/// The number of hideleg.
pub const HIDELEG: u64 = 0x603;
/// The number of hvip.
pub const HVIP: u64 = 0x645;
/// The number of hie.
pub const HIE: u64 = 0x604;
/// The number of hip.
pub const HIP: u64 = 0x644;
/// The number of vsie.
pub const VSIE: u64 = 0x204;
/// The number of vsip.
pub const VSIP: u64 = 0x244;
/// The number of hedeleg.
pub const HEDELEG: u64 = 0x602;
/// The number of htimedelta.
pub const HTIMEDELTA: u64 = 0x605;
/// The number of htimedeltah, of width 32 only.
pub const HTIMEDELTAH: u64 = 0x615;
/// The number of hcounteren.
pub const HCOUNTEREN: u64 = 0x606;
/// The number of henvcfg.
pub const HENVCFG: u64 = 0x60A;
/// The number of henvcfgh, of width 32 only; it ignores writes.
pub const HENVCFGH: u64 = 0x61A;
/// The number of htval.
pub const HTVAL: u64 = 0x643;
/// The number of htinst.
pub const HTINST: u64 = 0x64A;
/// The number of hgatp.
pub const HGATP: u64 = 0x680;
/// The number of vsstatus.
pub const VSSTATUS: u64 = 0x200;
/// The number of vstvec.
pub const VSTVEC: u64 = 0x205;
/// The number of vsscratch.
pub const VSSCRATCH: u64 = 0x240;
/// The number of vsepc.
pub const VSEPC: u64 = 0x241;
/// The number of vscause.
pub const VSCAUSE: u64 = 0x242;
/// The number of vstval.
pub const VSTVAL: u64 = 0x243;
/// The number of vsatp.
pub const VSATP: u64 = 0x280;
