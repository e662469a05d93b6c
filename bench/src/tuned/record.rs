//! The record, and what is lent with it.

use second::hart::{Hart, Mode};
use second::state;

use super::words::*;

/// A hart's record, without the count of dropped writes.
#[derive(Clone, PartialEq, Eq, Debug)]
pub struct Record {
    /// The stored registers, in the order of their constants.
    pub csrs: [u64; 19],
    pub lines: u64,
    pub page: Option<u64>,
    pub virt: bool,
    pub user: bool,
    pub pc: u64,
    pub sepc: u64,
    pub sie: bool,
    pub spie: bool,
    pub spp: bool,
    pub features: u64,
    pub x: [u64; 32],
    pub stvec: u64,
    pub scause: u64,
    pub stval: u64,
}

/// The record, L1 memory from an address on, and the translation table.
#[derive(Clone, PartialEq, Eq, Debug)]
pub struct State {
    pub record: Record,
    pub base: u64,
    pub memory: Vec<u8>,
    pub table: Vec<u64>,
}

/// For each stored register the bits that no write changes.
const FIXED: [u64; 19] = [
    !0x70_73C0,
    !0xFE,
    !0x444,
    !0x444,
    !0x1444,
    !0xB1FF,
    0,
    !7,
    !1,
    0,
    0,
    !0x83FF_FFFF_FFFF_FFFC,
    !0x8000_0000_000C_6122,
    2,
    0,
    1,
    0,
    0,
    0x7000_0000_0000_0000,
];

/// What these bits hold.
const HELD: [u64; 19] = {
    let mut held = [0; 19];
    (held[HSTATUS], held[VSSTATUS]) = (XL_64, XL_64);
    held
};

impl Record {
    /// Whether the feature with this number, at most 63, is present.
    #[inline(always)]
    pub fn has(&self, feature: u64) -> bool {
        (self.features >> feature) & 1 == 1
    }

    /// Whether every field holds something that it may hold.
    #[inline(always)]
    pub fn is_well_made(&self) -> bool {
        let mut bad = 0;
        for (csr, (fixed, held)) in self.csrs.iter().zip(FIXED.iter().zip(&HELD)) {
            bad |= (csr & fixed) ^ held;
        }
        // Bit 63 of vsstatus is set exactly if both bits of FS are.
        let vsstatus = self.csrs[VSSTATUS];
        bad |= (vsstatus >> 63) ^ ((vsstatus >> 13) & (vsstatus >> 14) & 1);
        bad |= self.lines & !0xFE;
        bad |= self.sepc & 1;
        bad |= self.stvec & 3;
        bad |= self.page.unwrap_or(0) & 0xFFF;
        bad |= self.x[0];
        bad |= self.features & !15;
        bad == 0
    }
}

impl From<&Hart> for Record {
    fn from(hart: &Hart) -> Record {
        let csrs = [
            hart.hstatus,
            hart.hgeie,
            hart.hideleg,
            hart.hvip,
            hart.hie,
            hart.hedeleg,
            hart.htimedelta,
            hart.hcounteren,
            hart.henvcfg,
            hart.htval,
            hart.htinst,
            hart.hgatp,
            hart.vsstatus,
            hart.vstvec,
            hart.vsscratch,
            hart.vsepc,
            hart.vscause,
            hart.vstval,
            hart.vsatp,
        ];
        let &Hart { lines, page, virt, pc, sepc, sie, spie, spp, features, x, .. } = hart;
        let &Hart { stvec, scause, stval, .. } = hart;
        Record {
            csrs,
            lines,
            page,
            virt,
            user: hart.mode == Mode::U,
            pc,
            sepc,
            sie,
            spie,
            spp,
            features,
            x,
            stvec,
            scause,
            stval,
        }
    }
}

impl From<&state::State> for State {
    fn from(state: &state::State) -> State {
        State {
            record: Record::from(&state.hart),
            base: state.memory.base,
            memory: state.memory.bytes.clone(),
            table: state.table.clone(),
        }
    }
}
