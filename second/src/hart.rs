//! The hart record: its fields, the fresh record, and which records are well made.

use crate::csr::{self, Csr};
use crate::xlen::Xlen;

/// The mode that the hart runs in.
#[derive(Clone, Copy, PartialEq, Eq, Debug)]
pub enum Mode {
    S,
    U,
}

/// Everything that the monitor keeps of one hart.
#[derive(Clone, PartialEq, Eq, Debug)]
pub struct Hart {
    pub xlen: Xlen,
    pub hstatus: u64,
    pub hgeie: u64,
    pub hideleg: u64,
    pub hvip: u64,
    pub hie: u64,
    pub hedeleg: u64,
    pub htimedelta: u64,
    pub htimedeltah: u64,
    pub hcounteren: u64,
    pub henvcfg: u64,
    pub htval: u64,
    pub htinst: u64,
    pub hgatp: u64,
    pub vsstatus: u64,
    pub vstvec: u64,
    pub vsscratch: u64,
    pub vsepc: u64,
    pub vscause: u64,
    pub vstval: u64,
    pub vsatp: u64,
    pub lines: u64,
    pub page: Option<u64>,
    pub virt: bool,
    pub mode: Mode,
    pub pc: u64,
    pub sepc: u64,
    pub sie: bool,
    pub spie: bool,
    pub spp: bool,
    pub features: u64,
    pub x: [u64; 32],
    pub stvec: u64,
    pub scause: u64,
    pub stval: u64,
    /// How many register writes of synchronizations and swaps had dropped bits; stays at 2^32-1.
    pub dropped: u32,
}

impl Hart {
    /// The bits that stand for guest interrupt lines, 7 to 1.
    pub const LINE_BITS: u64 = 0xFE;

    /// A hart of width 64 that has just started.
    pub fn fresh(features: u64) -> Hart {
        Hart::fresh_at(Xlen::X64, features)
    }

    /// A hart that has just started, with the low four bits of the number as its features.
    pub fn fresh_at(xlen: Xlen, features: u64) -> Hart {
        Hart {
            xlen,
            hstatus: csr::xl_field(xlen),
            hgeie: 0,
            hideleg: 0,
            hvip: 0,
            hie: 0,
            hedeleg: 0,
            htimedelta: 0,
            htimedeltah: 0,
            hcounteren: 0,
            henvcfg: 0,
            htval: 0,
            htinst: 0,
            hgatp: 0,
            vsstatus: csr::xl_field(xlen),
            vstvec: 0,
            vsscratch: 0,
            vsepc: 0,
            vscause: 0,
            vstval: 0,
            vsatp: 0,
            lines: 0,
            page: None,
            virt: false,
            mode: Mode::S,
            pc: 0,
            sepc: 0,
            sie: false,
            spie: false,
            spp: false,
            features: features & 0xF,
            x: [0; 32],
            stvec: 0,
            scause: 0,
            stval: 0,
            dropped: 0,
        }
    }

    /// The field that stores the register, or none for a register that has no field.
    pub fn stored_mut(&mut self, csr: Csr) -> Option<&mut u64> {
        match csr {
            Csr::Hstatus => Some(&mut self.hstatus),
            Csr::Hgeie => Some(&mut self.hgeie),
            Csr::Hideleg => Some(&mut self.hideleg),
            Csr::Hvip => Some(&mut self.hvip),
            Csr::Hie => Some(&mut self.hie),
            Csr::Hedeleg => Some(&mut self.hedeleg),
            Csr::Htimedelta => Some(&mut self.htimedelta),
            Csr::Htimedeltah => Some(&mut self.htimedeltah),
            Csr::Hcounteren => Some(&mut self.hcounteren),
            Csr::Henvcfg => Some(&mut self.henvcfg),
            Csr::Htval => Some(&mut self.htval),
            Csr::Htinst => Some(&mut self.htinst),
            Csr::Hgatp => Some(&mut self.hgatp),
            Csr::Vsstatus => Some(&mut self.vsstatus),
            Csr::Vstvec => Some(&mut self.vstvec),
            Csr::Vsscratch => Some(&mut self.vsscratch),
            Csr::Vsepc => Some(&mut self.vsepc),
            Csr::Vscause => Some(&mut self.vscause),
            Csr::Vstval => Some(&mut self.vstval),
            Csr::Vsatp => Some(&mut self.vsatp),
            Csr::Hgeip | Csr::Hip | Csr::Vsie | Csr::Vsip | Csr::Henvcfgh => None,
        }
    }

    /// Whether the feature with this number is present.
    pub fn has_feature(&self, feature: u64) -> bool {
        feature < 4 && (self.features >> feature) & 1 == 1
    }

    /// Whether every field holds something that it may hold; the count of dropped writes holds any.
    pub fn is_well_made(&self) -> bool {
        let fresh = Hart::fresh_at(self.xlen, 0);
        // Writes from a fresh hart can leave a value exactly if one write of it does.
        let is_legal = |csr: Csr| {
            let value = csr::read(self, csr);
            csr::legalize(self.xlen, csr, csr::read(&fresh, csr), value) == value
        };
        let fits = |word: u64| self.xlen.holds(word);
        let page = self.page.unwrap_or(0);
        let words = [page, self.pc, self.sepc, self.stvec, self.scause, self.stval];
        csr::REGISTERS.into_iter().filter(|csr| csr.is_stored()).all(is_legal)
            && self.lines & !Hart::LINE_BITS == 0
            && self.sepc & 1 == 0
            && self.stvec & 3 == 0
            && page.is_multiple_of(4096)
            && self.x[0] == 0
            && self.features < 16
            && self.x.into_iter().all(fits)
            && words.into_iter().all(fits)
    }
}
