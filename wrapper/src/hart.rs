//! The hart's record as the block of words that crosses to the library.

use crate::{ffi, Xlen, HART_WORDS};

/// The mode that the hart runs in.
#[derive(Clone, Copy, PartialEq, Eq, Debug)]
pub enum Mode {
    /// User.
    U,
    /// Supervisor.
    S,
}

/// Everything that the monitor keeps of one hart: a block of 68 words, at both
/// widths.
///
/// | Words | Content |
/// |---|---|
/// | 0 to 18 | hstatus, hgeie, hideleg, hvip, hie, hedeleg, htimedelta, hcounteren, henvcfg, htval, htinst, hgatp, vsstatus, vstvec, vsscratch, vsepc, vscause, vstval, vsatp |
/// | 19 | the guest external interrupt lines, bits 7:1 |
/// | 20, 21 | 1 if a page is set, and its physical address (0 and 0 if none is) |
/// | 22, 23 | V (0 or 1), mode (0 U, 1 S) |
/// | 24, 25 | pc, sepc |
/// | 26 to 28 | sstatus bits SIE, SPIE, SPP (0 or 1 each) |
/// | 29 | the features: bit k for feature k, below 16 |
/// | 30 to 61 | X0 to X31 |
/// | 62 | the width: 32 or 64 |
/// | 63 | htimedeltah (0 at width 64) |
/// | 64 | stvec, its two low bits 0: where the hart goes on after a trap |
/// | 65, 66 | scause and stval: the last trap's cause and tval |
/// | 67 | how many register writes dropped bits, below 2^32 |
///
/// Any words may be put in. A block that is no record, or a record that is not well made, is
/// refused by every call, line change and trap with code -1; at width 32 no word of a well-made
/// record has a bit above 31.
///
/// stvec, scause and stval have no CSR number here: no call changes them. Put stvec as L1 writes it;
/// a [trap](crate::Monitor::trap) puts the other two.
#[derive(Clone, PartialEq, Eq, Debug)]
pub struct Hart {
    words: [u64; HART_WORDS],
}

const LINES: usize = 19;
const PAGE_SET: usize = 20;
const PAGE: usize = 21;
const VIRT: usize = 22;
const MODE: usize = 23;
const PC: usize = 24;
const SEPC: usize = 25;
const SIE: usize = 26;
const SPIE: usize = 27;
const SPP: usize = 28;
const FEATURES: usize = 29;
const X: usize = 30;
const XLEN: usize = 62;
const HTIMEDELTAH: usize = 63;
const STVEC: usize = 64;
const SCAUSE: usize = 65;
const STVAL: usize = 66;
const DROPPED: usize = 67;

/// Makes the reading and the setting method of a word.
macro_rules! words {
    ($($(#[$doc:meta])* $get:ident, $set:ident = $place:expr;)*) => {
        $(
            $(#[$doc])*
            pub const fn $get(&self) -> u64 {
                self.words[$place]
            }

            #[doc = concat!("Puts a word where [`", stringify!($get), "`](Hart::", stringify!($get), ") is read.")]
            pub fn $set(&mut self, word: u64) {
                self.words[$place] = word;
            }
        )*
    };
}

/// Makes the reading and the setting method of a flag; a word that is not 1 reads false.
macro_rules! flags {
    ($($(#[$doc:meta])* $get:ident, $set:ident = $place:expr;)*) => {
        $(
            $(#[$doc])*
            pub const fn $get(&self) -> bool {
                self.words[$place] == 1
            }

            #[doc = concat!("Puts the flag that [`", stringify!($get), "`](Hart::", stringify!($get), ") reads.")]
            pub fn $set(&mut self, flag: bool) {
                self.words[$place] = flag as u64;
            }
        )*
    };
}

impl Hart {
    /// A hart of this width that has just started, with the low four bits of the number as its
    /// features.
    pub fn fresh(xlen: Xlen, features: u64) -> Hart {
        let mut words = [0; HART_WORDS];
        let code = ffi::fresh(&mut words, xlen.bits(), features);
        debug_assert_eq!(code, 0);
        Hart { words }
    }

    /// The record that these words are, whatever they hold.
    pub const fn from_words(words: [u64; HART_WORDS]) -> Hart {
        Hart { words }
    }

    /// The words.
    pub const fn words(&self) -> &[u64; HART_WORDS] {
        &self.words
    }

    /// The words, to be changed.
    pub fn words_mut(&mut self) -> &mut [u64; HART_WORDS] {
        &mut self.words
    }

    words! {
        /// The register hstatus.
        hstatus, set_hstatus = 0;
        /// The register hgeie.
        hgeie, set_hgeie = 1;
        /// The register hideleg.
        hideleg, set_hideleg = 2;
        /// The register hvip.
        hvip, set_hvip = 3;
        /// The register hie.
        hie, set_hie = 4;
        /// The register hedeleg.
        hedeleg, set_hedeleg = 5;
        /// The register htimedelta.
        htimedelta, set_htimedelta = 6;
        /// The register hcounteren.
        hcounteren, set_hcounteren = 7;
        /// The register henvcfg.
        henvcfg, set_henvcfg = 8;
        /// The register htval.
        htval, set_htval = 9;
        /// The register htinst.
        htinst, set_htinst = 10;
        /// The register hgatp.
        hgatp, set_hgatp = 11;
        /// The register vsstatus.
        vsstatus, set_vsstatus = 12;
        /// The register vstvec.
        vstvec, set_vstvec = 13;
        /// The register vsscratch.
        vsscratch, set_vsscratch = 14;
        /// The register vsepc.
        vsepc, set_vsepc = 15;
        /// The register vscause.
        vscause, set_vscause = 16;
        /// The register vstval.
        vstval, set_vstval = 17;
        /// The register vsatp.
        vsatp, set_vsatp = 18;
        /// The guest external interrupt lines, bits 7:1.
        lines, set_lines = LINES;
        /// The program counter.
        pc, set_pc = PC;
        /// The register sepc.
        sepc, set_sepc = SEPC;
        /// The features: bit k for feature k.
        features, set_features = FEATURES;
        /// The register htimedeltah, which width 32 has.
        htimedeltah, set_htimedeltah = HTIMEDELTAH;
        /// The register stvec: where the hart goes on after a trap. Its two low bits are 0 in a
        /// well-made record.
        stvec, set_stvec = STVEC;
        /// The register scause: the last trap's cause.
        scause, set_scause = SCAUSE;
        /// The register stval: the last trap's tval.
        stval, set_stval = STVAL;
        /// How many register writes dropped bits, one for each [report](crate::Reports). It is below
        /// 2^32 in a well-made record, and stays at 2^32 - 1 once it is there.
        dropped, set_dropped = DROPPED;
    }

    flags! {
        /// V: whether virtualization is on.
        virt, set_virt = VIRT;
        /// The bit SIE of sstatus.
        sie, set_sie = SIE;
        /// The bit SPIE of sstatus.
        spie, set_spie = SPIE;
        /// The bit SPP of sstatus.
        spp, set_spp = SPP;
    }

    /// The physical address of the shared page, if one is set.
    pub const fn page(&self) -> Option<u64> {
        if self.words[PAGE_SET] == 1 {
            Some(self.words[PAGE])
        } else {
            None
        }
    }

    /// Puts the page's address, or none.
    pub fn set_page(&mut self, page: Option<u64>) {
        self.words[PAGE_SET] = page.is_some() as u64;
        self.words[PAGE] = page.unwrap_or(0);
    }

    /// The mode; a word that is not 1 reads as U.
    pub const fn mode(&self) -> Mode {
        if self.words[MODE] == 1 {
            Mode::S
        } else {
            Mode::U
        }
    }

    /// Puts the mode.
    pub fn set_mode(&mut self, mode: Mode) {
        self.words[MODE] = (mode == Mode::S) as u64;
    }

    /// The general registers X0 to X31.
    pub fn x(&self) -> &[u64] {
        &self.words[X..XLEN]
    }

    /// The general registers, to be changed.
    pub fn x_mut(&mut self) -> &mut [u64] {
        &mut self.words[X..XLEN]
    }

    /// The width; none for a word that is neither 32 nor 64.
    pub const fn xlen(&self) -> Option<Xlen> {
        Xlen::from_bits(self.words[XLEN])
    }

    /// Puts the width. No other word changes, so a record of the one width may not be well made
    /// at the other.
    pub fn set_xlen(&mut self, xlen: Xlen) {
        self.words[XLEN] = xlen.bits();
    }
}
