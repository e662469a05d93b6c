//! The width of a hart's words, and the sizes that it decides.

/// The width of a hart's registers and of the words in its page.
#[derive(Clone, Copy, PartialEq, Eq, Debug)]
pub enum Xlen {
    /// 32 bits. Of EID, FID and the arguments of a call the low 32 bits are taken.
    X32,
    /// 64 bits.
    X64,
}

impl Xlen {
    /// The width with so many bits, if there is one.
    pub const fn from_bits(bits: u64) -> Option<Xlen> {
        match bits {
            32 => Some(Xlen::X32),
            64 => Some(Xlen::X64),
            _ => None,
        }
    }

    /// The bits of a word: 32 or 64.
    pub const fn bits(self) -> u64 {
        match self {
            Xlen::X32 => 32,
            Xlen::X64 => 64,
        }
    }

    /// The bytes of a word: 4 or 8.
    pub const fn word_bytes(self) -> usize {
        match self {
            Xlen::X32 => 4,
            Xlen::X64 => 8,
        }
    }

    /// The bytes of a shared page: 8,192 or 12,288.
    pub const fn page_bytes(self) -> usize {
        match self {
            Xlen::X32 => 8_192,
            Xlen::X64 => 12_288,
        }
    }

    /// The fence entries of a shared page: 120 or 60.
    pub const fn entries(self) -> usize {
        match self {
            Xlen::X32 => 120,
            Xlen::X64 => 60,
        }
    }
}
