//! The width of a hart's words, and the sizes that it decides.

/// The width of a hart's registers and of the words in its page.
#[derive(Clone, Copy, PartialEq, Eq, Debug)]
pub enum Xlen {
    X32,
    X64,
}

impl Xlen {
    /// Both widths.
    pub const BOTH: [Xlen; 2] = [Xlen::X32, Xlen::X64];

    /// The bits of a word.
    pub const fn bits(self) -> u32 {
        match self {
            Xlen::X32 => 32,
            Xlen::X64 => 64,
        }
    }

    /// The width with so many bits, if there is one.
    pub fn from_bits(bits: u64) -> Option<Xlen> {
        Xlen::BOTH.into_iter().find(|xlen| u64::from(xlen.bits()) == bits)
    }

    /// The bytes of a word.
    pub const fn bytes(self) -> usize {
        self.bits() as usize / 8
    }

    /// The word of all ones.
    pub const fn ones(self) -> u64 {
        u64::MAX >> (64 - self.bits())
    }

    /// The low bits of a number, as many as a word has.
    pub const fn cut(self, number: u64) -> u64 {
        number & self.ones()
    }

    /// Whether a number fits in a word.
    pub const fn holds(self, number: u64) -> bool {
        self.cut(number) == number
    }

    /// The bytes of a shared page: 4096 and 1,024 words.
    pub const fn page_size(self) -> usize {
        4096 + 1024 * self.bytes()
    }

    /// The width whose pages have this length, if there is one.
    pub fn of_page_size(length: usize) -> Option<Xlen> {
        Xlen::BOTH.into_iter().find(|xlen| xlen.page_size() == length)
    }

    /// The fence entries of a shared page.
    pub const fn entry_count(self) -> usize {
        3840 / self.bits() as usize
    }
}
