//! The second program's record as the block of 68 words, and back.

use second::csr::Csr;
use second::hart::{Hart, Mode};
use second::xlen::Xlen;

/// The words of a block.
pub const WORDS: usize = 68;

/// Where V, the mode and the feature set stand.
pub const VIRT: usize = 22;
pub const MODE: usize = 23;
pub const FEATURES: usize = 29;

/// Where the width, htimedeltah, the three words of a trap and the count of writes with dropped bits
/// stand.
pub const XLEN: usize = 62;
pub const HTIMEDELTAH: usize = 63;
pub const STVEC: usize = 64;
pub const SCAUSE: usize = 65;
pub const STVAL: usize = 66;
pub const DROPPED: usize = 67;

/// The stored registers at the beginning of the block, in its order.
const STORED: [Csr; 19] = [
    Csr::Hstatus,
    Csr::Hgeie,
    Csr::Hideleg,
    Csr::Hvip,
    Csr::Hie,
    Csr::Hedeleg,
    Csr::Htimedelta,
    Csr::Hcounteren,
    Csr::Henvcfg,
    Csr::Htval,
    Csr::Htinst,
    Csr::Hgatp,
    Csr::Vsstatus,
    Csr::Vstvec,
    Csr::Vsscratch,
    Csr::Vsepc,
    Csr::Vscause,
    Csr::Vstval,
    Csr::Vsatp,
];

/// The names of the words before the general registers, for printing.
const NAMES: [&str; 30] = [
    "hstatus",
    "hgeie",
    "hideleg",
    "hvip",
    "hie",
    "hedeleg",
    "htimedelta",
    "hcounteren",
    "henvcfg",
    "htval",
    "htinst",
    "hgatp",
    "vsstatus",
    "vstvec",
    "vsscratch",
    "vsepc",
    "vscause",
    "vstval",
    "vsatp",
    "lines",
    "page_set",
    "page",
    "virt",
    "mode",
    "pc",
    "sepc",
    "sie",
    "spie",
    "spp",
    "features",
];

/// The names of the words after them.
const LAST_NAMES: [&str; WORDS - XLEN] =
    ["xlen", "htimedeltah", "stvec", "scause", "stval", "dropped"];

/// The name of a word of the block.
pub fn name(place: usize) -> String {
    match place {
        0..30 => NAMES[place].to_string(),
        30..XLEN => format!("x{}", place - 30),
        _ => LAST_NAMES.get(place - XLEN).unwrap_or(&"more").to_string(),
    }
}

/// The block of a record.
pub fn words(hart: &Hart) -> Vec<u64> {
    let mut hart = hart.clone();
    let mut words = Vec::with_capacity(WORDS);
    for csr in STORED {
        words.push(hart.stored_mut(csr).map_or(0, |field| *field));
    }
    words.push(hart.lines);
    words.push(u64::from(hart.page.is_some()));
    words.push(hart.page.unwrap_or(0));
    words.push(u64::from(hart.virt));
    words.push(u64::from(hart.mode == Mode::S));
    words.push(hart.pc);
    words.push(hart.sepc);
    words.push(u64::from(hart.sie));
    words.push(u64::from(hart.spie));
    words.push(u64::from(hart.spp));
    words.push(hart.features);
    words.extend(hart.x);
    words.push(hart.xlen.bits().into());
    words.push(hart.htimedeltah);
    words.extend([hart.stvec, hart.scause, hart.stval]);
    words.push(hart.dropped.into());
    words
}

/// The record that a block is; none for a block that is no record.
pub fn hart(words: &[u64]) -> Option<Hart> {
    let flag = |place: usize| match words[place] {
        0 => Some(false),
        1 => Some(true),
        _ => None,
    };
    if words.len() != WORDS {
        return None;
    }
    let mut hart = Hart::fresh_at(Xlen::from_bits(words[XLEN])?, 0);
    for (csr, word) in STORED.into_iter().zip(words) {
        if let Some(field) = hart.stored_mut(csr) {
            *field = *word;
        }
    }
    hart.lines = words[19];
    hart.page = match (flag(20)?, words[21]) {
        (true, address) => Some(address),
        (false, 0) => None,
        (false, _) => return None,
    };
    hart.virt = flag(VIRT)?;
    hart.mode = if flag(MODE)? { Mode::S } else { Mode::U };
    hart.pc = words[24];
    hart.sepc = words[25];
    hart.sie = flag(26)?;
    hart.spie = flag(27)?;
    hart.spp = flag(28)?;
    hart.features = words[29];
    hart.x.copy_from_slice(&words[30..XLEN]);
    hart.htimedeltah = words[HTIMEDELTAH];
    (hart.stvec, hart.scause, hart.stval) = (words[STVEC], words[SCAUSE], words[STVAL]);
    hart.dropped = u32::try_from(words[DROPPED]).ok()?;
    Some(hart)
}
