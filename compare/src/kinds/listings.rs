//! The lister on random, structured and damaged images.

use nathiroeng::LIST_BYTES;
use second::gen;
use second::rng::Rng;
use second::xlen::Xlen;

use super::Result;
use crate::case::Case;

/// An image: zeros, ones, noise or a filled page.
fn image(rng: &mut Rng, xlen: Xlen, kind: u64) -> Vec<u8> {
    let mut image = vec![0; xlen.page_size()];
    match kind {
        0 => {}
        1 => image.fill(0xFF),
        2 => image.iter_mut().for_each(|byte| *byte = rng.bits() as u8),
        3 => image.iter_mut().for_each(|byte| *byte = (rng.bits() & rng.bits()) as u8),
        _ => gen::fill_page(rng, xlen, &mut image),
    }
    image
}

/// Changes some bytes: in the entries, in the bitmap, or anywhere.
fn damage(rng: &mut Rng, image: &mut [u8]) {
    for _ in 0..1 + rng.below(12) {
        let place = match rng.below(3) {
            0 => 0x800 + rng.below(0x780),
            1 => 0xF80 + rng.below(0x80),
            _ => rng.below(image.len() as u64),
        };
        image[place as usize] ^= 1 << rng.below(8);
    }
}

/// One image, whole and in a place that is too short; one in sixteen has another length, perhaps
/// the other width's.
pub fn run(case: &mut Case) -> Result {
    let rng = &mut case.rng;
    let kind = case.index % 8;
    let mut image = image(rng, case.xlen, kind);
    if kind > 4 {
        damage(rng, &mut image);
    }
    if rng.one_in(16) {
        let length = rng.pick(&[0, 1, 4096, 8191, 8192, 8193, 12_287, 12_288, 12_289, 24_576]);
        image.resize(length, 0x80);
    }
    let short = rng.below(400) as usize;
    let whole = case.check_listing(&image, LIST_BYTES)?;
    case.check_listing(&image, whole.length)?;
    case.check_listing(&image, short)?;
    case.check_listing(&image, 0).map(|_| ())
}
