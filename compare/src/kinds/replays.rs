//! Recordings, good and damaged, in parts of all sizes. Replay has width 64 only.

use nathiroeng::REPLAY_LINE_BYTES;
use second::gen::recordings;
use second::rng::Rng;
use second::samples;

use super::Result;
use crate::case::Case;
use crate::replay::Feeding;

/// How long a recording may be that is fed byte by byte or cut at each place.
const SHORT: usize = 1_200;

/// A recording, every other one damaged.
pub fn recording(rng: &mut Rng, index: u64) -> Vec<u8> {
    if index.is_multiple_of(2) {
        recordings::recording(rng)
    } else {
        recordings::damaged(rng)
    }
}

/// Room for lines: for one and hardly more, for some, or for many; or the wrapper's own.
fn room(rng: &mut Rng) -> Option<usize> {
    let any = REPLAY_LINE_BYTES + rng.below(1_000) as usize;
    match rng.below(8) {
        0 | 1 => None,
        2 => Some(REPLAY_LINE_BYTES),
        3 => Some(REPLAY_LINE_BYTES + 1 + rng.below(12) as usize),
        4 => {
            let two = 2 * REPLAY_LINE_BYTES;
            Some(rng.pick(&[two - 1, two, two + 1, 4_096, 10_000]))
        }
        _ => Some(any),
    }
}

/// Places where a recording is cut: few in a long one, any number in a short one.
fn some_cuts(rng: &mut Rng, length: usize) -> Vec<usize> {
    if length <= SHORT {
        return recordings::cuts(rng, length);
    }
    let count = 1 + rng.below(16);
    let mut cuts: Vec<usize> = (0..count).map(|_| rng.below(length as u64 + 1) as usize).collect();
    cuts.sort_unstable();
    cuts
}

/// One recording: whole by the wrapper's type and with some room, in random parts both ways, and
/// byte by byte if it is short enough.
pub fn run(case: &mut Case) -> Result {
    let bytes = recording(&mut case.rng, case.index);
    for room in [None, Some(REPLAY_LINE_BYTES), room(&mut case.rng)] {
        case.check_feeding(&Feeding { bytes: &bytes, cuts: &[], room })?;
    }
    for _ in 0..3 {
        let (cuts, room) = (some_cuts(&mut case.rng, bytes.len()), room(&mut case.rng));
        case.check_feeding(&Feeding { bytes: &bytes, cuts: &cuts, room })?;
    }
    if bytes.len() <= SHORT {
        let (cuts, room): (Vec<usize>, _) = ((1..bytes.len()).collect(), room(&mut case.rng));
        case.check_feeding(&Feeding { bytes: &bytes, cuts: &cuts, room })?;
    }
    Ok(())
}

/// A recording in two parts, cut at each place: each sample, then random ones that are short enough.
pub fn cuts(case: &mut Case) -> Result {
    let sample = samples::all().into_iter().nth(case.index as usize);
    let mut bytes = sample.map(|sample| sample.bytes).unwrap_or_default();
    while bytes.is_empty() || bytes.len() > 2 * SHORT {
        bytes = recording(&mut case.rng, case.index);
    }
    for cut in 0..=bytes.len() {
        let room = room(&mut case.rng);
        case.check_feeding(&Feeding { bytes: &bytes, cuts: &[cut], room })?;
    }
    Ok(())
}
