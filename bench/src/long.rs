//! Long recordings: how fast ours and the second program replay them, and that memory does not grow
//! with their length. The recording is made while it is fed and is never there as a whole.

use std::process::ExitCode;
use std::time::{Duration, Instant};

use second::gen::recordings;
use second::hart::Mode;
use second::replay::Replay;
use second::rng::Rng;

/// How many bytes are fed at once.
const PART: usize = 1 << 16;

/// How many bytes are replayed before anything is measured.
const WARM_UP: usize = 20_000_000;

/// How often a recording of so many megabytes is replayed; the times are the medians. A short one
/// takes less than a millisecond, and is replayed more often.
fn times(megabytes: usize) -> usize {
    (300 / megabytes.max(1)).clamp(9, 101)
}

/// A recording without an end, the same in every run: random recordings of all kinds, one after the
/// other, with the replay that they lead to.
struct Source {
    rng: Rng,
    ahead: Replay,
    bytes: Vec<u8>,
}

impl Source {
    /// A recording at its beginning.
    fn new() -> Source {
        Source { rng: Rng::new(5), ahead: Replay::new(), bytes: Vec::new() }
    }

    /// The next bytes.
    fn take(&mut self, length: usize) -> Vec<u8> {
        while self.bytes.len() < length {
            self.add();
        }
        self.bytes.drain(..length).collect()
    }

    /// Adds a random recording, unless it leaves the hart in mode U with V off, where nothing but
    /// lines and memory would change any more.
    fn add(&mut self) {
        let bytes = recordings::recording(&mut self.rng);
        let mut ahead = self.ahead.clone();
        ahead.feed(&bytes, &mut Vec::new());
        let hart = &ahead.state().hart;
        if hart.virt || hart.mode == Mode::S {
            self.ahead = ahead;
            self.bytes.extend_from_slice(&bytes);
        }
    }
}

/// The times of both sides, and the records.
struct Run {
    ours: Duration,
    second: Duration,
    records: u64,
}

/// How long something takes.
fn time(work: impl FnOnce()) -> Duration {
    let begin = Instant::now();
    work();
    begin.elapsed()
}

/// Replays so many bytes on both sides, which take turns in being first. Their lines must be the
/// same after each part.
fn run(bytes: usize) -> Run {
    let (mut source, mut ours, mut second) =
        (Source::new(), nathiroeng::Replay::new(), Replay::new());
    let (mut our_lines, mut second_lines) = (Vec::new(), Vec::new());
    let mut run = Run { ours: Duration::ZERO, second: Duration::ZERO, records: 0 };
    let mut left = bytes;
    while left > 0 {
        let part = source.take(left.min(PART));
        left -= part.len();
        our_lines.clear();
        second_lines.clear();
        let our_turn = || ours.feed(&part, |lines| our_lines.extend_from_slice(lines));
        let second_turn = || second.feed(&part, &mut second_lines);
        if (left / PART).is_multiple_of(2) {
            run.ours += time(our_turn);
            run.second += time(second_turn);
        } else {
            run.second += time(second_turn);
            run.ours += time(our_turn);
        }
        assert!(our_lines == second_lines, "the lines differ");
    }
    assert!(ours.records() == second.finished() && !ours.is_bad(), "the replays differ");
    run.records = ours.records();
    run
}

/// The most memory that this process has had, as the kernel tells it.
fn peak() -> String {
    let status = std::fs::read_to_string("/proc/self/status").unwrap_or_default();
    let told = status.lines().find_map(|line| line.strip_prefix("VmHWM:"));
    told.map_or("-".to_string(), |words| words.trim().to_string())
}

/// The middle one of some times, in seconds.
fn median(times: impl Iterator<Item = Duration>) -> f64 {
    let mut times: Vec<Duration> = times.collect();
    times.sort();
    times[times.len() / 2].as_secs_f64()
}

/// Measures a recording of so many megabytes and prints a line of the table.
pub fn print_row(megabytes: usize) -> ExitCode {
    // Another one before, so that all memory that does not depend on the length is there.
    run(WARM_UP);
    let before = peak();
    let runs: Vec<Run> = (0..times(megabytes)).map(|_| run(megabytes * 1_000_000)).collect();
    let after = peak();
    let records = runs[0].records;
    let ours = median(runs.iter().map(|run| run.ours));
    let second = median(runs.iter().map(|run| run.second));
    print!("| {megabytes} MB | {records} | {ours:.4} | {second:.4} ");
    let rates = [ours, second].map(|seconds| records as f64 / seconds);
    print!("| {:.0} | {:.0} ", rates[0], rates[1]);
    let each = [ours, second].map(|seconds| 1e9 * seconds / records as f64);
    print!("| {:.0} | {:.0} | {:.2} ", each[0], each[1], ours / second);
    println!("| {before} | {after} |");
    ExitCode::SUCCESS
}
