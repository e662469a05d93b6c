//! One row's times on all sides.

use std::hint::black_box;
use std::time::{Duration, Instant};

use crate::cases::Row;
use crate::sides::{Ours, Seconds, Side, Tuned};

/// How many states are worked on between two readings of the clock.
pub const BATCH: usize = 16;

/// How many repetitions each row has, at least.
pub const REPETITIONS: usize = 301;

/// How long each row is measured, at least.
const TIME: Duration = Duration::from_millis(200);

/// Restores a batch of states, which is not timed, then times the work on all of them.
fn time<S: Side>(states: &mut [S], row: &Row) -> Duration {
    for state in states.iter_mut() {
        state.restore(row);
    }
    let begin = Instant::now();
    for state in states.iter_mut() {
        black_box(state.act(black_box(row.action)));
    }
    begin.elapsed()
}

/// The median of the times, in nanoseconds for one action.
fn median(mut times: Vec<Duration>) -> f64 {
    times.sort();
    times[times.len() / 2].as_nanos() as f64 / BATCH as f64
}

/// One row's times in nanoseconds; the tuned version does not have every row.
#[derive(Clone, Copy)]
pub struct Times {
    pub ours: f64,
    pub second: f64,
    pub tuned: Option<f64>,
}

/// The medians of all sides, measured in turns.
pub fn all(row: &Row) -> Times {
    let mut ours: Vec<Ours> = (0..BATCH).map(|_| Ours::new()).collect();
    let mut seconds: Vec<Seconds> = (0..BATCH).map(|_| Seconds::new(&row.state)).collect();
    let mut tuned: Vec<Tuned> = (0..BATCH).map(|_| Tuned::new(&row.state)).collect();
    let mut times = (Vec::new(), Vec::new(), Vec::new());
    let begin = Instant::now();
    while begin.elapsed() < TIME || times.0.len() < REPETITIONS {
        times.0.push(time(&mut ours, row));
        times.1.push(time(&mut seconds, row));
        if row.has_tuned() {
            times.2.push(time(&mut tuned, row));
        }
    }
    let tuned = row.has_tuned().then(|| median(times.2));
    Times { ours: median(times.0), second: median(times.1), tuned }
}

/// Ours and the second program must give the same code, else the row measures two different
/// things.
pub fn same_code(row: &Row) -> bool {
    let (mut ours, mut seconds) = (Ours::new(), Seconds::new(&row.state));
    ours.restore(row);
    seconds.restore(row);
    ours.act(row.action) == seconds.act(row.action)
}

/// Runs a row's action so many times on one side; on the tuned one, if that has it.
pub fn repeat(row: &Row, side: &str, times: u64) {
    match side {
        "ours" => repeat_on(Ours::new(), row, times),
        "second" => repeat_on(Seconds::new(&row.state), row, times),
        _ if row.has_tuned() => repeat_on(Tuned::new(&row.state), row, times),
        _ => {}
    }
}

/// Runs a row's action so many times on this side.
fn repeat_on<S: Side>(mut state: S, row: &Row, times: u64) {
    for _ in 0..times {
        state.restore(row);
        black_box(state.act(black_box(row.action)));
    }
}
