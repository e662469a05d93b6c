//! What both programs are given, and what they leave.

use nathiroeng::{ANSWER_WORDS, REPORT_WORDS};
use second::state::State;
use second::trap::Trap;

use crate::record;

/// What is asked for.
#[derive(Clone, Copy, PartialEq, Eq, Debug)]
pub enum Action {
    /// A fresh record of a width, if there is one with so many bits.
    Fresh { bits: u64, features: u64 },
    /// A whole call.
    Call { eid: u64, fid: u64, args: [u64; 3] },
    /// The first steps of a call.
    Stoppable { eid: u64, fid: u64, a0: u64, limit: u64 },
    /// A line change.
    Lines { lines: u64 },
    /// A trap back from the guest.
    Trap(Trap),
}

/// By which functions the library is reached.
#[derive(Clone, Copy, PartialEq, Eq, Debug)]
pub enum Route {
    /// The wrapper's methods with the calls' names, where there is one.
    Names,
    /// The wrapper's methods that take the numbers.
    Numbers,
    /// The functions on blocks; the answer's block and the buffer for reports have so many words.
    Blocks { answer_words: usize, report_words: usize },
}

impl Route {
    /// The functions on blocks, with the answer's block and room for all reports.
    pub const BLOCKS: Route = Route::with_room(REPORT_WORDS);

    /// The functions on blocks, with the answer's block and so much room for reports.
    pub const fn with_room(report_words: usize) -> Route {
        Route::Blocks { answer_words: ANSWER_WORDS, report_words }
    }
}

/// One input: the record's block, memory, the table, and what is asked for.
#[derive(Clone, PartialEq, Eq, Debug)]
pub struct Input {
    pub words: Vec<u64>,
    pub base: u64,
    pub memory: Vec<u8>,
    pub table: Vec<u64>,
    pub action: Action,
    pub route: Route,
}

impl Input {
    /// The second program's state with an action, reached by the calls' names.
    pub fn new(state: &State, action: Action) -> Input {
        Input {
            words: record::words(&state.hart),
            base: state.memory.base,
            memory: state.memory.bytes.clone(),
            table: state.table.clone(),
            action,
            route: Route::Names,
        }
    }

    /// How many words the answer's block has.
    pub fn answer_words(&self) -> usize {
        match self.route {
            Route::Blocks { answer_words, .. } => answer_words,
            _ => ANSWER_WORDS,
        }
    }

    /// How many words the buffer for reports has.
    pub fn report_words(&self) -> usize {
        match self.route {
            Route::Blocks { report_words, .. } => report_words,
            _ => REPORT_WORDS,
        }
    }

    /// The input that goes on from an outcome.
    pub fn after(&self, outcome: &Outcome, action: Action) -> Input {
        Input {
            words: outcome.words.clone(),
            base: self.base,
            memory: outcome.memory.clone(),
            table: outcome.table.clone(),
            action,
            route: self.route,
        }
    }
}

/// Where the answer's block has how many reports there are.
pub const REPORTS: usize = 4;

/// What an answer's block and the buffer for reports hold before the call.
pub const UNTOLD: u64 = 0x5A5A_5A5A_5A5A_5A5A;

/// What one program leaves: the code, the answer's block, the buffer for reports, and all that was
/// lent.
#[derive(Clone, PartialEq, Eq, Debug)]
pub struct Outcome {
    pub code: i64,
    /// Whether nothing beside what was lent has changed.
    pub kept: bool,
    pub answer: Vec<u64>,
    pub reports: Vec<u64>,
    pub words: Vec<u64>,
    pub memory: Vec<u8>,
    pub table: Vec<u64>,
}

impl Outcome {
    /// The outcome without the count of dropped writes and their reports, which stay out of what is
    /// said of stops.
    pub fn without_reports(mut self) -> Outcome {
        self.reports.fill(UNTOLD);
        self.answer.iter_mut().skip(REPORTS).for_each(|word| *word = 0);
        self.words.iter_mut().skip(record::DROPPED).for_each(|word| *word = 0);
        self
    }

    /// How many reports there are, by an answer's block that tells it.
    pub fn report_count(&self) -> usize {
        self.answer.get(REPORTS).map_or(0, |&count| count as usize)
    }

    /// Where two outcomes differ, a line for each place, not more than a few of a kind.
    pub fn differences(&self, other: &Outcome) -> Vec<String> {
        let mut lines = Vec::new();
        if self.code != other.code {
            lines.push(format!("code: ours {}, second {}", self.code, other.code));
        }
        if !self.kept {
            lines.push("something beside what was lent has changed".to_string());
        }
        let answers = ["value", "resumed", "steps", "finished", "reports"];
        let of_answer = |place: usize| answers.get(place).unwrap_or(&"more").to_string();
        differ(&mut lines, "answer", of_answer, &self.answer, &other.answer);
        let of_report = |place: usize| format!("{} {}", place / 2, ["CSR", "bits"][place % 2]);
        differ(&mut lines, "report", of_report, &self.reports, &other.reports);
        differ_world(
            &mut lines,
            (&self.words, &self.memory, &self.table),
            (&other.words, &other.memory, &other.table),
        );
        lines
    }
}

/// A record's block, memory and a table.
pub type World<'a> = (&'a [u64], &'a [u8], &'a [u64]);

/// Adds a line for each of the first places where two worlds differ.
pub fn differ_world(lines: &mut Vec<String>, ours: World, seconds: World) {
    differ(lines, "record", record::name, ours.0, seconds.0);
    let hex = |place: usize| format!("{place:#x}");
    differ(lines, "memory byte", hex, ours.1, seconds.1);
    let of_table = |place: usize| format!("slot {} word {}", place / 4, place % 4);
    differ(lines, "table", of_table, ours.2, seconds.2);
}

/// Adds a line for each of the first places where two lists differ.
fn differ<T: PartialEq + std::fmt::LowerHex>(
    lines: &mut Vec<String>,
    what: &str,
    name: impl Fn(usize) -> String,
    ours: &[T],
    seconds: &[T],
) {
    if ours.len() != seconds.len() {
        lines.push(format!("{what}: lengths {} and {}", ours.len(), seconds.len()));
    }
    let pairs = ours.iter().zip(seconds).enumerate().filter(|(_, (a, b))| a != b);
    for (place, (a, b)) in pairs.take(8) {
        lines.push(format!("{what} {}: ours {a:#x}, second {b:#x}", name(place)));
    }
}
