//! The answers, without reports of dropped bits.

use second::{calls, steps};

/// What a call, a line change or a trap gives back.
#[derive(Clone, Copy, PartialEq, Eq, Debug)]
pub struct Answer {
    pub code: i64,
    pub value: u64,
    pub resumed: bool,
}

impl Answer {
    /// An answer that does not resume.
    pub fn plain(code: i64, value: u64) -> Answer {
        Answer { code, value, resumed: false }
    }
}

impl From<calls::Answer> for Answer {
    fn from(answer: calls::Answer) -> Answer {
        let calls::Answer { code, value, resumed, .. } = answer;
        Answer { code, value, resumed }
    }
}

/// What a stoppable run gives back.
#[derive(Clone, Copy, PartialEq, Eq, Debug)]
pub struct Run {
    pub code: i64,
    pub value: u64,
    pub steps: u64,
    pub finished: bool,
}

impl From<steps::Run> for Run {
    fn from(run: steps::Run) -> Run {
        let steps::Run { code, value, steps, finished, .. } = run;
        Run { code, value, steps, finished }
    }
}
