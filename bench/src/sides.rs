//! The three sides: states that are restored, and the work that is measured.

use std::hint::black_box;

use nathiroeng::{blocks, ANSWER_WORDS, HART_WORDS, LIST_BYTES, REPORT_WORDS};
use second::csr::{self, Csr};
use second::hypervisor::Fence;
use second::state::State;
use second::trap::{self, Trap};
use second::xlen::Xlen;
use second::{calls, hypervisor, lines, lister, page, steps};

use crate::cases::{Action, Numbers, Row, NUMBER};
use crate::replays::{OurReplay, SecondsReplay};
use crate::tuned;

/// A side of the comparison.
pub trait Side {
    /// Puts the state back as it was, or begins a replay where the row is one.
    fn restore(&mut self, row: &Row);
    /// Does what is asked for; gives the code, the value of a request, the length of a listing or of a
    /// replay's lines, a turn or a sum of turns.
    fn act(&mut self, action: Action) -> i64;
}

/// The turn of a register as a code, -1 for no register.
fn turn_code(turn: Option<usize>) -> i64 {
    turn.map_or(-1, |turn| turn as i64)
}

/// The value or the code of a request.
fn told(done: Result<u64, i64>) -> i64 {
    done.map_or_else(|code| code, |value| value as i64)
}

/// The lists of numbers that are looked up.
struct Lists {
    all: Vec<u64>,
    mixed: Vec<u64>,
}

impl Lists {
    /// Both lists.
    fn new() -> Lists {
        Lists { all: Numbers::All.list(), mixed: Numbers::Mixed.list() }
    }

    /// One of them.
    fn get(&self, numbers: Numbers) -> &[u64] {
        match numbers {
            Numbers::All => &self.all,
            Numbers::Mixed => &self.mixed,
        }
    }
}

/// Where the block has the width.
const XLEN: usize = 62;

/// The sum of the library's turns of some numbers. Not inlined, so that `act` saves no registers for
/// it.
#[inline(never)]
fn our_turns(xlen: u64, numbers: &[u64]) -> i64 {
    numbers.iter().map(|&number| turn_code(lookup::turn(xlen, number))).sum()
}

/// The library's state: the record's block, memory, the table, and room for its answers.
pub struct Ours {
    words: [u64; HART_WORDS],
    base: u64,
    memory: Vec<u8>,
    table: Vec<u64>,
    answer: [u64; ANSWER_WORDS],
    reports: [u64; REPORT_WORDS],
    text: Vec<u8>,
    lists: Lists,
    replay: Option<Box<OurReplay>>,
}

impl Ours {
    /// An empty state, to be restored.
    pub fn new() -> Ours {
        Ours {
            words: [0; HART_WORDS],
            base: 0,
            memory: Vec::new(),
            table: Vec::new(),
            answer: [0; ANSWER_WORDS],
            reports: [0; REPORT_WORDS],
            text: vec![0; LIST_BYTES],
            lists: Lists::new(),
            replay: None,
        }
    }
}

impl Side for Ours {
    fn restore(&mut self, row: &Row) {
        if let Action::Replay { .. } = row.action {
            self.replay = Some(Box::new(OurReplay::new()));
        }
        let start = &row.state;
        // A fresh record; the rows differ in no other words but the page's, V, pc, SPP and stvec.
        let hart = &start.hart;
        blocks::fresh(&mut self.words, hart.xlen.bits().into(), hart.features);
        self.words[20] = u64::from(hart.page.is_some());
        self.words[21] = hart.page.unwrap_or(0);
        self.words[22] = u64::from(hart.virt);
        self.words[24] = hart.pc;
        self.words[28] = u64::from(hart.spp);
        self.words[64] = hart.stvec;
        self.base = start.memory.base;
        self.memory.clone_from(&start.memory.bytes);
        self.table.clone_from(&start.table);
    }

    #[inline(never)]
    fn act(&mut self, action: Action) -> i64 {
        let (words, memory, table) = (&mut self.words, &mut self.memory, &mut self.table);
        let (base, answer, reports) = (self.base, &mut self.answer, &mut self.reports);
        match action {
            Action::Call { fid, args } => {
                blocks::call(words, base, memory, table, NUMBER, fid, args, answer, reports)
            }
            Action::Stoppable { fid, a0, limit } => blocks::sync_stoppable(
                words, base, memory, table, NUMBER, fid, a0, limit, answer, reports,
            ),
            Action::Lines { lines } => {
                blocks::line_change(words, base, memory, table, lines, answer)
            }
            Action::Trap { trap } => {
                let &Trap { cause, tval, htval, htinst, gva } = trap;
                let told = [cause, tval, htval, htinst];
                blocks::trap(words, base, memory, table, told, gva, answer, reports)
            }
            Action::List => nathiroeng::list(memory, &mut self.text) as i64,
            Action::Lookup { number } => turn_code(lookup::turn(words[XLEN], number)),
            Action::Lookups { numbers } => our_turns(words[XLEN], self.lists.get(numbers)),
            Action::Blank { address } => {
                let args = [address, 0, 0];
                blocks::call(words, base, memory, table, NUMBER, calls::SET, args, answer, reports)
            }
            Action::Write { number, value } => {
                blocks::write_csr(memory, words[XLEN], number, value)
            }
            Action::Queue { fence } => {
                let &Fence { kind, order, vmid, asid, page_number, page_count } = fence;
                let fields = [kind, order, vmid, asid, page_number, page_count];
                blocks::queue_hfence(memory, words[XLEN], fields)
            }
            Action::Fill { words: x } => blocks::fill_context(memory, words[XLEN], x),
            Action::Replay { recording } => {
                self.replay.as_mut().map_or(0, |replay| replay.run(recording))
            }
        }
    }
}

/// The second program's turn of a number: its registers are declared in turn order.
fn turn(xlen: Xlen, number: u64) -> Option<usize> {
    Csr::from_number(xlen, number).map(|csr| csr as usize)
}

/// The sum of the second program's turns of some numbers.
#[inline(never)]
fn seconds_turns(xlen: Xlen, numbers: &[u64]) -> i64 {
    numbers.iter().map(|&number| turn_code(turn(xlen, number))).sum()
}

/// The bits of a state's width.
fn bits(state: &State) -> u64 {
    state.hart.xlen.bits().into()
}

/// The reading of each register with the place of its word, found beforehand.
pub struct Readings {
    xlen: Xlen,
    words: Vec<(usize, u64)>,
}

impl Readings {
    /// The readings of a state's registers.
    pub fn new(state: &State) -> Readings {
        let xlen = state.hart.xlen;
        let place = |csr: Csr| page::word_offset(xlen, page::index_of_number(csr.number()));
        let word = |&csr: &Csr| (place(csr), csr::read(&state.hart, csr));
        Readings { xlen, words: csr::turn_order(xlen).iter().map(word).collect() }
    }

    /// Zeroes the page and stores the readings: the least that a set has to write.
    #[inline(never)]
    pub fn blank(&self, page: &mut [u8]) {
        page.fill(0);
        for &(offset, reading) in &self.words {
            page::set_word(self.xlen, page, offset, reading);
        }
    }
}

/// The second program's state.
pub struct Seconds {
    state: State,
    lists: Lists,
    readings: Readings,
    replay: Option<Box<SecondsReplay>>,
}

impl Seconds {
    /// A state, to be restored.
    pub fn new(start: &State) -> Seconds {
        let readings = Readings::new(start);
        Seconds { state: start.clone(), lists: Lists::new(), readings, replay: None }
    }
}

impl Side for Seconds {
    fn restore(&mut self, row: &Row) {
        if let Action::Replay { .. } = row.action {
            self.replay = Some(Box::new(SecondsReplay::new()));
        }
        let start = &row.state;
        self.state.hart.clone_from(&start.hart);
        self.state.memory.base = start.memory.base;
        self.state.memory.bytes.clone_from(&start.memory.bytes);
        self.state.table.clone_from(&start.table);
    }

    #[inline(never)]
    fn act(&mut self, action: Action) -> i64 {
        let state = &mut self.state;
        match action {
            Action::Call { fid, args } => black_box(calls::call(state, NUMBER, fid, args)).code,
            Action::Stoppable { fid, a0, limit } => steps::run(state, NUMBER, fid, a0, limit).code,
            Action::Lines { lines } => lines::change(state, lines).code,
            Action::Trap { trap } => trap::back(state, *trap).code,
            Action::List => black_box(lister::list(&state.memory.bytes)).len() as i64,
            Action::Lookup { number } => turn_code(turn(state.hart.xlen, number)),
            Action::Lookups { numbers } => seconds_turns(state.hart.xlen, self.lists.get(numbers)),
            Action::Blank { .. } => {
                self.readings.blank(&mut state.memory.bytes);
                calls::SUCCESS
            }
            Action::Write { number, value } => {
                told(hypervisor::write_csr(bits(state), &mut state.memory.bytes, number, value))
            }
            Action::Queue { fence } => {
                told(hypervisor::queue_fence(bits(state), &mut state.memory.bytes, *fence))
            }
            Action::Fill { words } => {
                told(hypervisor::fill_context(bits(state), &mut state.memory.bytes, words))
            }
            Action::Replay { recording } => {
                self.replay.as_mut().map_or(0, |replay| replay.run(recording))
            }
        }
    }
}

/// The tuned version's state, and its width.
pub struct Tuned {
    state: tuned::State,
    xlen: Xlen,
}

impl Tuned {
    /// A state, to be restored.
    pub fn new(start: &State) -> Tuned {
        Tuned { state: tuned::State::from(start), xlen: start.hart.xlen }
    }
}

impl Side for Tuned {
    fn restore(&mut self, row: &Row) {
        let start = &row.state;
        self.state.record = tuned::Record::from(&start.hart);
        self.state.base = start.memory.base;
        self.state.memory.clone_from(&start.memory.bytes);
        self.state.table.clone_from(&start.table);
    }

    #[inline(never)]
    fn act(&mut self, action: Action) -> i64 {
        let state = &mut self.state;
        match action {
            Action::Call { args, .. } if self.xlen == Xlen::X32 => {
                black_box(tuned::narrow_fence(state, NUMBER, args[0])).code
            }
            Action::Call { fid, args } => black_box(tuned::call(state, NUMBER, fid, args)).code,
            Action::Stoppable { fid, a0, limit } => {
                black_box(tuned::stoppable(state, NUMBER, fid, a0, limit)).code
            }
            Action::Lines { lines } => black_box(tuned::line_change(state, lines)).code,
            Action::Trap { trap } => black_box(tuned::trap(state, *trap)).code,
            Action::List => unreachable!("the tuned version has no lister"),
            Action::Lookup { .. } | Action::Lookups { .. } => {
                unreachable!("the tuned version has no lookup by itself")
            }
            Action::Blank { .. } => unreachable!("the tuned version's set is a call"),
            Action::Write { number, value } => told(tuned::write_csr(state, number, value)),
            Action::Queue { fence } => told(tuned::queue_fence(state, *fence)),
            Action::Fill { words } => told(tuned::fill_context(state, words)),
            Action::Replay { .. } => unreachable!("the tuned version has no replay"),
        }
    }
}
