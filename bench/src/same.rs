//! The tuned version must do what the second program does, else its times mean nothing: the same
//! answer, record, memory and table, but for dropped bits; and replays must print the same lines. A difference ends the
//! program.

use second::csr;
use second::hart::Hart;
use second::hypervisor::{self, Request};
use second::rng::Rng;
use second::state::{Memory, State};
use second::xlen::Xlen;
use second::{calls, gen, lines, registers, steps, trap};

use crate::cases::{Action, Row};
use crate::replays::{OurReplay, SecondsReplay};
use crate::sides::Readings;
use crate::tuned;

/// How many random states are tried.
const STATES: u64 = 2000;

/// Tries what is asked for on both.
fn check(name: &str, start: &State, eid: u64, action: Action) {
    let (mut second, mut tuned) = (start.clone(), tuned::State::from(start));
    match action {
        Action::Call { fid, args } => {
            let answer = calls::call(&mut second, eid, fid, args);
            let tuned_answer = match start.hart.xlen {
                Xlen::X32 => tuned::narrow_fence(&mut tuned, eid, args[0]),
                Xlen::X64 => tuned::call(&mut tuned, eid, fid, args),
            };
            assert_eq!(tuned::Answer::from(answer), tuned_answer, "{name}");
        }
        Action::Stoppable { fid, a0, limit } => {
            let run = steps::run(&mut second, eid, fid, a0, limit);
            let tuned_run = tuned::stoppable(&mut tuned, eid, fid, a0, limit);
            assert_eq!(tuned::Run::from(run), tuned_run, "{name}");
        }
        Action::Lines { lines } => {
            let answer = lines::change(&mut second, lines);
            assert_eq!(
                tuned::Answer::from(answer),
                tuned::line_change(&mut tuned, lines),
                "{name}"
            );
        }
        Action::Trap { trap } => {
            let answer = trap::back(&mut second, *trap);
            assert_eq!(tuned::Answer::from(answer), tuned::trap(&mut tuned, *trap), "{name}");
        }
        Action::Write { number, value } => {
            let told = hypervisor::write_csr(64, &mut second.memory.bytes, number, value);
            assert_eq!(told, tuned::write_csr(&mut tuned, number, value), "{name}");
        }
        Action::Queue { fence } => {
            let told = hypervisor::queue_fence(64, &mut second.memory.bytes, *fence);
            assert_eq!(told, tuned::queue_fence(&mut tuned, *fence), "{name}");
        }
        Action::Fill { words } => {
            let told = hypervisor::fill_context(64, &mut second.memory.bytes, words);
            assert_eq!(told, tuned::fill_context(&mut tuned, words), "{name}");
        }
        Action::List
        | Action::Lookup { .. }
        | Action::Lookups { .. }
        | Action::Blank { .. }
        | Action::Replay { .. } => return,
    }
    assert!(tuned::State::from(&second) == tuned, "{name}: the states differ at the end");
}

/// Tries the rows that the tuned version has.
pub fn check_rows(rows: &[Row]) {
    for row in rows.iter().filter(|row| row.has_tuned()) {
        check(&row.name, &row.state, calls::EID, row.action);
    }
}

/// A page that is only blanked must be the page after set.
pub fn check_blank(rows: &[Row]) {
    for row in rows {
        if let Action::Blank { address } = row.action {
            let (mut set, mut blanked) = (row.state.clone(), row.state.memory.clone());
            calls::call(&mut set, calls::EID, calls::SET, [address, 0, 0]);
            Readings::new(&row.state).blank(&mut blanked.bytes);
            assert!(set.memory == blanked, "{}: the pages differ", row.name);
        }
    }
}

/// Ours and the second program must print the same lines of each replay, a refusal in none of them.
pub fn check_replays(rows: &[Row]) {
    for row in rows {
        if let Action::Replay { recording } = row.action {
            let (mut ours, mut seconds) = (OurReplay::new(), SecondsReplay::new());
            ours.run(recording);
            seconds.run(recording);
            assert!(ours.lines == seconds.lines, "{}: the lines differ", row.name);
            let text = String::from_utf8_lossy(&ours.lines);
            assert!(!text.contains('-') && text.lines().count() == 100, "{}: {text}", row.name);
        }
    }
}

/// Tries each bit of the stored registers and of stvec, scause and stval, of which check 1 allows
/// some.
pub fn check_bits() {
    let probe = Action::Call { fid: calls::PROBE, args: [0; 3] };
    let memory = Memory { base: 0, bytes: Vec::new() };
    for hart in [Hart::fresh(15), registers::full_hart(Xlen::X64)] {
        let start = State { hart, memory: memory.clone(), table: Vec::new() };
        for &csr in csr::turn_order(Xlen::X64).iter().filter(|csr| csr.is_stored()) {
            for bit in 0..64 {
                let mut state = start.clone();
                state.hart.stored_mut(csr).into_iter().for_each(|word| *word ^= 1 << bit);
                check(&format!("{csr:?} with bit {bit} turned"), &state, calls::EID, probe);
            }
        }
        for bit in 0..64 {
            let mut states = [start.clone(), start.clone(), start.clone()];
            states[0].hart.stvec ^= 1 << bit;
            states[1].hart.scause ^= 1 << bit;
            states[2].hart.stval ^= 1 << bit;
            for state in states {
                check(&format!("bit {bit} of a trap's word"), &state, calls::EID, probe);
            }
        }
    }
}

/// Tries random states, each with a call, a stoppable run and a line change.
pub fn check_random() {
    for seed in 0..STATES {
        let rng = &mut Rng::new(seed);
        let state = gen::state(rng, Xlen::X64);
        let gen::Call { eid, fid, args } = gen::call(rng, &state);
        let name = format!("random state {seed}");
        check(&name, &state, eid, Action::Call { fid, args });
        let sync = if rng.one_in(8) { fid } else { 2 + rng.below(2) };
        let (a0, limit) = (gen::sync_argument(rng, Xlen::X64, sync), rng.below(100));
        check(&name, &state, eid, Action::Stoppable { fid: sync, a0, limit });
        let lines = gen::word(rng, Xlen::X64) & if rng.one_in(4) { u64::MAX } else { 0xFE };
        check(&name, &state, eid, Action::Lines { lines });
    }
}

/// Tries fence calls at width 32 on random states whose record is well made.
pub fn check_narrow() {
    for seed in 0..STATES {
        let rng = &mut Rng::new(seed);
        let state = gen::good_state(rng, Xlen::X32);
        let eid = gen::call(rng, &state).eid;
        for a0 in [calls::ALL, gen::sync_argument(rng, Xlen::X32, calls::SYNC_FENCE)] {
            let action = Action::Call { fid: calls::SYNC_FENCE, args: [a0, 0, 0] };
            check(&format!("random state {seed} at width 32"), &state, eid, action);
        }
    }
}

/// Tries random traps on random states, every other one with the page in memory and all features.
pub fn check_traps() {
    for seed in 0..2 * STATES {
        let rng = &mut Rng::new(seed);
        let mut second = match seed % 2 {
            0 => gen::good_trap_state(rng, Xlen::X64),
            _ => gen::trap_state(rng, Xlen::X64),
        };
        let mut tuned = tuned::State::from(&second);
        let trap = gen::trap(rng, Xlen::X64);
        let answer = trap::back(&mut second, trap);
        let tuned_answer = tuned::trap(&mut tuned, trap);
        assert_eq!(tuned::Answer::from(answer), tuned_answer, "random trap {seed}");
        assert!(tuned::State::from(&second) == tuned, "random trap {seed}: the states differ");
    }
}

/// Tries random requests of the hypervisor on random pages; now and then one is a byte short.
pub fn check_requests() {
    for seed in 0..STATES {
        let rng = &mut Rng::new(seed);
        let mut bytes = gen::request_page(rng, Xlen::X64);
        if rng.one_in(16) {
            bytes.pop();
        }
        let (hart, memory) = (Hart::fresh(15), Memory { base: 0, bytes });
        let mut second = State { hart, memory, table: Vec::new() };
        let mut tuned = tuned::State::from(&second);
        let request = gen::request(rng, Xlen::X64);
        let told = hypervisor::perform(64, &mut second.memory.bytes, &request);
        let tuned_told = match &request {
            Request::WriteCsr { number, value } => tuned::write_csr(&mut tuned, *number, *value),
            Request::QueueFence(fence) => tuned::queue_fence(&mut tuned, *fence),
            Request::FillContext(words) => tuned::fill_context(&mut tuned, words),
        };
        assert_eq!(told, tuned_told, "random request {seed}");
        assert!(tuned::State::from(&second) == tuned, "random request {seed}: the pages differ");
    }
}
