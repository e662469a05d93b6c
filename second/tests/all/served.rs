//! What the monitor makes of a page that requests have filled.

use std::collections::BTreeMap;
use std::ops::Range;

use second::calls::{self, ALL, EID, SYNC_CSR, SYNC_FENCE, SYNC_SRET};
use second::csr::{self, Csr};
use second::gen;
use second::hypervisor::{self, Fence, Request};
use second::rng::Rng;
use second::state::State;
use second::xlen::Xlen;

use crate::common::*;

/// Carries out a request on the state's page.
fn ask(state: &mut State, request: &Request) -> Result<u64, i64> {
    let parts = state.parts().unwrap();
    hypervisor::perform(bits(parts.hart.xlen), parts.page, request)
}

/// Registers that are written are synchronized: hvip, and vsip that follows it.
#[test]
fn registers() {
    for xlen in Xlen::BOTH {
        let mut state = small_state_at(xlen);
        assert_eq!(ask(&mut state, &Request::WriteCsr { number: 0x645, value: 0xFFFF }), Ok(0));
        assert_eq!(ask(&mut state, &Request::WriteCsr { number: 0x603, value: 4 }), Ok(0));
        assert!(dirty(&state, Csr::Hvip) && dirty(&state, Csr::Hideleg));
        assert_eq!(sync(&mut state, SYNC_CSR, ALL).code, 0);
        assert!(!dirty(&state, Csr::Hvip) && !dirty(&state, Csr::Hideleg));
        let words = [Csr::Hvip, Csr::Hideleg, Csr::Vsip].map(|csr| csr_word(&state, csr));
        assert_eq!((words, state.hart.hvip), ([0x444, 4, 2], 0x444));
    }
}

/// A fence of each type removes its slots, by the number that the request gives.
#[test]
fn fences() {
    let slots = [
        slot(false, 5, 9, 16, 99),
        slot(false, 5, 9, 99, 16),
        slot(false, 5, 8, 16, 16),
        slot(false, 6, 9, 16, 16),
        slot(true, 5, 9, 16, 16),
    ];
    let removed: [&[usize]; 8] = [
        &[1, 2, 3, 4],
        &[0, 1, 2, 3, 4],
        &[1, 2, 4],
        &[0, 1, 2, 4],
        &[0, 2, 4],
        &[0, 1, 2, 4],
        &[0],
        &[0, 1],
    ];
    for (kind, xlen) in (0..8).flat_map(|kind| Xlen::BOTH.map(|xlen| (kind, xlen))) {
        let mut state = state_with_slots_at(xlen, &slots);
        put_entry(&mut state, 0, pending_at(xlen, 6, 0, [99, 0], [0, 0]));
        let fence = fence_of(kind as u64, 0, [5, 9], [16, 1]);
        assert_eq!(ask(&mut state, &Request::QueueFence(fence)), Ok(1));
        assert_eq!(sync(&mut state, SYNC_FENCE, 1).code, 0);
        let left: Vec<bool> = (0..slots.len()).map(|k| !removed[kind].contains(&k)).collect();
        assert_eq!(used(&state), left, "type {kind}");
        assert!(get_entry(&state, 0).is_pending() && !get_entry(&state, 1).is_pending());
        assert_eq!(ask(&mut state, &Request::QueueFence(fence)), Ok(1));
    }
}

/// SRET loads X1 to X31 as they were given, and X0 stays 0.
#[test]
fn context() {
    for xlen in Xlen::BOTH {
        let mut state = small_state_at(xlen);
        let words: Vec<u64> = (0..32).map(|i| xlen.ones() - i).collect();
        assert_eq!(ask(&mut state, &Request::FillContext(words.clone())), Ok(0));
        assert!(calls::call(&mut state, EID, SYNC_SRET, [0; 3]).resumed);
        assert_eq!((state.hart.x[0], &state.hart.x[1..]), (0, &words[1..]));
    }
}

/// Whether a fence that was asked for names a slot, told without an entry.
fn names(fence: &Fence, slot: &[u64]) -> bool {
    let in_range = |page: u64| {
        let block = if fence.order < 64 { page >> fence.order } else { 0 };
        block.checked_sub(fence.page_number).is_some_and(|distance| distance < fence.page_count)
    };
    let vmid = slot[0] >> 16 & 0x3FFF == fence.vmid;
    let asid = slot[0] & 0xFFFF == fence.asid && slot[0] >> 62 & 1 == 0;
    let reached = match fence.kind {
        0 => in_range(slot[2]),
        1 => true,
        2 => vmid && in_range(slot[2]),
        3 | 5 => vmid,
        4 => vmid && in_range(slot[1]),
        6 => vmid && asid && in_range(slot[1]),
        _ => vmid && asid,
    };
    slot[0] >> 63 == 1 && reached
}

/// What a list of good requests asks for: the last value of each register, the fences that found
/// an entry, the last context.
#[derive(Default)]
struct Asked {
    values: BTreeMap<u64, u64>,
    fences: Vec<Fence>,
    context: Vec<u64>,
}

impl Asked {
    /// Makes random requests, good ones, of the state's page.
    fn random(rng: &mut Rng, state: &mut State) -> Asked {
        let mut asked = Asked::default();
        for _ in 0..rng.below(200) {
            let request = gen::good_request(rng, state.hart.xlen);
            match (ask(state, &request), request) {
                (Ok(0), Request::WriteCsr { number, value }) => {
                    asked.values.insert(number, value);
                }
                (Ok(0), Request::FillContext(words)) => asked.context = words,
                (Ok(entry), Request::QueueFence(fence)) => {
                    assert_eq!(entry, asked.fences.len() as u64);
                    asked.fences.push(fence);
                }
                told => {
                    assert_eq!(told.0, Err(-4));
                    assert_eq!(asked.fences.len(), state.hart.xlen.entry_count());
                }
            }
        }
        asked
    }

    /// The state after all of it, worked out without the page.
    fn served(&self, start: &State) -> State {
        let mut state = start.clone();
        for &csr in csr::turn_order(start.hart.xlen) {
            if let Some(&value) = self.values.get(&csr.number()) {
                write_told(&mut state.hart, csr, value);
            }
        }
        for slot in state.table.chunks_mut(4) {
            if self.fences.iter().any(|fence| names(fence, slot)) {
                slot.fill(0);
            }
        }
        state
    }
}

/// Any list of good requests, then FID 2 and FID 3 for all, then SRET: what was asked for is done.
#[test]
fn lists_of_requests() {
    let mut rng = Rng::new(42);
    for round in 0..1000 {
        let xlen = Xlen::BOTH[round % 2];
        let mut state = gen::good_state(&mut rng, xlen);
        let address = state.hart.page.unwrap();
        assert_eq!(calls::call(&mut state, EID, calls::SET, [address, 0, 0]).code, 0);
        let asked = Asked::random(&mut rng, &mut state);
        let expected = asked.served(&state);
        assert_eq!(sync(&mut state, SYNC_CSR, ALL).code, 0);
        assert_eq!(state.hart, expected.hart);
        assert_eq!(sync(&mut state, SYNC_FENCE, ALL).code, 0);
        assert_eq!(state.table, expected.table);
        assert!((0..xlen.entry_count()).all(|k| !get_entry(&state, k).is_pending()));
        assert!(state.page().unwrap()[0xF80..0x1000].iter().all(|&byte| byte == 0));
        assert!(calls::call(&mut state, EID, SYNC_SRET, [0; 3]).resumed);
        let words = if asked.context.is_empty() { vec![0; 32] } else { asked.context };
        assert_eq!((state.hart.x[0], &state.hart.x[1..]), (0, &words[1..]));
    }
}

/// The kind of a request, and the bytes that it may store to besides the dirty bits.
fn own_bytes(xlen: Xlen, request: &Request, told: Result<u64, i64>) -> (usize, Range<usize>) {
    let size = xlen.bytes();
    match (request, told) {
        (Request::WriteCsr { number, .. }, _) => {
            let at = 0x1000 + size * ((number & 0xC00) / 4 + (number & 0xFF)) as usize;
            (0, at..at + size)
        }
        (Request::QueueFence(_), Ok(entry)) => {
            let at = 0x800 + 4 * size * entry as usize;
            (1, at..at + 4 * size)
        }
        (Request::QueueFence(_), Err(_)) => (1, 0..0),
        (Request::FillContext(_), _) => (2, 0..32 * size),
    }
}

/// On random pages an accepted request changes its own bytes only, and a refusal none; each code
/// turns up often.
#[test]
fn random_requests() {
    for xlen in Xlen::BOTH {
        let mut rng = Rng::new(43);
        let mut seen: BTreeMap<(usize, i64), u32> = BTreeMap::new();
        for _ in 0..8000 {
            let start = gen::request_page(&mut rng, xlen);
            let request = gen::request(&mut rng, xlen);
            let mut page = start.clone();
            let told = hypervisor::perform(bits(xlen), &mut page, &request);
            let (kind, own) = own_bytes(xlen, &request, told);
            *seen.entry((kind, told.err().unwrap_or(0))).or_default() += 1;
            for k in (0..page.len()).filter(|&k| page[k] != start[k]) {
                let is_mark = kind == 0 && (0xF80..0x1000).contains(&k);
                assert!(told.is_ok() && (own.contains(&k) || is_mark), "{request:x?}");
            }
        }
        let expected = [(0, -3), (0, 0), (1, -4), (1, -3), (1, 0), (2, -3), (2, 0)];
        assert_eq!(seen.keys().copied().collect::<Vec<_>>(), expected);
        assert!(seen.values().all(|&times| times > 150), "{xlen:?} {seen:?}");
    }
}
