//! The hypervisor's half of the page, by hand.

use second::calls::{ALL, SYNC_CSR, SYNC_FENCE, SYNC_SRET};
use second::csr::{self, Csr};
use second::fence::{self, Entry};
use second::hypervisor::{Fence, Request};
use second::page;

use super::tickets::{at, call, fact};
use super::Result;
use crate::case::{Case, Difference};
use crate::request::{Ask, Reply};
use crate::scene::*;

/// A request on a page of the case's width with the value or code that it must give, by both ways
/// to the library; a refusal must leave the page.
fn ask(
    case: &mut Case,
    page: &[u8],
    request: &Request,
    told: i64,
) -> std::result::Result<Reply, Difference> {
    let bits = case.xlen.bits().into();
    let ask = Ask { bits, page: page.to_vec(), request: request.clone(), by_names: true };
    case.expect_request(&ask, told)?;
    case.expect_request(&Ask { by_names: false, ..ask }, told)
}

/// A request to queue a fence with these fields.
fn queue([kind, order, vmid, asid, page_number, page_count]: Fields) -> Request {
    Request::QueueFence(Fence { kind, order, vmid, asid, page_number, page_count })
}

/// A page full of this byte.
fn full_of(case: &Case, byte: u8) -> Vec<u8> {
    vec![byte; case.xlen.page_size()]
}

/// A page of ones in which these entries are free.
fn busy(case: &Case, free: &[usize]) -> Vec<u8> {
    let mut page = full_of(case, 0xFF);
    free.iter().for_each(|&number| fence::clear_pending(case.xlen, &mut page, number));
    page
}

/// hip: the word at 0x1A20, or at 0x1510, and bit 4 of 0xFA8, and nothing else; likewise hgeip, at
/// 0x2890 or 0x1C48 and bit 2 of 0xFE2, though it ignores writes.
pub fn places(case: &mut Case) -> Result {
    let places = [
        (0x644, at(case, 0x1510, 0x1A20), (0xFA8, 0x10)),
        (0xE12, at(case, 0x1C48, 0x2890), (0xFE2, 4)),
    ];
    for (number, word, (byte, bit)) in places {
        for old in [0, 0xFF, 0x5A] {
            let mut expected = full_of(case, old);
            expected[word..word + case.xlen.bytes()].fill(0x21);
            expected[byte] |= bit;
            let value = case.xlen.ones() / 0xFF * 0x21;
            let page = full_of(case, old);
            let reply = ask(case, &page, &Request::WriteCsr { number, value }, 0)?;
            fact(case, reply.page == expected, "the word and the bit")?;
        }
    }
    Ok(())
}

/// Every register of the width can be written; other numbers are -3, all-ones among them, and at
/// width 32 a value that does not fit.
pub fn numbers(case: &mut Case) -> Result {
    let page = full_of(case, 0);
    for number in (0..0x1000).chain([0x1645, 0x645 | 1 << 32, 0xFFFF_FFFF, ALL]) {
        let is_register = csr::turn_order(case.xlen).iter().any(|csr| csr.number() == number);
        let told = if is_register { 0 } else { -3 };
        ask(case, &page, &Request::WriteCsr { number, value: 0 }, told)?;
    }
    for number in [0x615, 0x61A] {
        ask(case, &page, &Request::WriteCsr { number, value: 0 }, at(case, 0, -3))?;
    }
    for value in [1 << 32, 4 | 1 << 63, ALL] {
        ask(case, &page, &Request::WriteCsr { number: 0x645, value }, at(case, -3, 0))?;
    }
    Ok(())
}

/// Table 5: Config of each type at width 32, for Order 9, VMID 5 and ASID 7 and for the greatest
/// fields.
const CONFIGS_32: [[u64; 2]; 8] = [
    [0x8009_0000, 0x807F_0000],
    [0x8100_0000, 0x8100_0000],
    [0x8209_0A00, 0x827F_FE00],
    [0x8300_0A00, 0x8300_FE00],
    [0x8409_0A00, 0x847F_FE00],
    [0x8500_0A00, 0x8500_FE00],
    [0x8609_0A07, 0x867F_FFFF],
    [0x8700_0A07, 0x8700_FFFF],
];

/// The same at width 64.
const CONFIGS_64: [[u64; 2]; 8] = [
    [0x8009_0000_0000_0000, 0x807F_0000_0000_0000],
    [0x8100_0000_0000_0000, 0x8100_0000_0000_0000],
    [0x8209_0000_0005_0000, 0x827F_0000_3FFF_0000],
    [0x8300_0000_0005_0000, 0x8300_0000_3FFF_0000],
    [0x8409_0000_0005_0000, 0x847F_0000_3FFF_0000],
    [0x8500_0000_0005_0000, 0x8500_0000_3FFF_0000],
    [0x8609_0000_0005_0007, 0x867F_0000_3FFF_FFFF],
    [0x8700_0000_0005_0007, 0x8700_0000_3FFF_FFFF],
];

/// The words of each type's entry, bit for bit; the types that name no range have zero in its
/// words.
pub fn configs(case: &mut Case) -> Result {
    let (vmid, asid, ones) = at(case, (127, 511, 0xFFFF_FFFF), (16_383, 65_535, ALL));
    for (kind, configs) in (0..).zip(at(case, CONFIGS_32, CONFIGS_64)) {
        let rows = [[kind, 9, 5, 7, 16, 3], [kind, 127, vmid, asid, ones, ones]];
        for (fields, config) in rows.into_iter().zip(configs) {
            let has_range = kind % 2 == 0;
            let [page_number, page_count] = [4, 5].map(|k| if has_range { fields[k] } else { 0 });
            let start = busy(case, &[7, 9]);
            let reply = ask(case, &start, &queue(fields), 7)?;
            let entry = Entry { xlen: case.xlen, config, page_number, reserved: 0, page_count };
            let mut expected = start;
            entry.store(&mut expected, 7);
            fact(case, reply.page == expected, "the words of the entry")?;
        }
    }
    Ok(())
}

/// One above each limit of Order, VMID and ASID is -3 for every type, and so is a type above 7.
pub fn limits(case: &mut Case) -> Result {
    let (vmid, asid) = at(case, (127, 511), (16_383, 65_535));
    let page = full_of(case, 0);
    for kind in 0..8 {
        let most = [kind, 127, vmid, asid, 0xFFFF_FFFF, 0xFFFF_FFFF];
        ask(case, &page, &queue(most), 0)?;
        for field in [1, 2, 3] {
            for above in [most[field] + 1, most[field] | 1 << 32, ALL] {
                let mut fields = most;
                fields[field] = above;
                ask(case, &page, &queue(fields), -3)?;
            }
        }
    }
    for kind in [8, 15, 16, 1 << 32, ALL] {
        ask(case, &page, &queue([kind, 0, 0, 0, 0, 0]), -3)?;
    }
    Ok(())
}

/// At width 32 a range that does not fit is -3 for the types that have one, before -4; the others
/// do not look at it, at either width, and have zero in its words.
pub fn wide_ranges(case: &mut Case) -> Result {
    let (start, full) = (busy(case, &[7]), busy(case, &[]));
    for (kind, [config, _]) in (0..).zip(at(case, CONFIGS_32, CONFIGS_64)) {
        for [page_number, page_count] in [[1 << 32, 3], [16, 1 << 32], [16 | 1 << 63, ALL]] {
            let request = queue([kind, 9, 5, 7, page_number, page_count]);
            let has_range = kind % 2 == 0;
            let is_bad = has_range && at(case, true, false);
            let reply = ask(case, &start, &request, if is_bad { -3 } else { 7 })?;
            ask(case, &full, &request, if is_bad { -3 } else { -4 })?;
            if !has_range {
                let xlen = case.xlen;
                let entry = Entry { xlen, config, page_number: 0, reserved: 0, page_count: 0 };
                let mut expected = start.clone();
                entry.store(&mut expected, 7);
                fact(case, reply.page == expected, "zero in the words of the range")?;
            }
        }
    }
    Ok(())
}

/// The lowest free entry is taken, each in turn; with none free a good fence is -4, a bad one -3.
pub fn free_entries(case: &mut Case) -> Result {
    let last = at(case, 119, 59);
    for free in 0..=last {
        let good = queue([2, 0, 5, 0, 16, 1]);
        ask(case, &busy(case, &[free]), &good, free as i64)?;
        ask(case, &busy(case, &[last, free]), &good, free as i64)?;
    }
    let page = busy(case, &[]);
    for kind in 0..8 {
        ask(case, &page, &queue([kind, 0, 5, 0, 16, 1]), -4)?;
        ask(case, &page, &queue([kind, 128, 5, 0, 16, 1]), -3)?;
        ask(case, &page, &queue([kind + 8, 0, 5, 0, 16, 1]), -3)?;
    }
    Ok(())
}

/// Table 6: zero, and X1 to X31 in their places; the bytes after them stay. Other numbers of words
/// are -3, and at width 32 a word that does not fit, but for the first, which is not looked at.
pub fn context(case: &mut Case) -> Result {
    let size = case.xlen.bytes();
    let mut words: Vec<u64> = (0..32).map(|i| case.xlen.ones() / 0xFF * i).collect();
    words[0] = ALL;
    let page = full_of(case, 0x5A);
    let mut expected = page.clone();
    expected[..32 * size].iter_mut().enumerate().for_each(|(k, byte)| *byte = (k / size) as u8);
    let reply = ask(case, &page, &Request::FillContext(words.clone()), 0)?;
    fact(case, reply.page == expected, "the context")?;
    for i in 1..32 {
        let mut wide = words.clone();
        wide[i] |= 1 << 32;
        ask(case, &page, &Request::FillContext(wide), at(case, -3, 0))?;
    }
    for length in [0, 1, 31, 33, 64] {
        ask(case, &page, &Request::FillContext(vec![1; length]), -3)?;
    }
    Ok(())
}

/// A page of another length and a width that is none are -1, before all else.
pub fn pages(case: &mut Case) -> Result {
    let requests = [
        Request::WriteCsr { number: 0x645, value: 4 },
        Request::WriteCsr { number: 0x344, value: ALL },
        queue([2, 0, 5, 0, 16, 1]),
        queue([8, 128, ALL, ALL, ALL, ALL]),
        Request::FillContext(vec![1; 32]),
        Request::FillContext(Vec::new()),
    ];
    let size = case.xlen.page_size();
    for request in requests {
        for length in [0, 1, 4096, size - 1, size + 1, at(case, 12_288, 8192), 24_576] {
            ask(case, &vec![0xFF; length], &request, -1)?;
        }
        let bits = u64::from(case.xlen.bits());
        for bits in [0, 1, bits - 1, bits + 1, 96 - bits, 128, bits | 1 << 32, ALL] {
            let page = full_of(case, 0);
            let ask = Ask { bits, page, request: request.clone(), by_names: false };
            case.expect_request(&ask, -1)?;
        }
    }
    Ok(())
}

/// What the requests ask for is what the calls do: hvip's value, the slots of a fence, X1 to X31.
pub fn carried_out(case: &mut Case) -> Result {
    let mut state = small(case.xlen, &[slot(false, 5, 0, 1, 16), slot(false, 6, 0, 1, 16)]);
    for (request, told) in [
        (Request::WriteCsr { number: 0x645, value: 0xFFFF }, 0),
        (queue([2, 0, 5, 99, 16, 1]), 0),
        (queue([7, 0, 9, 9, 16, 1]), 1),
        (Request::FillContext((100..132).collect()), 0),
    ] {
        state.memory.bytes = ask(case, &state.memory.bytes, &request, told)?.page;
    }
    let end = call(case, &state, SYNC_CSR, [0x645, 0, 0], 0)?;
    fact(case, end.words[3] == 0x444 && !page::is_dirty(&end.memory, Csr::Hvip), "hvip")?;
    let end = call(case, &state, SYNC_FENCE, [0, 0, 0], 0)?;
    fact(case, used(&end.table) == [false, true], "the slots that are left")?;
    let pending = [0, 1].map(|number| Entry::load(case.xlen, &end.memory, number).is_pending());
    fact(case, pending == [false, true], "the entry that is done")?;
    let end = call(case, &state, SYNC_SRET, [0; 3], 0)?;
    let x: Vec<u64> = std::iter::once(0).chain(101..132).collect();
    fact(case, end.words[30..62] == x, "the general registers")?;
    fact(case, used(&end.table) == [false, true] && end.words[3] == 0x444, "all of it by SRET")
}
