//! Fences that the hypervisor queues: the words of every type, limits, free entries, and the page
//! between two stores.

use second::fence::{self, Entry};
use second::gen;
use second::hypervisor::{self, Fence, Request, QUEUE_STORES};
use second::rng::Rng;
use second::xlen::Xlen;

use crate::common::*;

/// Config of each type at width 32 and at width 64, and whether Page_Number and Page_Count are
/// kept, for Order 9, VMID 5 and ASID 7.
const CONFIGS: [(u64, u64, bool); 8] = [
    (0x8009_0000, 0x8009_0000_0000_0000, true),
    (0x8100_0000, 0x8100_0000_0000_0000, false),
    (0x8209_0A00, 0x8209_0000_0005_0000, true),
    (0x8300_0A00, 0x8300_0000_0005_0000, false),
    (0x8409_0A00, 0x8409_0000_0005_0000, true),
    (0x8500_0A00, 0x8500_0000_0005_0000, false),
    (0x8609_0A07, 0x8609_0000_0005_0007, true),
    (0x8700_0A07, 0x8700_0000_0005_0007, false),
];

/// The same for the greatest fields, which are others at each width.
const GREATEST: [(u64, u64, bool); 8] = [
    (0x807F_0000, 0x807F_0000_0000_0000, true),
    (0x8100_0000, 0x8100_0000_0000_0000, false),
    (0x827F_FE00, 0x827F_0000_3FFF_0000, true),
    (0x8300_FE00, 0x8300_0000_3FFF_0000, false),
    (0x847F_FE00, 0x847F_0000_3FFF_0000, true),
    (0x8500_FE00, 0x8500_0000_3FFF_0000, false),
    (0x867F_FFFF, 0x867F_0000_3FFF_FFFF, true),
    (0x8700_FFFF, 0x8700_0000_3FFF_FFFF, false),
];

/// The greatest VMID and ASID of a width.
fn greatest_ids(xlen: Xlen) -> [u64; 2] {
    match xlen {
        Xlen::X32 => [127, 511],
        Xlen::X64 => [16_383, 65_535],
    }
}

/// The fence of a type with the greatest fields of a width.
fn greatest(xlen: Xlen, kind: u64) -> Fence {
    fence_of(kind, 127, greatest_ids(xlen), [xlen.ones(); 2])
}

/// Queues a fence.
fn queue(xlen: Xlen, page: &mut [u8], fence: Fence) -> Result<u64, i64> {
    hypervisor::queue_fence(bits(xlen), page, fence)
}

/// A page full of this byte, but that no entry is pending.
fn idle(xlen: Xlen, old: u8) -> Vec<u8> {
    let mut page = vec![old; xlen.page_size()];
    (0..xlen.entry_count()).for_each(|number| fence::clear_pending(xlen, &mut page, number));
    page
}

/// The page with these four words as its entry, byte by byte.
fn with_words(xlen: Xlen, page: &[u8], entry: usize, words: [u64; 4]) -> Vec<u8> {
    let mut page = page.to_vec();
    let size = xlen.bits() as usize / 8;
    for (k, byte) in page[0x800 + 4 * size * entry..][..4 * size].iter_mut().enumerate() {
        *byte = (words[k / size] >> (8 * (k % size))) as u8;
    }
    page
}

/// Asserts that each type of a fence leaves these words in entry 0 and no other byte changed.
fn assert_configs(xlen: Xlen, fence: impl Fn(u64) -> Fence, configs: [(u64, u64, bool); 8]) {
    for (kind, (narrow, wide, has_range)) in configs.into_iter().enumerate() {
        let config = if xlen == Xlen::X32 { narrow } else { wide };
        let fence = fence(kind as u64);
        let range = if has_range { [fence.page_number, fence.page_count] } else { [0; 2] };
        for old in [0, 0xFF, 0x5A] {
            let start = idle(xlen, old);
            let mut page = start.clone();
            assert_eq!(queue(xlen, &mut page, fence), Ok(0));
            let words = [config, range[0], 0, range[1]];
            assert_eq!(page, with_words(xlen, &start, 0, words), "{xlen:?} type {kind}");
        }
    }
}

/// Each type's words, bit for bit.
#[test]
fn configs() {
    for xlen in Xlen::BOTH {
        assert_configs(xlen, |kind| fence_of(kind, 9, [5, 7], [16, 3]), CONFIGS);
        assert_configs(xlen, |kind| greatest(xlen, kind), GREATEST);
    }
}

/// The reader decodes what was asked for: the fields that the type uses, and zero elsewhere.
#[test]
fn decoded() {
    for (xlen, kind) in Xlen::BOTH.into_iter().flat_map(|xlen| (0..8).map(move |k| (xlen, k))) {
        let mut page = idle(xlen, 0xFF);
        assert_eq!(queue(xlen, &mut page, fence_of(kind, 9, [5, 7], [16, 3])), Ok(0));
        let entry = Entry::load(xlen, &page, 0);
        assert!(entry.is_pending() && entry.is_readable());
        assert_eq!(entry.kind(), kind);
        let range = (entry.order(), entry.page_number, entry.page_count);
        assert_eq!(range, if kind % 2 == 0 { (9, 16, 3) } else { (0, 0, 0) });
        assert_eq!(entry.vmid(), if kind < 2 { 0 } else { 5 });
        assert_eq!(entry.asid(), if kind < 6 { 0 } else { 7 });
    }
}

/// One above each limit of Order, VMID and ASID is -3 for every type, also where the type doesn't
/// use the field.
#[test]
fn limits() {
    for (xlen, kind) in Xlen::BOTH.into_iter().flat_map(|xlen| (0..8).map(move |k| (xlen, k))) {
        let good = greatest(xlen, kind);
        let mut page = vec![0; xlen.page_size()];
        assert_eq!(queue(xlen, &mut page, good), Ok(0));
        let above = [
            Fence { order: 128, ..good },
            Fence { vmid: good.vmid + 1, ..good },
            Fence { asid: good.asid + 1, ..good },
            Fence { order: 1 << 32, ..good },
            Fence { vmid: 1 << 32, ..good },
            Fence { asid: 1 << 32 | 1, ..good },
        ];
        for fence in above {
            assert_refused(bits(xlen), &page, &Request::QueueFence(fence), -3);
        }
    }
}

/// At width 32 a range that a word can't hold is -3 for the types that have one; the others take
/// any range, and store zero for it.
#[test]
fn wide_ranges() {
    for (kind, (narrow, _, has_range)) in (0..).zip(CONFIGS) {
        let fence = fence_of(kind, 9, [5, 7], [16, 3]);
        let wide = [
            Fence { page_number: 1 << 32, ..fence },
            Fence { page_count: 1 << 32, ..fence },
            Fence { page_number: 1 << 63 | 1, ..fence },
            Fence { page_number: u64::MAX, page_count: u64::MAX, ..fence },
        ];
        for fence in wide {
            let start = idle(Xlen::X32, 0x5A);
            if has_range {
                assert_refused(32, &start, &Request::QueueFence(fence), -3);
            } else {
                let mut page = start.clone();
                assert_eq!(queue(Xlen::X32, &mut page, fence), Ok(0), "type {kind}");
                assert_eq!(page, with_words(Xlen::X32, &start, 0, [narrow, 0, 0, 0]));
            }
            let code = if has_range { -3 } else { -4 };
            let full = busy(Xlen::X32, |_| false);
            assert_refused(32, &full, &Request::QueueFence(fence), code);
            assert_eq!(queue(Xlen::X64, &mut idle(Xlen::X64, 0x5A), fence), Ok(0));
        }
    }
}

/// Types above 7, also such that only end in the bits of a known one.
#[test]
fn unknown_types() {
    for xlen in Xlen::BOTH {
        let page = vec![0; xlen.page_size()];
        for kind in (8..32).chain([1 << 32, 1 << 32 | 1, 1 << 63, u64::MAX]) {
            let fence = fence_of(kind, 0, [0, 0], [0, 0]);
            assert_refused(bits(xlen), &page, &Request::QueueFence(fence), -3);
        }
    }
}

/// A page with every entry pending but those for which the function says so.
fn busy(xlen: Xlen, is_free: impl Fn(usize) -> bool) -> Vec<u8> {
    let mut page = vec![0xFF; xlen.page_size()];
    for number in (0..xlen.entry_count()).filter(|&number| is_free(number)) {
        fence::clear_pending(xlen, &mut page, number);
    }
    page
}

/// The lowest free entry is taken, wherever it is and whatever is free above it.
#[test]
fn lowest_entry() {
    for (xlen, config) in [(Xlen::X32, 0x8200_0A00), (Xlen::X64, 0x8200_0000_0005_0000)] {
        for free in 0..xlen.entry_count() {
            for start in [busy(xlen, |n| n == free), busy(xlen, |n| n >= free)] {
                let mut page = start.clone();
                let fence = fence_of(2, 0, [5, 7], [16, 1]);
                assert_eq!(queue(xlen, &mut page, fence), Ok(free as u64));
                assert_eq!(page, with_words(xlen, &start, free, [config, 16, 0, 1]));
            }
        }
    }
}

/// With every entry pending a good fence is -4, a bad one -3; registers and the context are
/// written all the same.
#[test]
fn full_page() {
    for xlen in Xlen::BOTH {
        let page = busy(xlen, |_| false);
        for kind in 0..8 {
            let good = greatest(xlen, kind);
            assert_refused(bits(xlen), &page, &Request::QueueFence(good), -4);
            let bad = Fence { order: 128, ..good };
            assert_refused(bits(xlen), &page, &Request::QueueFence(bad), -3);
            let bad = Fence { kind: kind + 8, ..good };
            assert_refused(bits(xlen), &page, &Request::QueueFence(bad), -3);
            assert_refused(bits(xlen), &page[1..], &Request::QueueFence(good), -1);
        }
        assert_eq!(hypervisor::write_csr(bits(xlen), &mut page.clone(), 0x645, 4), Ok(0));
        assert_eq!(hypervisor::fill_context(bits(xlen), &mut page.clone(), &[1; 32]), Ok(0));
    }
}

/// Fences fill a page from entry 0 on; the one after the last is -4, and an entry that is done
/// is taken again.
#[test]
fn until_full() {
    for (xlen, count) in [(Xlen::X32, 120), (Xlen::X64, 60)] {
        let mut page = vec![0; xlen.page_size()];
        for number in 0..count {
            let fence = fence_of(number % 8, 0, [5, 7], [number, 1]);
            assert_eq!(queue(xlen, &mut page, fence), Ok(number));
        }
        let fence = fence_of(1, 0, [0, 0], [0, 0]);
        assert_eq!(queue(xlen, &mut page, fence), Err(-4));
        for done in [count - 1, 0, 17] {
            fence::clear_pending(xlen, &mut page, done as usize);
            assert_eq!(queue(xlen, &mut page, fence), Ok(done));
            assert_eq!(queue(xlen, &mut page, fence), Err(-4));
        }
    }
}

/// The page after each of the four stores, by hand: Page_Number, Page_Count, word 2, Config.
#[test]
fn stores() {
    let old = 0x7A;
    for (xlen, config) in [(Xlen::X32, 0x8209_0A00), (Xlen::X64, 0x8209_0000_0005_0000)] {
        let start = vec![old; xlen.page_size()];
        let word = xlen.ones() / 0xFF * u64::from(old);
        let steps = [
            [word, word, word, word],
            [word, 16, word, word],
            [word, 16, word, 3],
            [word, 16, 0, 3],
            [config, 16, 0, 3],
        ];
        for (n, words) in steps.into_iter().enumerate() {
            let mut page = start.clone();
            let fence = fence_of(2, 9, [5, 0], [16, 3]);
            assert_eq!(hypervisor::queue_first_stores(bits(xlen), &mut page, fence, n), Ok(0));
            assert_eq!(page, with_words(xlen, &start, 0, words), "{n} stores");
        }
    }
}

/// On random pages: no entry becomes pending before the last store, which makes the whole request.
#[test]
fn pending_comes_last() {
    let mut rng = Rng::new(41);
    let mut queued = 0;
    for round in 0..2000 {
        let xlen = Xlen::BOTH[round % 2];
        let start = gen::request_page(&mut rng, xlen);
        let fence = gen::fence(&mut rng, xlen);
        let mut whole = start.clone();
        let told = queue(xlen, &mut whole, fence);
        for n in 0..=QUEUE_STORES {
            let mut page = start.clone();
            assert_eq!(hypervisor::queue_first_stores(bits(xlen), &mut page, fence, n), told);
            assert!(n < QUEUE_STORES || page == whole);
            let pending = |page: &[u8], k: usize| Entry::load(xlen, page, k).is_pending();
            for k in 0..xlen.entry_count() {
                let is_new = n == QUEUE_STORES && told == Ok(k as u64);
                assert_eq!(pending(&page, k), pending(&start, k) || is_new);
            }
        }
        queued += u32::from(told.is_ok());
    }
    assert!(queued > 500, "{queued}");
}
