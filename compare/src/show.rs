//! Inputs and outcomes as text.

use std::fmt::Write;

use second::trap::Trap;

use crate::input::{Action, Input, Outcome};
use crate::record;
use crate::replay::Feeding;
use crate::request::{Ask, Reply};
use crate::sides::Listing;

/// An input: what is asked, the record, memory and the table, without lines of zeros.
pub fn input(input: &Input) -> String {
    let mut text = String::new();
    let _ = writeln!(text, "input: {} by {:?}", action(&input.action), input.route);
    let _ = writeln!(text, "  record of {} words:", input.words.len());
    for (place, word) in input.words.iter().enumerate().filter(|(_, &word)| word != 0) {
        let _ = writeln!(text, "    {place:2} {:<11} {word:016x}", record::name(place));
    }
    let _ = writeln!(text, "  memory at {:#x}, {} bytes:", input.base, input.memory.len());
    bytes(&mut text, &input.memory);
    let _ = writeln!(text, "  table of {} words:", input.table.len());
    for (slot, words) in input.table.chunks(4).enumerate() {
        if words.iter().any(|&word| word != 0) {
            let _ = writeln!(text, "    slot {slot:3} {}", hex_words(words));
        }
    }
    text
}

/// What is asked for, with numbers in hexadecimal.
fn action(action: &Action) -> String {
    match *action {
        Action::Fresh { bits, features } => {
            format!("fresh, width {bits}, features {features:#x}")
        }
        Action::Call { eid, fid, args } => {
            format!("call, eid {eid:#x} fid {fid:#x} arguments {}", hex_words(&args))
        }
        Action::Stoppable { eid, fid, a0, limit } => {
            format!("stoppable call, eid {eid:#x} fid {fid:#x} a0 {a0:#x} limit {limit}")
        }
        Action::Lines { lines } => format!("line change to {lines:#x}"),
        Action::Trap(Trap { cause, tval, htval, htinst, gva }) => format!(
            "trap, cause {cause:#x} tval {tval:#x} htval {htval:#x} htinst {htinst:#x} gva {gva:#x}"
        ),
    }
}

/// Words in hexadecimal.
fn hex_words(words: &[u64]) -> String {
    words.iter().map(|word| format!("{word:016x}")).collect::<Vec<_>>().join(" ")
}

/// Bytes, 32 a line, without lines of zeros.
fn bytes(text: &mut String, bytes: &[u8]) {
    for (line, part) in bytes.chunks(32).enumerate() {
        if part.iter().any(|&byte| byte != 0) {
            let hex: String = part.iter().map(|byte| format!("{byte:02x}")).collect();
            let _ = writeln!(text, "    {:05x} {hex}", 32 * line);
        }
    }
}

/// An outcome: the answer, and what it has changed.
pub fn outcome(side: &str, input: &Input, outcome: &Outcome) -> String {
    let mut text = format!("{side}: code {}", outcome.code);
    let _ = writeln!(text, ", value, resumed, steps, finished, reports {:x?}", outcome.answer);
    let count = outcome.reports.len().min(2 * outcome.report_count());
    for report in outcome.reports[..count].chunks(2) {
        let _ = writeln!(text, "  report {report:x?}");
    }
    for (place, (old, new)) in input.words.iter().zip(&outcome.words).enumerate() {
        if old != new {
            let _ = writeln!(text, "  record {}: {old:016x} to {new:016x}", record::name(place));
        }
    }
    changes(&mut text, "memory", &input.memory, &outcome.memory);
    for (slot, (old, new)) in input.table.chunks(4).zip(outcome.table.chunks(4)).enumerate() {
        if old != new {
            let _ = writeln!(text, "  slot {slot}: {} to {}", hex_words(old), hex_words(new));
        }
    }
    text
}

/// The bytes that have changed, 8 a line.
fn changes(text: &mut String, what: &str, old: &[u8], new: &[u8]) {
    for (line, (old, new)) in old.chunks(8).zip(new.chunks(8)).enumerate() {
        if old != new {
            let _ = writeln!(text, "  {what} {:05x}: {old:02x?} to {new:02x?}", 8 * line);
        }
    }
}

/// A request, with its page without lines of zeros.
pub fn ask(ask: &Ask) -> String {
    let way = if ask.by_names { "names" } else { "slices" };
    let mut text = format!("input: {:x?} at width {} by {way}\n", ask.request, ask.bits);
    let _ = writeln!(text, "  page of {} bytes:", ask.page.len());
    bytes(&mut text, &ask.page);
    text
}

/// A reply to a request, and what it has changed.
pub fn reply(side: &str, ask: &Ask, reply: &Reply) -> String {
    let mut text = format!("{side}: {}, the rest kept: {}\n", reply.told, reply.kept);
    changes(&mut text, "page", &ask.page, &reply.page);
    text
}

/// A recording, with the places where it is cut.
pub fn feeding(feeding: &Feeding) -> String {
    let way = feeding.room.map_or("by the type".to_string(), |room| format!("in {room} bytes"));
    let mut text = format!("input: replay {way}, cut at {:?}\n", feeding.cuts);
    recording(&mut text, feeding.bytes);
    text
}

/// A recording, its lines of zeros left out.
pub fn recording(text: &mut String, recorded: &[u8]) {
    let _ = writeln!(text, "  recording of {} bytes:", recorded.len());
    bytes(text, recorded);
}

/// An image for the lister.
pub fn image(image: &[u8], room: usize) -> String {
    let mut text = format!("input: listing in {room} bytes of an image of {}:\n", image.len());
    bytes(&mut text, image);
    text
}

/// A listing.
pub fn listing(side: &str, listing: &Listing) -> String {
    let shown = &listing.out[..listing.length.min(listing.out.len())];
    format!(
        "{side}: {} bytes, the rest kept: {}\n{}\n",
        listing.length,
        listing.kept,
        String::from_utf8_lossy(shown)
    )
}

/// A number that is looked up.
pub fn lookup(bits: u64, number: u64) -> String {
    format!("input: lookup of {number:#x} at width {bits}\n")
}

/// The turn of a register, if there is one.
pub fn turn(side: &str, turn: Option<usize>) -> String {
    let text = turn.map_or("no register".to_string(), |turn| format!("turn {turn}"));
    format!("{side}: {text}\n")
}
