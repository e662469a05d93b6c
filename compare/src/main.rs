//! Compares the proved library, through the wrapper, with the second program, at both widths, and
//! replay at width 64; the lookup of a register also by itself.
//!
//! A difference prints the input and how to run the case again, and ends with status 1.

mod case;
mod guard;
mod input;
mod kinds;
mod options;
mod record;
mod replay;
mod request;
mod scene;
mod show;
mod sides;

use std::panic::{self, AssertUnwindSafe};
use std::process::ExitCode;
use std::time::Instant;

use case::{Case, Counts, Difference};
use kinds::{Kind, KINDS};
use options::Options;
use second::rng::Rng;
use second::xlen::Xlen;

/// Runs all cases, or the one that is named.
fn main() -> ExitCode {
    let options = match options::read(std::env::args().skip(1)) {
        Ok(options) => options,
        Err(text) => {
            eprint!("{text}{}", options::USAGE);
            return ExitCode::from(2);
        }
    };
    let begin = Instant::now();
    for &xlen in &options.widths {
        let mut totals = Vec::new();
        for kind in &KINDS {
            match run_kind(kind, xlen, &options) {
                Some(0) => {}
                Some(compared) => totals.push(format!("{} {compared}", kind.name)),
                None => return ExitCode::from(1),
            }
        }
        println!("width {}, outcomes compared: {}", xlen.bits(), totals.join(", "));
    }
    println!("no difference; {} seconds", begin.elapsed().as_secs());
    ExitCode::SUCCESS
}

/// Runs the cases of a kind that are asked for; tells how many outcomes were compared, or none after
/// a difference, which is reported.
fn run_kind(kind: &Kind, xlen: Xlen, options: &Options) -> Option<u64> {
    let mut counts = Counts::default();
    if options.kind.as_ref().is_some_and(|name| name != kind.name) {
        return Some(0);
    }
    let cases = match &options.case {
        None => 0..(kind.cases)(xlen, options.times),
        Some((name, index)) if name == kind.name => *index..*index + 1,
        Some(_) => return Some(0),
    };
    let number = cases.end - cases.start;
    for index in cases {
        if let Err(difference) = run(kind, xlen, index, options, &mut counts) {
            report(kind, xlen, index, options, &difference);
            return None;
        }
    }
    if options.case.is_none() && number > 0 {
        println!("width {}, {}: {number} cases, {}", xlen.bits(), kind.name, codes(&counts));
    }
    Some(counts.compared)
}

/// Runs one case; a panic of either side is a difference.
fn run(
    kind: &Kind,
    xlen: Xlen,
    index: u64,
    options: &Options,
    counts: &mut Counts,
) -> Result<(), Difference> {
    let start = Rng::new(options.seed ^ kind.salt(xlen)).bits();
    let rng = Rng::new(start.wrapping_add(index.wrapping_mul(0xD134_2543_DE82_EF95)));
    let mut case = Case { rng, xlen, index, counts, is_shown: options.case.is_some() };
    let done = panic::catch_unwind(AssertUnwindSafe(|| (kind.run)(&mut case)));
    done.unwrap_or_else(|_| Err(Difference { text: "a panic\n".to_string() }))
}

/// Says what differs and how to see it again.
fn report(kind: &Kind, xlen: Xlen, index: u64, options: &Options, difference: &Difference) {
    let (bits, name, seed) = (xlen.bits(), kind.name, options.seed);
    print!("{}", difference.text);
    println!("DIFFERENCE at width {bits} in case {name}:{index} of seed {seed}");
    println!("again: compare --seed {seed} --width {bits} --case {name}:{index}");
}

/// How many outcomes were compared, and how often each code came.
fn codes(counts: &Counts) -> String {
    let mut text = format!("{} outcomes", counts.compared);
    for (code, times) in &counts.codes {
        text.push_str(&format!(", code {code}: {times}"));
    }
    text
}
