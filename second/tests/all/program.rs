//! The program itself: its subcommands and its exit status.

use std::io::{BufRead, BufReader, Read, Write};
use std::path::PathBuf;
use std::process::{Child, Command, Output, Stdio};

use second::csr::Csr;
use second::recording;
use second::registers;
use second::samples;
use second::xlen::Xlen;

use crate::common::*;

/// Runs the program with these arguments.
fn run(args: &[&str]) -> Output {
    Command::new(env!("CARGO_BIN_EXE_second")).args(args).output().unwrap()
}

/// A path for a test's own files.
fn own_path(test: &str) -> PathBuf {
    std::env::temp_dir().join(format!("second-{test}-{}", std::process::id()))
}

/// Starts the program with these arguments; all three streams are pipes.
fn start(args: &[&str]) -> Child {
    let mut command = Command::new(env!("CARGO_BIN_EXE_second"));
    command.args(args).stdin(Stdio::piped()).stdout(Stdio::piped()).stderr(Stdio::piped());
    command.spawn().unwrap()
}

/// Runs the program with these arguments and this input.
fn run_with_input(args: &[&str], input: &[u8]) -> Output {
    let mut child = start(args);
    // The program may end before it has read all.
    let _ = child.stdin.take().unwrap().write_all(input);
    child.wait_with_output().unwrap()
}

/// Wrong use prints the usage text to standard error, and the status is 2.
#[test]
fn wrong_use() {
    let wrong: [&[&str]; 9] = [
        &[],
        &["other"],
        &["registers", "x"],
        &["registers", "16"],
        &["lister"],
        &["lister", "a", "b"],
        &["replay", "a", "b"],
        &["recordings"],
        &["recordings", "a", "b"],
    ];
    for args in wrong {
        let output = run(args);
        assert_eq!(output.status.code(), Some(2));
        assert!(output.stdout.is_empty());
        assert!(output.stderr.starts_with(b"usage: second registers [32|64]\n"));
    }
}

/// The register report of each width comes out whole; without a width it is that of 64.
#[test]
fn registers_command() {
    let forms: [(&[&str], Xlen); 3] =
        [(&[], Xlen::X64), (&["64"], Xlen::X64), (&["32"], Xlen::X32)];
    for (width, xlen) in forms {
        let output = run(&[&["registers"], width].concat());
        assert_eq!(output.status.code(), Some(0));
        assert_eq!(output.stdout, registers::report(xlen).into_bytes());
    }
}

/// The lister reads a file; a missing file is status 1.
#[test]
fn lister_command() {
    let mut state = small_state();
    mark(&mut state, Csr::Hvip, 4);
    let path = own_path("lister");
    let name = path.to_str().unwrap();
    std::fs::write(&path, &state.memory.bytes).unwrap();
    let good = run(&["lister", name]);
    std::fs::write(&path, b"short").unwrap();
    let short = run(&["lister", name]);
    std::fs::remove_file(&path).unwrap();
    let missing = run(&["lister", name]);
    assert_eq!(good.stdout, b"csr 645 0000000000000004\ndirty 1 pending 0\n");
    assert_eq!(short.stdout, b"bad length\n");
    assert_eq!((good.status.code(), short.status.code()), (Some(0), Some(0)));
    assert_eq!(missing.status.code(), Some(1));
}

/// The samples are written to a directory, which is made; each file replays to its lines.
#[test]
fn recordings_command() {
    let directory = own_path("recordings");
    let inner = directory.join("inner");
    let output = run(&["recordings", inner.to_str().unwrap()]);
    assert_eq!((output.status.code(), output.stdout.len()), (Some(0), 0));
    for (name, contents) in samples::files() {
        assert!(std::fs::read(inner.join(&name)).unwrap() == contents, "{name}");
    }
    for sample in samples::all() {
        let recorded = inner.join(format!("{}.rec", sample.name));
        let replayed = run(&["replay", recorded.to_str().unwrap()]);
        let lines = std::fs::read(inner.join(format!("{}.txt", sample.name))).unwrap();
        assert_eq!((replayed.status.code(), replayed.stdout), (Some(0), lines));
    }
    let page = inner.join("lost-ticket.page");
    let listed = run(&["lister", page.to_str().unwrap()]);
    assert_eq!(listed.stdout, std::fs::read(inner.join("lost-ticket.page.txt")).unwrap());
    let below_a_file = page.join("x");
    assert_eq!(run(&["recordings", below_a_file.to_str().unwrap()]).status.code(), Some(1));
    std::fs::remove_dir_all(&directory).unwrap();
}

/// Without a file, or with `-`, standard input is replayed; an empty one prints nothing.
#[test]
fn replay_standard_input() {
    for sample in samples::all() {
        let lines = second::replay::replayed(&sample.bytes);
        for args in [&["replay"][..], &["replay", "-"]] {
            let output = run_with_input(args, &sample.bytes);
            assert_eq!((output.status.code(), &output.stdout), (Some(0), &lines));
            assert!(output.stderr.is_empty());
        }
    }
    let output = run_with_input(&["replay"], &[]);
    assert_eq!((output.status.code(), output.stdout.len()), (Some(0), 0));
}

/// A recording longer than a piece, good or with a bad record, prints what it prints as a whole.
#[test]
fn long_recordings() {
    let mut bytes = Vec::new();
    for number in 0..100 {
        bytes.extend(recording::write(number, &[number as u8; 4000]));
    }
    for damage in [None, Some(4014 * 50 + 4), Some(4)] {
        if let Some(place) = damage {
            bytes[place] ^= 0x80;
        }
        let output = run_with_input(&["replay"], &bytes);
        assert_eq!(output.stdout, second::replay::replayed(&bytes));
        assert_eq!(output.status.code(), Some(0));
    }
}

/// The lines of a part are printed before the next part comes, and `bad` before the input ends.
#[test]
fn replay_as_it_goes() {
    let mut child = start(&["replay"]);
    let mut input = child.stdin.take().unwrap();
    let mut output = BufReader::new(child.stdout.take().unwrap());
    for number in 1..5 {
        input.write_all(&recording::lines(2)).unwrap();
        input.flush().unwrap();
        let mut line = String::new();
        output.read_line(&mut line).unwrap();
        assert_eq!(line, format!("{number} 3 0 0 0\n"));
    }
    input.write_all(&recording::header(8, 9)).unwrap();
    input.flush().unwrap();
    let mut rest = String::new();
    output.read_to_string(&mut rest).unwrap();
    assert_eq!((rest.as_str(), child.wait().unwrap().code()), ("5 bad\n", Some(0)));
}

/// A file that is missing or cannot be read is told on standard error, with status 1.
#[test]
fn replay_errors() {
    let missing = own_path("missing");
    let directory = std::env::temp_dir();
    for path in [missing, directory] {
        let output = run(&["replay", path.to_str().unwrap()]);
        assert_eq!((output.status.code(), output.stdout.len()), (Some(1), 0));
        assert!(output.stderr.starts_with(b"second: "));
    }
}
