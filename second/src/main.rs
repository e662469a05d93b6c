//! The command line of the second program.

use std::fs::{self, File};
use std::io::{self, ErrorKind, Read, Write};
use std::path::Path;
use std::process::ExitCode;

use second::replay::Replay;
use second::xlen::Xlen;
use second::{lister, registers, samples};

/// What is printed on wrong use.
const USAGE: &str = "usage: second registers [32|64]
       second lister FILE
       second replay [FILE]
       second recordings DIR
";

/// The bytes of a recording that are read at once.
const PIECE: usize = 64 * 1024;

/// Runs the subcommand that the arguments name.
fn main() -> ExitCode {
    let args: Vec<String> = std::env::args().skip(1).collect();
    let words: Vec<&str> = args.iter().map(String::as_str).collect();
    let done = match words.as_slice() {
        ["registers"] | ["registers", "64"] => print(registers::report(Xlen::X64).as_bytes()),
        ["registers", "32"] => print(registers::report(Xlen::X32).as_bytes()),
        ["lister", file] => list(file),
        ["replay"] | ["replay", "-"] => replay("standard input", io::stdin().lock()),
        ["replay", file] => open(file).and_then(|input| replay(file, input)),
        ["recordings", directory] => write_samples(Path::new(directory)),
        _ => {
            eprint!("{USAGE}");
            return ExitCode::from(2);
        }
    };
    match done {
        Ok(()) => ExitCode::SUCCESS,
        Err(message) => {
            eprintln!("second: {message}");
            ExitCode::from(1)
        }
    }
}

/// What is said of an error with something that has this name.
fn message(name: &str, error: io::Error) -> String {
    format!("{name}: {error}")
}

/// Writes the bytes to standard output at once.
fn print(bytes: &[u8]) -> Result<(), String> {
    let mut output = io::stdout().lock();
    let written = output.write_all(bytes).and_then(|()| output.flush());
    written.map_err(|error| message("standard output", error))
}

/// Opens a file for reading.
fn open(name: &str) -> Result<File, String> {
    File::open(name).map_err(|error| message(name, error))
}

/// Prints the listing of the page in a file.
fn list(name: &str) -> Result<(), String> {
    let bytes = fs::read(name).map_err(|error| message(name, error))?;
    print(lister::list(&bytes).as_bytes())
}

/// Replays a recording piece by piece, and prints the lines of each piece before the next is read.
/// Nothing is read after a bad record.
fn replay(name: &str, mut input: impl Read) -> Result<(), String> {
    let mut replay = Replay::new();
    let mut piece = vec![0; PIECE];
    let mut lines = Vec::new();
    while !replay.is_bad() {
        let length = match input.read(&mut piece) {
            Ok(length) => length,
            Err(error) if error.kind() == ErrorKind::Interrupted => continue,
            Err(error) => return Err(message(name, error)),
        };
        if length == 0 {
            replay.finish(&mut lines);
            return print(&lines);
        }
        replay.feed(&piece[..length], &mut lines);
        print(&lines)?;
        lines.clear();
    }
    Ok(())
}

/// Writes the sample recordings and their lines to a directory, which is made if it is missing.
fn write_samples(directory: &Path) -> Result<(), String> {
    let told = |path: &Path, error| message(&path.display().to_string(), error);
    fs::create_dir_all(directory).map_err(|error| told(directory, error))?;
    for (name, contents) in samples::files() {
        let path = directory.join(name);
        fs::write(&path, contents).map_err(|error| told(&path, error))?;
    }
    Ok(())
}
