//! Measures the proved library, through its C functions, beside the second program and beside a
//! tuned version of it: the same inputs in one run, medians of many repetitions, as a table in
//! Markdown.
//!
//! One process's times depend on where its memory happens to lie, so the rows are measured in
//! several processes, and the table has the median of theirs with the least and greatest ratio.
//!
//! `bench rows` prints the rows' names, `bench times` one process's times, and
//! `bench ROW SIDE TIMES` only runs one row's action so many times, for a profiler. `bench replay MB`
//! measures a recording of so many megabytes.

mod cases;
mod long;
mod measure;
mod replays;
mod same;
mod sides;
mod tuned;

use std::process::{Command, ExitCode};

use cases::Row;
use measure::Times;

/// How many processes measure all rows.
const PROCESSES: usize = 9;

/// The times on a line that [`print_times`] printed.
fn parse(line: &str) -> Option<Times> {
    let mut words = line.split(' ');
    let (ours, second, tuned) = (words.next()?, words.next()?, words.next()?);
    let tuned = if tuned == "-" { None } else { Some(tuned.parse().ok()?) };
    Some(Times { ours: ours.parse().ok()?, second: second.parse().ok()?, tuned })
}

/// The times of all rows in a process of their own.
fn times_of_process() -> Option<Vec<Times>> {
    let program = std::env::current_exe().ok()?;
    let output = Command::new(program).arg("times").output().ok()?;
    let text = String::from_utf8(output.stdout).ok().filter(|_| output.status.success())?;
    text.lines().map(parse).collect()
}

/// The middle one of some numbers, with the least and the greatest.
fn spread(mut numbers: Vec<f64>) -> (f64, f64, f64) {
    numbers.sort_by(f64::total_cmp);
    (numbers[numbers.len() / 2], numbers[0], numbers[numbers.len() - 1])
}

/// Measures in several processes and prints the table.
fn print_table(rows: &[Row]) -> ExitCode {
    same::check_rows(rows);
    same::check_blank(rows);
    same::check_replays(rows);
    same::check_bits();
    same::check_random();
    same::check_narrow();
    same::check_traps();
    same::check_requests();
    let mut processes = Vec::new();
    for _ in 0..PROCESSES {
        match times_of_process() {
            Some(times) if times.len() == rows.len() => processes.push(times),
            _ => return ExitCode::from(1),
        }
    }
    println!("Medians of {PROCESSES} processes, each the median of at least");
    println!("{} repetitions of {} calls.", measure::REPETITIONS, measure::BATCH);
    println!("Ours goes through the C boundary: each call but a listing, a lookup and a request");
    println!("of the hypervisor takes a block of 68 words apart and puts it back. The tuned");
    println!(
        "version changes its record in place, has of width 32 the fence call only, no lister,"
    );
    println!(
        "no lookup by itself, and neither reports nor counts dropped bits; at width 32 it does"
    );
    println!("not look whether the record is well made. Where the second program only");
    println!("fills and stores, it checks nothing and has the readings before. A replay is begun,");
    println!("fed with 100 records at once and told the end; ours crosses the C boundary once for");
    println!("some 80 lines.\n");
    print!("| Call | Ours, ns | Second, ns | Ours / second | least to greatest ");
    println!("| Tuned, ns | Ours / tuned |");
    println!("|---|---:|---:|---:|---:|---:|---:|");
    for (number, row) in rows.iter().enumerate() {
        let times: Vec<Times> = processes.iter().map(|times| times[number]).collect();
        print_row(&row.name, &times);
    }
    ExitCode::SUCCESS
}

/// Prints one line of the table, from the times of all processes.
fn print_row(name: &str, times: &[Times]) {
    let ours = spread(times.iter().map(|t| t.ours).collect()).0;
    let second = spread(times.iter().map(|t| t.second).collect()).0;
    let (ratio, least, most) = spread(times.iter().map(|t| t.ours / t.second).collect());
    print!("| {name} | {ours:.0} | {second:.0} | {ratio:.2} | {least:.2} to {most:.2} |");
    let tuned: Vec<f64> = times.iter().filter_map(|t| t.tuned).collect();
    if tuned.is_empty() {
        println!(" - | - |");
        return;
    }
    let ratios = times.iter().filter_map(|t| Some(t.ours / t.tuned?)).collect();
    println!(" {:.0} | {:.2} |", spread(tuned).0, spread(ratios).0);
}

/// Prints the times of each row, a line each.
fn print_times(rows: &[Row]) -> ExitCode {
    same::check_rows(rows);
    for row in rows {
        if !measure::same_code(row) {
            eprintln!("the codes of {} differ", row.name);
            return ExitCode::from(1);
        }
        let Times { ours, second, tuned } = measure::all(row);
        let tuned = tuned.map_or("-".to_string(), |tuned| tuned.to_string());
        println!("{ours} {second} {tuned}");
    }
    ExitCode::SUCCESS
}

/// Prints the table, or does one of the parts.
fn main() -> ExitCode {
    let rows = cases::rows();
    let args: Vec<String> = std::env::args().skip(1).collect();
    let words: Vec<&str> = args.iter().map(String::as_str).collect();
    match words.as_slice() {
        [] => print_table(&rows),
        ["times"] => print_times(&rows),
        ["rows"] => {
            rows.iter().for_each(|row| println!("{}", row.name));
            ExitCode::SUCCESS
        }
        ["replay", megabytes] => match megabytes.parse() {
            Ok(megabytes) if megabytes > 0 => long::print_row(megabytes),
            _ => ExitCode::from(2),
        },
        [row, side @ ("ours" | "second" | "tuned"), times] => {
            match (row.parse::<usize>(), times.parse()) {
                (Ok(row), Ok(times)) if row < rows.len() => {
                    measure::repeat(&rows[row], side, times);
                    ExitCode::SUCCESS
                }
                _ => ExitCode::from(2),
            }
        }
        _ => ExitCode::from(2),
    }
}
