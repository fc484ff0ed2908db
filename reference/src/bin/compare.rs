//! `compare [--sessions N] [--seed S] [--from K] [--file FILE] -- PROGRAM ARGUMENTS`: feeds N
//! sessions of seed S, from number K on, to PROGRAM and to the bench here. Ends with 1 at a
//! difference, whose session goes to FILE; with 3 where there is none, but something that sessions
//! have to reach never came up; with 2 where it cannot run. The last line says which.
//!
//! `compare --write K [--seed S] --file FILE`: only writes the bytes of session K.

use std::path::PathBuf;
use std::process::ExitCode;

use reference::compare::{compare, Comparison, Difference, Settings};
use reference::sessions::session;
use reference::tally::UNREACHABLE;

/// About a minute, two at once, at 30 milliseconds a session.
const SESSIONS: u64 = 3000;

/// The status of a comparison that missed something.
const MISSED: u8 = 3;

const USAGE: &str = "usage: compare [--sessions N] [--seed S] [--from K] [--file FILE] \
                     -- PROGRAM ARGUMENTS\n       compare --write K [--seed S] --file FILE";

fn main() -> ExitCode {
    let Some((settings, write)) = settings(std::env::args().skip(1)) else {
        eprintln!("{USAGE}");
        return ExitCode::from(2);
    };
    let done = match write {
        Some(number) => write_session(&settings, number),
        None => compare_and_report(&settings),
    };
    done.unwrap_or_else(|error| {
        eprintln!("compare: {error}");
        ExitCode::from(2)
    })
}

/// The settings, and the number of the session to be written if one is.
fn settings(mut arguments: impl Iterator<Item = String>) -> Option<(Settings, Option<u64>)> {
    let mut settings = Settings {
        sessions: SESSIONS,
        seed: 1,
        from: 0,
        file: None,
        program: Vec::new(),
    };
    let mut write = None;
    while let Some(argument) = arguments.next() {
        match argument.as_str() {
            "--sessions" => settings.sessions = arguments.next()?.parse().ok()?,
            "--seed" => settings.seed = arguments.next()?.parse().ok()?,
            "--from" => settings.from = arguments.next()?.parse().ok()?,
            "--file" => settings.file = Some(PathBuf::from(arguments.next()?)),
            "--write" => write = Some(arguments.next()?.parse().ok()?),
            "--" => settings.program = arguments.by_ref().collect(),
            _ => return None,
        }
    }
    let complete = match write {
        Some(_) => settings.program.is_empty() && settings.file.is_some(),
        None => !settings.program.is_empty(),
    };
    complete.then_some((settings, write))
}

fn write_session(settings: &Settings, number: u64) -> std::io::Result<ExitCode> {
    let file = settings.file.clone().unwrap_or_default();
    std::fs::write(file, session(settings.seed, number))?;
    Ok(ExitCode::SUCCESS)
}

fn compare_and_report(settings: &Settings) -> std::io::Result<ExitCode> {
    let comparison = compare(settings)?;
    if let Some(difference) = &comparison.difference {
        report_difference(settings, difference)?;
        return Ok(ExitCode::FAILURE);
    }
    report_counts(&comparison);
    let numbers = (comparison.tally.missing(), "never came up");
    let others = (comparison.tally.unexpected(), "cannot come up and did");
    let unmet = comparison.unmet().into_iter().map(String::from).collect();
    let mut faults = 0;
    for (names, what) in [numbers, others, (unmet, "never came up")] {
        faults += names.len();
        for name in names {
            println!("{name}: {what}");
        }
    }
    let (sessions, seed, lines) = (settings.sessions, settings.seed, comparison.tally.lines());
    let compared = format!("{sessions} sessions of seed {seed}: {lines} lines, no difference");
    if faults > 0 {
        println!("{compared}, but not all is reached: {faults} lines above say what");
        return Ok(ExitCode::from(MISSED));
    }
    println!("{compared}, and all came up that sessions have to reach");
    Ok(ExitCode::SUCCESS)
}

fn report_counts(comparison: &Comparison) {
    println!("{}", comparison.tally);
    for (row, number, reason) in UNREACHABLE {
        println!("not from the bench: {row} {number}, {reason}");
    }
    for (name, count) in comparison.situations() {
        println!("{count:>8} {name}");
    }
}

fn report_difference(settings: &Settings, difference: &Difference) -> std::io::Result<()> {
    let (seed, number) = (settings.seed, difference.session);
    let name = format!("session-{seed}-{number}.bin");
    let file = settings.file.clone();
    let file = file.unwrap_or_else(|| std::env::temp_dir().join(name));
    std::fs::write(&file, &difference.input)?;
    let (line, here, there) = difference.first_line();
    println!("line {line} here:  {here}");
    println!("line {line} there: {there}");
    println!("it is for: {}", difference.event(line));
    println!(
        "difference at session {number} of seed {seed}, its bytes are in {}",
        file.display()
    );
    Ok(())
}
