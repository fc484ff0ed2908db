//! `speed [--rounds N] [--only fields|bytes]`: runs the machine's steps N times on a prepared
//! session in memory, with the events by their fields and by their bytes, reading included, or in
//! one of these ways alone. It prints the events, and for each way a checksum of one round's
//! answers and the nanoseconds per event. Making the fresh tables of each round is not measured.
//!
//! `speed --write FILE`: only writes the session's bytes, so that another machine can be measured
//! on the same one.

use std::hint::black_box;
use std::process::ExitCode;
use std::time::{Duration, Instant};

use reference::answers::{number, value, Answer};
use reference::bench::BUFFER;
use reference::records::{read, Event, Record, HEADER};
use reference::sessions::measured;
use reference::tables::Tables;

const ROUNDS: u32 = 2000;

/// How the machine is given an event.
#[derive(Clone, Copy)]
enum Way {
    Fields,
    Bytes,
}

const BOTH: &[Way] = &[Way::Fields, Way::Bytes];

impl Way {
    fn word(self) -> &'static str {
        match self {
            Way::Fields => "fields",
            Way::Bytes => "bytes",
        }
    }
}

fn main() -> ExitCode {
    let arguments: Vec<String> = std::env::args().skip(1).collect();
    let arguments: Vec<&str> = arguments.iter().map(String::as_str).collect();
    let session = measured();
    if let ["--write", file] = arguments[..] {
        if let Err(error) = std::fs::write(file, &session) {
            eprintln!("speed: {error}");
            return ExitCode::FAILURE;
        }
        return ExitCode::SUCCESS;
    }
    let Some((rounds, ways)) = chosen(&arguments) else {
        eprintln!("usage: speed [--rounds N] [--only fields|bytes]\n       speed --write FILE");
        return ExitCode::from(2);
    };
    measure(&session, rounds, ways);
    ExitCode::SUCCESS
}

/// The rounds and the ways that the arguments ask for, if they are understood.
fn chosen(arguments: &[&str]) -> Option<(u32, &'static [Way])> {
    let (mut rounds, mut ways) = (ROUNDS, BOTH);
    for option in arguments.chunks(2) {
        match *option {
            ["--rounds", count] => rounds = count.parse().ok().filter(|rounds| *rounds > 0)?,
            ["--only", "fields"] => ways = &BOTH[..1],
            ["--only", "bytes"] => ways = &BOTH[1..],
            _ => return None,
        }
    }
    Some((rounds, ways))
}

/// A session's fresh tables, and the bytes and the fields of its events.
type Prepared<'session> = (Tables, Vec<(&'session [u8], Event<'session>)>);

fn prepare(session: &[u8]) -> Prepared<'_> {
    let mut tables = None;
    let mut events = Vec::new();
    let mut rest = session;
    while let (Ok(record), body) = read(rest) {
        let (bytes, behind) = rest.split_at(HEADER + body.len());
        match record {
            Record::Fresh { first, words } => tables = Some(Tables::fresh(first, words)),
            Record::Event(event) => events.push((bytes, event)),
            Record::End(_) => {}
        }
        rest = behind;
    }
    (tables.expect("the session begins with fresh"), events)
}

fn measure(session: &[u8], rounds: u32, ways: &[Way]) {
    let prepared = prepare(session);
    let mut times = vec![Duration::ZERO; ways.len()];
    for _ in 0..rounds {
        for (way, time) in ways.iter().zip(&mut times) {
            *time += round(*way, &prepared, |answer| {
                let _ = black_box(answer);
            });
        }
    }
    let events = prepared.1.len();
    let count = events as u128 * u128::from(rounds);
    println!("events: {count} ({events} in {rounds} rounds)");
    for (way, time) in ways.iter().zip(times) {
        let word = way.word();
        let sum = checksum(*way, &prepared);
        println!("checksum of the answers to events by their {word}: {sum:016x}");
        println!("nanoseconds per event by its {word}: {}", per(time, count));
    }
}

/// Runs all events once, hands over each answer, and tells the time.
fn round(way: Way, (tables, events): &Prepared, mut take: impl FnMut(Answer)) -> Duration {
    let mut buffer = [0; BUFFER];
    let mut machine = tables.clone();
    let begin = Instant::now();
    match way {
        Way::Fields => {
            for (_, event) in events {
                take(machine.step(*black_box(event), &mut buffer));
            }
        }
        Way::Bytes => {
            for (bytes, _) in events {
                if let Ok(Record::Event(event)) = read(black_box(bytes)).0 {
                    take(machine.step(event, &mut buffer));
                }
            }
        }
    }
    begin.elapsed()
}

/// The numbers and values of one round, each as a word that is mixed in by FNV-1a.
fn checksum(way: Way, prepared: &Prepared) -> u64 {
    let mut sum: u64 = 0xcbf2_9ce4_8422_2325;
    round(way, prepared, |answer| {
        for word in [number(answer) as u64, u64::from(value(answer))] {
            sum = (sum ^ word).wrapping_mul(0x0000_0100_0000_01b3);
        }
    });
    sum
}

/// Nanoseconds per event with a tenth.
fn per(time: Duration, count: u128) -> String {
    let tenths = time.as_nanos() * 10 / count;
    format!("{}.{}", tenths / 10, tenths % 10)
}
