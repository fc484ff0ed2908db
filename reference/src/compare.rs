//! Feeds sessions to another bench program and to the one here, and compares what both print.

use std::io::{self, Read};
use std::path::PathBuf;
use std::process::{Child, Command, Stdio};
use std::sync::atomic::{AtomicU64, Ordering};
use std::sync::mpsc;
use std::thread;
use std::time::Duration;

use crate::bench::{output, Bench};
use crate::delivery::Delivery;
use crate::long::{Passage, LONG_SITUATIONS};
use crate::sessions::session;
use crate::situations::{Moment, SITUATIONS};
use crate::tally::Tally;

/// How long the other program may take for one session.
const LIMIT: Duration = Duration::from_secs(60);

/// How many sessions are played at once.
const AT_ONCE: usize = 2;

/// The most bytes of a line that a report shows; the bench's own lines are shorter.
const SHOWN: usize = 80;

/// What to compare.
#[derive(Clone, Debug)]
pub struct Settings {
    pub sessions: u64,
    pub seed: u64,
    /// The number of the first session.
    pub from: u64,
    /// The file for a session with a difference.
    pub file: Option<PathBuf>,
    /// The other program and its arguments.
    pub program: Vec<String>,
}

/// A session for which the other program prints something else.
#[derive(Clone, Debug)]
pub struct Difference {
    pub session: u64,
    pub input: Vec<u8>,
    pub here: Vec<u8>,
    pub there: Vec<u8>,
}

/// What a comparison came to.
#[derive(Default)]
pub struct Comparison {
    pub tally: Tally,
    /// How often each situation came up.
    pub situations: [u64; SITUATIONS.len()],
    /// How often each situation of long sessions came up.
    pub long: [u64; LONG_SITUATIONS.len()],
    pub difference: Option<Difference>,
}

impl Comparison {
    /// Every situation with how often it came up.
    pub fn situations(&self) -> impl Iterator<Item = (&'static str, u64)> + '_ {
        let names = SITUATIONS.iter().map(|(name, _)| *name);
        let names = names.chain(LONG_SITUATIONS.iter().map(|(name, _)| *name));
        names.zip(self.situations.iter().chain(&self.long).copied())
    }

    /// The situations that never came up.
    pub fn unmet(&self) -> Vec<&'static str> {
        let unmet = self.situations().filter(|(_, count)| *count == 0);
        unmet.map(|(name, _)| name).collect()
    }

    /// Both together; of two differences that of the first session.
    fn with(mut self, other: Comparison) -> Comparison {
        self.tally.add(&other.tally);
        for (count, more) in self.situations.iter_mut().zip(other.situations) {
            *count += more;
        }
        for (count, more) in self.long.iter_mut().zip(other.long) {
            *count += more;
        }
        let differences = [self.difference, other.difference].into_iter().flatten();
        self.difference = differences.min_by_key(|difference| difference.session);
        self
    }

    /// Counts a session's lines and situations.
    pub fn count(&mut self, input: &[u8], lines: &[u8], delivery: Delivery) {
        let passage = Passage::new(input, lines, delivery);
        for (count, (_, holds)) in self.long.iter_mut().zip(LONG_SITUATIONS) {
            *count += u64::from(holds(&passage));
        }
        let mut bench = Bench::new(input);
        let mut before = bench.tables().cloned();
        while let Some(line) = bench.next() {
            self.tally.count(line.subject, line.answer);
            if let (Some(before), Some(after)) = (&before, bench.tables()) {
                let moment = Moment {
                    before,
                    subject: line.subject,
                    answer: line.answer,
                    after,
                };
                for (count, (_, holds)) in self.situations.iter_mut().zip(SITUATIONS) {
                    *count += u64::from(holds(&moment));
                }
            }
            before = bench.tables().cloned();
        }
    }
}

/// Compares session by session up to the first difference. An error is the other program's failure
/// to run.
pub fn compare(settings: &Settings) -> io::Result<Comparison> {
    let next = AtomicU64::new(settings.from);
    let parts = thread::scope(|scope| {
        let part = || scope.spawn(|| compare_from(settings, &next));
        let workers: Vec<_> = (0..AT_ONCE).map(|_| part()).collect();
        let ended = workers.into_iter().map(|worker| worker.join());
        ended
            .map(|part| part.expect("a comparison ends by itself"))
            .collect::<io::Result<Vec<_>>>()
    })?;
    Ok(parts
        .into_iter()
        .fold(Comparison::default(), Comparison::with))
}

/// Compares the next session that no other worker has, and so on.
fn compare_from(settings: &Settings, next: &AtomicU64) -> io::Result<Comparison> {
    let mut comparison = Comparison::default();
    let behind = settings.from + settings.sessions;
    loop {
        let number = next.fetch_add(1, Ordering::SeqCst);
        if number >= behind {
            break;
        }
        let input = session(settings.seed, number);
        let here = output(&input).into_bytes();
        let delivery = Delivery::of(number);
        comparison.count(&input, &here, delivery);
        let there = other_output(&settings.program, &input, delivery)?;
        if here != there {
            // The sessions before this one have all begun, and no other begins.
            next.store(behind, Ordering::SeqCst);
            comparison.difference = Some(Difference {
                session: number,
                input,
                here,
                there,
            });
            break;
        }
    }
    Ok(comparison)
}

/// What the other program prints; where it does not end by itself, a line that says so follows.
fn other_output(program: &[String], input: &[u8], delivery: Delivery) -> io::Result<Vec<u8>> {
    let mut child = Command::new(&program[0])
        .args(&program[1..])
        .stdin(Stdio::piped())
        .stdout(Stdio::piped())
        .spawn()?;
    if let Some(stdin) = child.stdin.take() {
        let (input, process) = (input.to_vec(), child.id());
        thread::spawn(move || delivery.feed(stdin, &input, process));
    }
    let printed = printed(&mut child);
    let Ok(mut printed) = printed.recv_timeout(LIMIT) else {
        child.kill()?;
        child.wait()?;
        return Ok(b"(no end within the time limit)\n".to_vec());
    };
    if child.wait()?.code().is_none() {
        printed.extend(b"(ended by a signal)\n");
    }
    Ok(printed)
}

/// Everything the child prints, once it has closed its output.
fn printed(child: &mut Child) -> mpsc::Receiver<Vec<u8>> {
    let (sender, receiver) = mpsc::channel();
    if let Some(mut stdout) = child.stdout.take() {
        thread::spawn(move || {
            let mut printed = Vec::new();
            // What came before a fault of the pipe is compared as it is.
            let _ = stdout.read_to_end(&mut printed);
            let _ = sender.send(printed);
        });
    }
    receiver
}

impl Difference {
    /// The number, from 1, of the first line that differs, and that line of both.
    pub fn first_line(&self) -> (usize, String, String) {
        let mut here = self.here.split_inclusive(|byte| *byte == b'\n');
        let mut there = self.there.split_inclusive(|byte| *byte == b'\n');
        let mut number = 0;
        loop {
            number += 1;
            let (one, other) = (here.next(), there.next());
            if one != other || one.is_none() {
                return (number, shown(one), shown(other));
            }
        }
    }

    /// The line's event in words, where it is one.
    pub fn event(&self, number: usize) -> String {
        match Bench::new(&self.input).nth(number - 1) {
            Some(line) => format!("{:?}", line.subject),
            None => "behind the last event".to_string(),
        }
    }
}

/// A line in quotes, at most its first bytes, or that there is none.
fn shown(line: Option<&[u8]>) -> String {
    match line {
        Some(line) => format!(
            "{:?}",
            String::from_utf8_lossy(&line[..line.len().min(SHOWN)])
        ),
        None => "nothing".to_string(),
    }
}
