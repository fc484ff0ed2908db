//! Plays the records of standard input by the rules of the bench program and prints its lines:
//! `session records` hands each record to the library as it is, `session fields` takes it apart
//! here. Standard error gets the bytes of every end, and at last what the tables hold.

use std::io::{self, Read, Write};

use gustlantern::{Refusal, Tables, END_BYTES, OBJECTS, SLOTS};

const HEAD: usize = 4;
const LONGEST_BODY: usize = 126;
const FRESH: u16 = 0x0100;
const START: u16 = 0x0101;
const CALL: u16 = 0x0102;
const RELEASE: u16 = 0x0103;
const COMMIT: u16 = 0x0104;
const ROLLBACK: u16 = 0x0105;

type Answer = Result<u32, Refusal>;
type Player = fn(&mut Tables, &[u8], &mut [u8]) -> Answer;

/// The kind and the body of the first record, where its frame is whole.
fn frame(input: &[u8]) -> Option<(u16, &[u8])> {
    let (head, rest) = input.split_at_checked(HEAD)?;
    let length = usize::from(u16::from_le_bytes([head[0], head[1]]));
    let kind = u16::from_le_bytes([head[2], head[3]]);
    (length <= LONGEST_BODY).then_some((kind, rest.get(..length)?))
}

fn fresh(input: &[u8]) -> Option<Tables> {
    let (FRESH, body) = frame(input)? else {
        return None;
    };
    let fours = body
        .chunks(4)
        .map(|four| four.try_into().map(u32::from_le_bytes));
    let words: Vec<u32> = fours.collect::<Result<_, _>>().ok()?;
    let (first, given) = words.split_first()?;
    Some(Tables::fresh(*first, given.try_into().ok()?))
}

fn by_record(tables: &mut Tables, input: &[u8], ends: &mut [u8]) -> Answer {
    tables.step(input, ends)
}

fn by_fields(tables: &mut Tables, input: &[u8], ends: &mut [u8]) -> Answer {
    let word = u32::from_le_bytes;
    match frame(input) {
        Some((START, &[slot, n, ref list @ ..])) if list.len() == 2 * usize::from(n) => {
            tables.start(slot, list).map(|()| 0)
        }
        Some((CALL, &[slot, object, kind, 0, a, b, c, d])) => {
            tables.call(slot, object, kind, word([a, b, c, d]))
        }
        Some((RELEASE, &[slot, object])) => tables.release(slot, object).map(|()| 0),
        Some((COMMIT, &[slot, a, b, c, d])) => tables.commit(slot, word([a, b, c, d]), ends),
        Some((ROLLBACK, &[slot, a, b, c, d])) => tables.rollback(slot, word([a, b, c, d]), ends),
        _ => Err(Refusal::BadRecord),
    }
}

/// The bytes of an accepted end.
fn report_end(input: &[u8], answer: Answer, ends: &[u8]) {
    if let (Some((COMMIT | ROLLBACK, _)), Ok(written)) = (frame(input), answer) {
        let bytes = ends[..written as usize].iter();
        let digits: Vec<String> = bytes.map(|byte| format!("{byte:02X}")).collect();
        eprintln!("{}", digits.join(" "));
    }
}

/// Every object, and every pair that is not all zero.
fn report_tables(tables: &Tables) -> Result<(), Refusal> {
    for number in 0..OBJECTS as u8 {
        let object = tables.object(number)?;
        let (word, global) = (object.word, object.global);
        eprintln!(
            "object {number}: {word} {global} {} {}",
            object.local, object.terminal
        );
    }
    for slot in 0..SLOTS as u8 {
        for object in 0..OBJECTS as u8 {
            let pair = tables.pair(slot, object)?;
            let (live, declared) = (u32::from(pair.live), u32::from(pair.declared));
            let (called, spoiled) = (u32::from(pair.called), u32::from(pair.spoiled));
            let (supremum, count) = (u32::from(pair.supremum), u32::from(pair.count));
            let seen = [
                live,
                declared,
                supremum,
                pair.private,
                count,
                called,
                spoiled,
                pair.saved,
            ];
            if seen.iter().any(|part| *part != 0) {
                let digits = seen.map(|part| part.to_string());
                eprintln!("pair {slot} {object}: {}", digits.join(" "));
            }
        }
    }
    Ok(())
}

fn play(player: Player, mut input: &[u8], output: &mut impl Write) -> io::Result<()> {
    let Some(mut tables) = fresh(input) else {
        return writeln!(output, "0 {} 0", Refusal::BadRecord.number());
    };
    let mut event: u64 = 0;
    let mut ends = [0; END_BYTES];
    while let Some((_, body)) = frame(input) {
        input = &input[HEAD + body.len()..];
        if input.is_empty() {
            break;
        }
        event += 1;
        let answer = player(&mut tables, input, &mut ends);
        let number = answer.map_or_else(Refusal::number, |_| 0);
        writeln!(output, "{event} {number} {}", answer.unwrap_or(0))?;
        report_end(input, answer, &ends);
        if answer == Err(Refusal::BadRecord) {
            break;
        }
    }
    report_tables(&tables).map_err(io::Error::other)
}

fn main() -> io::Result<()> {
    let fields = std::env::args().nth(1).is_some_and(|word| word == "fields");
    let mut input = Vec::new();
    io::stdin().read_to_end(&mut input)?;
    let player = if fields { by_fields } else { by_record };
    play(player, &input, &mut io::stdout().lock())
}
