//! What holds over random sessions, and that the sessions reach what they have to.

mod common;

use reference::bench::{output, Bench, BUFFER};
use reference::compare::Comparison;
use reference::counters::SLOTS;
use reference::delivery::Delivery;
use reference::records::{read, End, Record};
use reference::sessions::{measured, session};
use reference::tables::Tables;
use reference::tally::{Tally, REACHABLE, ROWS, UNREACHABLE};

/// From fresh, on each object, global minus terminal is at most 16, and local lies between them;
/// Entries of a slot that is not live are all zero.
fn holds_from_fresh(tables: &Tables) {
    for object in &tables.objects {
        let open = object.global.minus(object.terminal);
        assert!(open <= SLOTS as u32);
        assert!(object.local.minus(object.terminal) <= open);
    }
    for slot in &tables.slots {
        assert!(slot.live || *slot == Default::default());
    }
}

#[test]
fn a_seed_gives_the_same_sessions_and_another_seed_others() {
    for number in 1..50 {
        assert_eq!(session(3, number), session(3, number));
    }
    let differs = (1..50).filter(|number| session(3, *number) != session(4, *number));
    assert!(differs.count() > 40);
}

#[test]
fn tables_from_fresh_keep_their_bounds_and_refusals_change_nothing() {
    for number in 0..300 {
        let input = session(8, number);
        let mut bench = Bench::new(&input);
        let mut before = bench.tables().cloned();
        while let Some(line) = bench.next() {
            let after = bench.tables().cloned();
            if line.answer.is_err() {
                assert_eq!(before, after);
            }
            if let Some(tables) = &after {
                holds_from_fresh(tables);
            }
            before = after;
        }
    }
}

#[test]
fn some_live_transaction_can_always_roll_back() {
    for number in 0..100 {
        let input = session(9, number);
        let mut bench = Bench::new(&input);
        while bench.next().is_some() {
            let Some(tables) = bench.tables() else { break };
            let mut live = tables.live();
            let ends = |slot: reference::counters::SlotNumber| {
                let mut tables = tables.clone();
                tables.rollback(slot.number(), 0, &mut [0; BUFFER]).is_ok()
            };
            assert!(live.any(ends) || tables.live().count() == 0);
        }
    }
}

#[test]
fn every_end_of_a_run_reads_back() {
    let input = measured();
    let mut rest = &input[..];
    let mut tables = None;
    let mut ends: Vec<End> = Vec::new();
    while let (Ok(record), body) = read(rest) {
        rest = &rest[4 + body.len()..];
        let mut buffer = [0; BUFFER];
        match (record, &mut tables) {
            (Record::Fresh { first, words }, _) => tables = Some(Tables::fresh(first, words)),
            (Record::Event(event), Some(tables)) => {
                let answer = tables.step(event, &mut buffer);
                if let (Ok(Record::End(end)), true) = (read(&buffer).0, answer.is_ok()) {
                    assert_eq!(answer, Ok(10 + 5 * end.entries.len() as u32));
                    ends.push(end);
                }
            }
            _ => unreachable!("the session holds a fresh and events"),
        }
    }
    assert!(rest.is_empty());
    assert!(ends.len() > 50);
}

#[test]
fn sessions_reach_every_number_and_situation() {
    let mut comparison = Comparison::default();
    for number in 0..3000 {
        let input = session(1, number);
        comparison.count(&input, output(&input).as_bytes(), Delivery::of(number));
    }
    assert_eq!(comparison.tally.missing(), Vec::<String>::new());
    assert_eq!(comparison.tally.unexpected(), Vec::<String>::new());
    assert_eq!(comparison.unmet(), Vec::<&str>::new());
}

#[test]
fn an_empty_tally_misses_all_that_is_reachable() {
    let reachable: usize = REACHABLE.iter().map(|numbers| numbers.len()).sum();
    assert_eq!(Tally::default().missing().len(), reachable);
}

#[test]
fn what_is_unreachable_is_not_listed_as_reachable() {
    for (name, number, _) in UNREACHABLE {
        let row = ROWS.iter().position(|row| *row == name).expect("a row");
        // Number 3 is reached by other lists than odd ones.
        assert_eq!(REACHABLE[row].contains(&number), number == 3);
    }
}
