//! Which came first of two end records.

mod common;

use common::{commit, fresh};
use reference::answers::Refusal;
use reference::bench::BUFFER;
use reference::counters::Version;
use reference::order::{which_came_first, CameFirst};
use reference::records::{End, EndKind, Entry, Record};
use reference::sessions::session_w;
use reference::writing::write;

/// An end record's bytes.
fn end(entries: &[(u8, u32)]) -> Vec<u8> {
    let entry = |(object, version): &(u8, u32)| Entry {
        object: *object,
        version: Version(*version),
    };
    let record = Record::End(End {
        kind: EndKind::Committed,
        tick: 0,
        slot: 0,
        entries: entries.iter().map(entry).collect(),
    });
    let mut buffer = vec![0; BUFFER];
    write(&record, &mut buffer).expect("the fields make a record");
    buffer
}

/// The answer where B's version minus A's is `e`, for several versions of A.
fn answer(e: u32) -> CameFirst {
    let answers: Vec<_> = [0, 1, 77, 1 << 31, u32::MAX]
        .map(|a: u32| which_came_first(&end(&[(3, a)]), &end(&[(3, a.wrapping_add(e))])))
        .into_iter()
        .collect::<Result<_, _>>()
        .expect("both are end records");
    assert!(answers.iter().all(|other| *other == answers[0]));
    answers[0]
}

#[test]
fn both_sides_of_each_e() {
    assert_eq!(answer(0), CameFirst::Same);
    assert_eq!(answer(1), CameFirst::A);
    assert_eq!(answer(2147483647), CameFirst::A);
    assert_eq!(answer(2147483648), CameFirst::Far);
    assert_eq!(answer(2147483649), CameFirst::B);
    assert_eq!(answer(4294967295), CameFirst::B);
}

#[test]
fn versions_4294967295_then_0() {
    let (a, b) = (end(&[(3, 4294967295)]), end(&[(3, 0)]));
    assert_eq!(which_came_first(&a, &b), Ok(CameFirst::A));
    assert_eq!(which_came_first(&b, &a), Ok(CameFirst::B));
}

#[test]
fn no_common_object() {
    let answer = which_came_first(&end(&[(3, 1), (5, 1)]), &end(&[(4, 9), (6, 9)]));
    assert_eq!(answer, Ok(CameFirst::Unrelated));
}

#[test]
fn the_smallest_common_object_decides() {
    let a = end(&[(1, 0), (4, 10), (9, 10)]);
    let b = end(&[(2, 0), (4, 11), (9, 3)]);
    assert_eq!(which_came_first(&a, &b), Ok(CameFirst::A));
    assert_eq!(which_came_first(&b, &a), Ok(CameFirst::B));
}

#[test]
fn committed_and_rolled_back_mix_and_bytes_behind_do_not_matter() {
    let a = end(&[(4, 10)]);
    let mut b = end(&[(4, 11)]);
    b[2] = 2;
    b.extend([1, 2, 3]);
    assert_eq!(which_came_first(&a, &b), Ok(CameFirst::A));
}

#[test]
fn what_reads_as_no_end_record() {
    let good = end(&[(4, 10)]);
    let event = [2, 0, 3, 1, 0, 0];
    for bad in [&event[..], &[], &good[..14], &session_w()] {
        assert_eq!(which_came_first(bad, &good), Err(Refusal::BadRecord));
        assert_eq!(which_came_first(&good, bad), Err(Refusal::BadRecord));
        assert_eq!(which_came_first(bad, bad), Err(Refusal::BadRecord));
    }
}

#[test]
fn start_order_of_one_run_across_the_turnover() {
    let mut tables = fresh(u32::MAX - 3);
    let mut ends = Vec::new();
    for _ in 0..8 {
        assert_eq!(tables.start(2, &[4, 0]), Ok(0));
        let mut buffer = [0; BUFFER];
        assert_eq!(tables.commit(2, 0, &mut buffer), Ok(15));
        ends.push(buffer);
    }
    for (earlier, a) in ends.iter().enumerate() {
        assert_eq!(which_came_first(a, a), Ok(CameFirst::Same));
        for b in &ends[earlier + 1..] {
            assert_eq!(which_came_first(a, b), Ok(CameFirst::A));
            assert_eq!(which_came_first(b, a), Ok(CameFirst::B));
        }
    }
    assert_eq!(commit(&mut tables, 2), Err(Refusal::Idle));
}
