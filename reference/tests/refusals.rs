//! Every refusal of each event, and the order of refusals.

mod common;

use common::{commit, fresh, refuses, rollback, started, READ, WRITE};
use reference::answers::Refusal;
use reference::bench::BUFFER;
use reference::records::Event;
use reference::sessions::{call, start};
use reference::tables::Tables;

fn release(slot: u8, object: u8) -> Event<'static> {
    Event::Release { slot, object }
}

fn commits(slot: u8) -> Event<'static> {
    Event::Commit { slot, tick: 3 }
}

fn rolls_back(slot: u8) -> Event<'static> {
    Event::Rollback { slot, tick: 3 }
}

/// Slots 0 and 1 on objects 4 and 5; both called 4; slot 0 has rolled back, so that slot 1 is
/// doomed. Slot 2 is behind slot 1 on both. Slot 1 has let go of 4, and holds 5.
fn doomed() -> Tables {
    let mut tables = started(9, &[0, 1, 2], &[4, 1, 5, 0]);
    assert_eq!(tables.call(0, 4, WRITE, 1), Ok(0));
    assert_eq!(tables.call(1, 4, WRITE, 2), Ok(0));
    assert_eq!(rollback(&mut tables, 0), Ok(20));
    tables
}

#[test]
fn start_1_bad_slot() {
    refuses(&fresh(9), start(16, &[4, 0]), BUFFER, Refusal::BadSlot);
    refuses(&fresh(9), start(255, &[]), BUFFER, Refusal::BadSlot);
}

#[test]
fn start_4_busy() {
    let tables = started(9, &[3], &[4, 0]);
    refuses(&tables, start(3, &[5, 0]), BUFFER, Refusal::Busy);
    refuses(&tables, start(3, &[]), BUFFER, Refusal::Busy);
    refuses(&tables, start(3, &[24, 0]), BUFFER, Refusal::Busy);
}

#[test]
fn start_3_bad_list_by_its_length() {
    let long: Vec<u8> = (0..25).flat_map(|object| [object, 0]).collect();
    for list in [&[][..], &[4], &[4, 0, 5], &[24], &long] {
        refuses(&fresh(9), start(3, list), BUFFER, Refusal::BadList);
    }
}

#[test]
fn start_3_bad_list_by_its_order() {
    for list in [[4, 0, 4, 0], [5, 0, 4, 0]] {
        refuses(&fresh(9), start(3, &list), BUFFER, Refusal::BadList);
    }
}

#[test]
fn start_2_bad_object() {
    for list in [&[24, 0][..], &[4, 0, 24, 0], &[255, 0]] {
        refuses(&fresh(9), start(3, list), BUFFER, Refusal::BadObject);
    }
}

#[test]
fn start_finds_the_first_faulty_pair() {
    let large_first = [24, 0, 1, 0, 1, 0];
    let falling_first = [2, 0, 1, 0, 24, 0];
    refuses(
        &fresh(9),
        start(3, &large_first),
        BUFFER,
        Refusal::BadObject,
    );
    refuses(
        &fresh(9),
        start(3, &falling_first),
        BUFFER,
        Refusal::BadList,
    );
    refuses(
        &fresh(9),
        start(3, &[25, 0, 24, 0]),
        BUFFER,
        Refusal::BadObject,
    );
}

#[test]
fn call_1_5_2_6_7_in_this_order() {
    let tables = started(9, &[3], &[4, 0]);
    refuses(&tables, call(16, 24, 4, 0), BUFFER, Refusal::BadSlot);
    refuses(&tables, call(2, 24, 4, 0), BUFFER, Refusal::Idle);
    refuses(&tables, call(3, 24, 4, 0), BUFFER, Refusal::BadObject);
    refuses(&tables, call(3, 5, 4, 0), BUFFER, Refusal::NotDeclared);
    refuses(&tables, call(3, 4, 4, 0), BUFFER, Refusal::BadCall);
    refuses(&tables, call(3, 4, 255, 0), BUFFER, Refusal::BadCall);
}

#[test]
fn call_7_before_9_8_and_10() {
    refuses(&doomed(), call(1, 4, 4, 0), BUFFER, Refusal::BadCall);
    refuses(&doomed(), call(2, 5, 4, 0), BUFFER, Refusal::BadCall);
}

#[test]
fn call_9_doomed_on_every_declared_object() {
    // Object 4 is let go and object 5 is on its turn; doom is tested before both.
    refuses(&doomed(), call(1, 4, READ, 0), BUFFER, Refusal::Doomed);
    refuses(&doomed(), call(1, 5, READ, 0), BUFFER, Refusal::Doomed);
}

#[test]
fn call_9_before_10() {
    let mut tables = fresh(9);
    for (slot, list) in [(0, &[4, 1][..]), (2, &[5, 0]), (1, &[4, 1, 5, 0])] {
        assert_eq!(tables.start(slot, list), Ok(0));
    }
    assert_eq!(tables.call(0, 4, WRITE, 1), Ok(0));
    assert_eq!(tables.call(1, 4, WRITE, 2), Ok(0));
    refuses(&tables, call(1, 5, READ, 0), BUFFER, Refusal::Wait);
    assert_eq!(rollback(&mut tables, 0), Ok(15));
    refuses(&tables, call(1, 5, READ, 0), BUFFER, Refusal::Doomed);
}

#[test]
fn call_8_released() {
    let mut tables = started(9, &[3], &[4, 1, 5, 0]);
    assert_eq!(tables.call(3, 4, READ, 0), Ok(0));
    assert_eq!(tables.release(3, 5), Ok(0));
    refuses(&tables, call(3, 4, READ, 0), BUFFER, Refusal::Released);
    refuses(&tables, call(3, 5, READ, 0), BUFFER, Refusal::Released);
}

#[test]
fn call_10_wait() {
    let tables = started(9, &[3, 4], &[4, 0]);
    refuses(&tables, call(4, 4, READ, 0), BUFFER, Refusal::Wait);
}

#[test]
fn release_1_5_2_6_in_this_order() {
    let tables = started(9, &[3], &[4, 0]);
    refuses(&tables, release(16, 24), BUFFER, Refusal::BadSlot);
    refuses(&tables, release(2, 24), BUFFER, Refusal::Idle);
    refuses(&tables, release(3, 24), BUFFER, Refusal::BadObject);
    refuses(&tables, release(3, 5), BUFFER, Refusal::NotDeclared);
}

#[test]
fn release_8_released_and_10_wait() {
    let mut tables = started(9, &[3, 4], &[4, 0]);
    refuses(&tables, release(4, 4), BUFFER, Refusal::Wait);
    assert_eq!(tables.release(3, 4), Ok(0));
    refuses(&tables, release(3, 4), BUFFER, Refusal::Released);
}

#[test]
fn release_by_a_doomed_transaction_is_accepted() {
    assert_eq!(doomed().release(1, 5), Ok(0));
    refuses(&doomed(), release(1, 4), BUFFER, Refusal::Released);
}

#[test]
fn commit_1_5() {
    let tables = started(9, &[3], &[4, 0]);
    refuses(&tables, commits(16), 0, Refusal::BadSlot);
    refuses(&tables, commits(2), 0, Refusal::Idle);
}

#[test]
fn commit_9_before_10_and_11() {
    refuses(&doomed(), commits(1), 0, Refusal::Doomed);
    let mut tables = started(9, &[0, 1, 2], &[4, 1, 5, 0]);
    for slot in 0..3 {
        assert_eq!(tables.call(slot, 4, WRITE, 1), Ok(0));
    }
    assert_eq!(rollback(&mut tables, 0), Ok(20));
    // Slot 2 is doomed and its terminal need is not met.
    refuses(&tables, commits(2), 0, Refusal::Doomed);
}

#[test]
fn commit_10_before_11() {
    let tables = started(9, &[3, 4], &[4, 0]);
    refuses(&tables, commits(4), 0, Refusal::Wait);
}

#[test]
fn commit_10_by_one_object_of_two() {
    let mut tables = started(9, &[3], &[5, 0]);
    assert_eq!(tables.start(4, &[4, 0, 5, 0]), Ok(0));
    refuses(&tables, commits(4), BUFFER, Refusal::Wait);
    assert_eq!(commit(&mut tables, 3), Ok(15));
    assert_eq!(commit(&mut tables, 4), Ok(20));
}

#[test]
fn commit_11_no_room() {
    let tables = started(9, &[3], &[4, 0]);
    for room in [0, 4, 14] {
        refuses(&tables, commits(3), room, Refusal::NoRoom);
    }
}

#[test]
fn rollback_1_5_10_11_in_this_order() {
    let tables = started(9, &[3, 4], &[4, 0]);
    refuses(&tables, rolls_back(16), 0, Refusal::BadSlot);
    refuses(&tables, rolls_back(2), 0, Refusal::Idle);
    refuses(&tables, rolls_back(4), 0, Refusal::Wait);
    for room in [0, 4, 14] {
        refuses(&tables, rolls_back(3), room, Refusal::NoRoom);
    }
}

#[test]
fn rollback_of_a_doomed_transaction_is_accepted() {
    assert_eq!(rollback(&mut doomed(), 1), Ok(20));
}
