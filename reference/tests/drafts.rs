//! Errors that drafts have had, each as a scenario in which the draft would answer otherwise.

mod common;

use common::{commit, fresh, pair, rollback, started, word, ADD, READ, WRITE};
use reference::answers::Refusal;
use reference::bench::BUFFER;
use reference::counters::Version;
use reference::order::{which_came_first, CameFirst};

/// Testing 'local is at least private minus one' as plain numbers. At the turnover a waiting task
/// is let in beside the holder.
#[test]
fn a_waiting_task_is_not_let_in_at_the_turnover() {
    let mut tables = started(u32::MAX, &[0, 1], &[4, 0]);
    assert_eq!(pair(&tables, 1, 4).private, Version(1));
    assert_eq!(tables.call(0, 4, WRITE, 5), Ok(0));
    assert_eq!(tables.call(1, 4, WRITE, 6), Err(Refusal::Wait));
    assert_eq!(word(&tables, 4), 5);
    let mut tables = started(u32::MAX - 1, &[0, 1], &[4, 0]);
    assert_eq!(tables.call(1, 4, WRITE, 6), Err(Refusal::Wait));
}

/// Letting a spoiled transaction put its saved word back. Event 12 would leave 65.
#[test]
fn a_spoiled_transaction_does_not_put_its_saved_word_back() {
    let mut tables = started(9, &[0, 1], &[4, 1]);
    tables.objects[4].word = 100;
    assert_eq!(tables.call(0, 4, WRITE, 65), Ok(0));
    assert_eq!(tables.call(1, 4, READ, 0), Ok(65));
    assert_eq!(pair(&tables, 1, 4).saved, 65);
    assert_eq!(rollback(&mut tables, 0), Ok(15));
    assert_eq!(word(&tables, 4), 100);
    assert_eq!(rollback(&mut tables, 1), Ok(15));
    assert_eq!(word(&tables, 4), 100);
}

/// Spoiling only the next version and not every later caller.
#[test]
fn every_later_caller_is_spoiled() {
    let slots: Vec<u8> = (0..16).collect();
    let mut tables = started(u32::MAX - 5, &slots, &[4, 1]);
    for slot in &slots {
        assert_eq!(tables.call(*slot, 4, ADD, 1), Ok(u32::from(*slot) + 1));
    }
    assert_eq!(rollback(&mut tables, 0), Ok(15));
    assert_eq!(word(&tables, 4), 0);
    for slot in 1..16 {
        assert_eq!(commit(&mut tables, slot), Err(Refusal::Doomed));
    }
    for slot in 1..16 {
        assert_eq!(rollback(&mut tables, slot), Ok(15));
        assert_eq!(word(&tables, 4), 0);
    }
}

/// Committing once each object was let go or is on its turn, instead of on the terminal need.
/// Event 8 would commit 65, which never was.
#[test]
fn a_commit_waits_for_the_end_of_the_one_before() {
    let mut tables = started(9, &[0, 1], &[4, 1, 5, 0]);
    assert_eq!(tables.call(0, 4, WRITE, 65), Ok(0));
    assert_eq!(tables.release(0, 5), Ok(0));
    assert_eq!(tables.call(1, 4, READ, 0), Ok(65));
    // Slot 1 has let go of object 4 and is on its turn on object 5.
    assert_eq!(commit(&mut tables, 1), Err(Refusal::Wait));
    assert_eq!(rollback(&mut tables, 1), Err(Refusal::Wait));
    assert_eq!(rollback(&mut tables, 0), Ok(20));
    assert_eq!(commit(&mut tables, 1), Err(Refusal::Doomed));
}

/// Using one start ticket modulo 2^32 to order live transactions: one may stay live while the
/// others turn it over.
#[test]
fn one_transaction_stays_live_while_others_turn_over() {
    let mut tables = fresh(9);
    assert_eq!(tables.start(0, &[4, 0]), Ok(0));
    // As many transactions as bring the versions of object 5 round come and go; all three versions
    // are what that many would leave.
    let object = &mut tables.objects[5];
    object.global = Version(object.global.0.wrapping_add(3_000_000_000));
    object.local = object.global;
    object.terminal = object.global;
    assert_eq!(tables.start(1, &[4, 0, 5, 0]), Ok(0));
    assert_eq!(tables.call(1, 4, READ, 0), Err(Refusal::Wait));
    assert_eq!(tables.call(1, 5, READ, 0), Ok(0));
    assert_eq!(commit(&mut tables, 1), Err(Refusal::Wait));
    let (mut a, mut b) = ([0; BUFFER], [0; BUFFER]);
    assert_eq!(tables.commit(0, 0, &mut a), Ok(15));
    assert_eq!(tables.commit(1, 0, &mut b), Ok(20));
    assert_eq!(which_came_first(&a, &b), Ok(CameFirst::A));
}
