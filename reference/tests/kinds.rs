//! The table of kinds, the saved word, and letting go.

mod common;

use common::{commit, object, pair, rollback, started, word, ADD, READ, SPEND, WRITE};
use reference::answers::Refusal;
use reference::counters::Version;

#[test]
fn each_kind_acts_and_answers() {
    let mut tables = started(9, &[0], &[4, 0]);
    assert_eq!(tables.call(0, 4, WRITE, 50), Ok(0));
    assert_eq!(tables.call(0, 4, READ, 7), Ok(50));
    assert_eq!(tables.call(0, 4, ADD, 5), Ok(55));
    assert_eq!(tables.call(0, 4, ADD, u32::MAX), Ok(54));
    assert_eq!(tables.call(0, 4, SPEND, 55), Ok(0));
    assert_eq!(word(&tables, 4), 54);
    assert_eq!(tables.call(0, 4, SPEND, 54), Ok(1));
    assert_eq!(tables.call(0, 4, SPEND, 0), Ok(1));
    assert_eq!(tables.call(0, 4, SPEND, 1), Ok(0));
    assert_eq!(word(&tables, 4), 0);
}

#[test]
fn the_first_call_saves_the_word_and_later_ones_do_not() {
    let mut tables = started(9, &[0], &[4, 0]);
    tables.objects[4].word = 70;
    assert_eq!(tables.call(0, 4, ADD, 1), Ok(71));
    assert_eq!(tables.call(0, 4, ADD, 1), Ok(72));
    assert!(pair(&tables, 0, 4).called);
    assert_eq!(pair(&tables, 0, 4).saved, 70);
    assert_eq!(rollback(&mut tables, 0), Ok(15));
    assert_eq!(word(&tables, 4), 70);
}

#[test]
fn the_call_that_reaches_the_supremum_lets_go() {
    let mut tables = started(9, &[0, 1], &[4, 2]);
    assert_eq!(tables.call(0, 4, READ, 0), Ok(0));
    assert_eq!(tables.call(1, 4, READ, 0), Err(Refusal::Wait));
    assert_eq!(tables.call(0, 4, READ, 0), Ok(0));
    assert_eq!(tables.object(object(4)).local, Version(10));
    assert_eq!(tables.call(1, 4, READ, 0), Ok(0));
}

#[test]
fn a_spend_that_fails_counts_as_a_call() {
    let mut tables = started(9, &[0], &[4, 1]);
    assert_eq!(tables.call(0, 4, SPEND, 1), Ok(0));
    assert_eq!(tables.call(0, 4, SPEND, 1), Err(Refusal::Released));
}

#[test]
fn a_refused_call_counts_nothing() {
    let mut tables = started(9, &[0], &[4, 1]);
    assert_eq!(tables.call(0, 4, 4, 0), Err(Refusal::BadCall));
    assert_eq!(pair(&tables, 0, 4).count.0, 0);
    assert_eq!(tables.call(0, 4, READ, 0), Ok(0));
}

#[test]
fn a_reader_is_spoiled_like_a_writer() {
    let mut tables = started(9, &[0, 1], &[4, 1]);
    assert_eq!(tables.call(0, 4, READ, 0), Ok(0));
    assert_eq!(tables.call(1, 4, READ, 0), Ok(0));
    assert_eq!(rollback(&mut tables, 0), Ok(15));
    assert_eq!(commit(&mut tables, 1), Err(Refusal::Doomed));
}

#[test]
fn one_that_has_not_called_is_not_spoiled() {
    let mut tables = started(9, &[0, 1], &[4, 1]);
    assert_eq!(tables.call(0, 4, ADD, 1), Ok(1));
    assert_eq!(rollback(&mut tables, 0), Ok(15));
    assert_eq!(tables.call(1, 4, READ, 0), Ok(0));
    assert_eq!(commit(&mut tables, 1), Ok(15));
}

#[test]
fn a_rollback_without_calls_restores_and_spoils_nothing() {
    let mut tables = started(9, &[0, 1], &[4, 0]);
    assert_eq!(tables.release(0, 4), Ok(0));
    assert_eq!(tables.call(1, 4, WRITE, 8), Ok(0));
    assert_eq!(rollback(&mut tables, 0), Ok(15));
    assert_eq!(word(&tables, 4), 8);
    assert_eq!(commit(&mut tables, 1), Ok(15));
}

#[test]
fn an_end_lets_go_of_what_is_held_and_not_of_what_went_on() {
    let mut tables = started(9, &[0, 1, 2], &[4, 0, 5, 0]);
    assert_eq!(tables.release(0, 4), Ok(0));
    assert_eq!(tables.release(1, 4), Ok(0));
    assert_eq!(commit(&mut tables, 0), Ok(20));
    // Object 4 stays let go by slot 1, object 5 is let go by slot 0's end.
    assert_eq!(tables.objects[4].local, Version(11));
    assert_eq!(tables.objects[5].local, Version(10));
    assert_eq!(tables.objects[4].terminal, Version(10));
    assert_eq!(tables.objects[5].terminal, Version(10));
}

#[test]
fn an_ended_slot_is_all_zero() {
    let mut tables = started(9, &[0], &[4, 3]);
    assert_eq!(tables.call(0, 4, WRITE, 5), Ok(0));
    assert_eq!(commit(&mut tables, 0), Ok(15));
    assert_eq!(tables.slots[0], Default::default());
}

#[test]
fn several_live_transactions_at_once() {
    let mut tables = started(9, &[0], &[4, 0]);
    assert_eq!(tables.start(1, &[5, 0]), Ok(0));
    assert_eq!(tables.call(0, 4, WRITE, 1), Ok(0));
    assert_eq!(tables.call(1, 5, WRITE, 2), Ok(0));
    assert_eq!(commit(&mut tables, 1), Ok(15));
    assert_eq!(commit(&mut tables, 0), Ok(15));
}
