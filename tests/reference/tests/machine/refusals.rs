//! The order of refusals, and that a refusal changes nothing.

use crate::store::Store;
use reference::*;

/// Makes a change to a store and then a call that must be refused with `refusal`.
fn refused(
    store: &Store,
    refusal: u32,
    change: impl FnOnce(&mut Store),
    call: impl FnOnce(&mut Store) -> u32,
) {
    let mut changed = store.clone();
    change(&mut changed);
    let before = changed.clone();
    assert_eq!(call(&mut changed), refusal);
    assert_eq!(changed, before);
}

/// Two writers; writer 0 has page 0 in slot 0.
fn store() -> Store {
    let mut store = Store::started(4, 1, 2);
    call!(store, page, 0, 0, 0);
    store
}

#[test]
fn lengths_come_before_everything() {
    let store = store();
    refused(
        &store,
        BAD_SIZE,
        |s| s.record.push(0),
        |s| call!(s, drop, 9, 9),
    );
    refused(
        &store,
        BAD_SIZE,
        |s| s.desk.truncate(17),
        |s| call!(s, drop, 9, 9),
    );
    refused(&store, BAD_SIZE, |s| s.record[0] = 5, |s| call!(s, collect));
}

#[test]
fn arguments_come_before_numbers_and_numbers_before_the_job() {
    let store = store();
    let damage = |s: &mut Store| s.desk[8] = 4;
    refused(&store, NO_SUCH, damage, |s| call!(s, drop, 0, 8));
    refused(&store, BAD_NUMBER, damage, |s| call!(s, next, 0));
    refused(&store, NO_TURN, damage, |s| call!(s, next, 1));
    refused(
        &store,
        BAD_NUMBER,
        |s| s.record[8] = u32::MAX,
        |s| call!(s, next, 1),
    );
}

#[test]
fn an_empty_slot_comes_before_what_the_turn_reads() {
    let store = store();
    let damage = |s: &mut Store| s.fields[0] = 4;
    refused(&store, EMPTY_SLOT, damage, |s| call!(s, read, 0, 1, 0, 0));
    refused(&store, BAD_NUMBER, damage, |s| call!(s, read, 0, 0, 0, 0));
}

#[test]
fn take_reads_colours_up_to_the_first_free_cell() {
    let store = store();
    refused(
        &store,
        BAD_NUMBER,
        |s| s.colours = vec![1, 4, 0, 1],
        |s| call!(s, create, 0, 0),
    );
    refused(
        &store,
        FULL,
        |s| s.colours = vec![1, 2, 3, 1],
        |s| call!(s, create, 0, 0),
    );
    let mut free_first = store;
    free_first.colours = vec![1, 0, 4, 1];
    assert_eq!(call!(free_first, create, 0, 0), MORE);
}

#[test]
fn a_waiting_test_reads_past_a_status_that_differs() {
    let mut store = store();
    call!(store, collect);
    refused(
        &store,
        BAD_NUMBER,
        |s| s.desk[16] = 3,
        |s| call!(s, collect),
    );
    assert_eq!(call!(store, collect), WAITED);
}
