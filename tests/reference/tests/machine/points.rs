//! The points on both sides.

use crate::store::Store;
use reference::*;

/// How many turns a store takes at writer 0, from its first on.
fn turns_of_store(store: &mut Store, into: u32, value: u32) -> u32 {
    assert_eq!(call!(store, store, 0, into, 0, value), MORE);
    1 + store.finish(0)
}

#[test]
fn the_sizes_have_limits() {
    assert_eq!(Store::try_start(4_096, 16, 8).1, DONE);
    for (n, g, m) in [
        (0, 1, 1),
        (4_097, 1, 1),
        (20, 17, 1),
        (5, 6, 1),
        (5, 1, 0),
        (5, 1, 9),
    ] {
        assert_eq!(Store::try_start(n, g, m).1, BAD_SIZE, "{n} {g} {m}");
    }
}

#[test]
fn the_smallest_cycle_is_the_bound() {
    let mut store = Store::started(1, 1, 1);
    assert_eq!(store.cycle(), 20);
    assert_eq!(cycle_bound(1, 1), 20);
    assert_eq!(cycle_bound(4_096, 16), 16_826_390);
}

#[test]
fn a_cell_dropped_before_the_opening_is_freed() {
    let mut store = Store::started(2, 1, 1);
    store.create();
    call!(store, drop, 0, 0);
    assert_eq!(store.cycle(), 23);
    assert_eq!(store.colours, [WHITE, FREE]);
}

#[test]
fn a_cell_dropped_after_the_third_answer_floats_for_a_cycle() {
    let mut store = Store::started(2, 1, 1);
    store.create();
    store.collect_until(3, 1);
    store.answer();
    call!(store, drop, 0, 0);
    store.cycle();
    assert_eq!(store.colours, [WHITE, WHITE]);
    store.cycle();
    assert_eq!(store.colours, [WHITE, FREE]);
}

#[test]
fn a_store_takes_the_turns_of_its_plan() {
    // Slot 0 has the page; slot 1 has it too, or nothing.
    for value in [0, 1] {
        let mut store = Store::started(2, 1, 1);
        call!(store, page, 0, 0, 0);
        assert_eq!(turns_of_store(&mut store, 0, value), 2);
        call!(store, collect);
        store.answer();
        assert_eq!(store.stage(), 1);
        assert_eq!(turns_of_store(&mut store, 0, value), 5);
        store.collect_until(4, 0);
        assert_eq!(turns_of_store(&mut store, 0, value), 4);
    }
}

#[test]
fn an_answer_takes_one_turn_or_ten() {
    let mut store = Store::started(1, 1, 1);
    assert_eq!(call!(store, answer, 0), NO_TURN);
    call!(store, collect);
    assert_eq!(call!(store, answer, 0), DONE);
    call!(store, collect);
    assert_eq!(call!(store, answer, 0), DONE);
    call!(store, collect);
    assert_eq!((store.stage(), store.desk[0]), (3, 2));
    assert_eq!(call!(store, answer, 0), MORE);
    assert_eq!(1 + store.finish(0), 10);
    assert_eq!(store.desk[0], 0);
}

#[test]
fn a_field_that_is_not_there_comes_before_the_job() {
    let mut store = Store::started(2, 1, 1);
    call!(store, page, 0, 0, 0);
    assert_eq!(call!(store, store, 0, 0, 0, 0), MORE);
    assert_eq!(call!(store, read, 0, 0, 4, 0), NO_SUCH);
    assert_eq!(call!(store, read, 0, 0, 3, 0), BUSY);
}

#[test]
fn an_empty_slot_can_be_dropped_and_a_slot_copied_to_itself() {
    let mut store = Store::started(2, 1, 1);
    let fresh = store.clone();
    assert_eq!(call!(store, drop, 0, 5), DONE);
    assert_eq!(store, fresh);
    call!(store, page, 0, 0, 3);
    let before = store.clone();
    assert_eq!(call!(store, copy, 0, 3, 3), DONE);
    assert_eq!(store, before);
}
