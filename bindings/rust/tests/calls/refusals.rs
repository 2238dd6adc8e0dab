//! Refusals: their numbers and texts, and that they change nothing.

use crate::{create, started};
use std::error::Error;
use turns::{lent, Collected, Parts, Progress, Refusal, Store, MOST_PAGES, NONE};

const NAMED: [Refusal; 7] = [
    Refusal::BadSize,
    Refusal::BadNumber,
    Refusal::NoSuch,
    Refusal::Busy,
    Refusal::NoTurn,
    Refusal::EmptySlot,
    Refusal::Full,
];

#[test]
fn a_refusal_comes_back_from_its_number() {
    for (refusal, number) in NAMED.into_iter().zip(1..) {
        assert_eq!(refusal.number(), number);
        assert_eq!(Refusal::of(number), refusal);
    }
    for number in (8..200).chain([0, u32::MAX]) {
        assert_eq!(Refusal::of(number), Refusal::Other(number));
        assert_eq!(Refusal::Other(number).number(), number);
    }
}

#[test]
fn a_refusal_tells_its_number_and_is_an_error() {
    for refusal in NAMED.into_iter().chain([Refusal::Other(18)]) {
        let error: Box<dyn Error + Send + Sync> = refusal.into();
        let (number, text) = (refusal.number(), error.to_string());
        let told = text.strip_prefix(&format!("refused {number}: "));
        assert!(told.is_some_and(|told| told.len() > 20), "{text}");
    }
}

#[test]
fn each_answer_has_one_reading() {
    for answer in (0..200).chain([u32::MAX]) {
        let progress = match answer {
            lent::DONE => Ok(Progress::Done),
            lent::MORE => Ok(Progress::More),
            _ => Err(Refusal::of(answer)),
        };
        assert_eq!(Progress::of(answer), progress);
        let collected = match answer {
            lent::WORKED => Ok(Collected::Worked),
            lent::WAITED => Ok(Collected::Waited),
            _ => Err(Refusal::of(answer)),
        };
        assert_eq!(Collected::of(answer), collected);
    }
}

/// Makes a call that must be refused, and nothing may change by it.
fn refused<T, const N: usize, const M: usize>(
    store: &mut Store<N, M>,
    refusal: Refusal,
    call: impl FnOnce(&mut Parts) -> Result<T, Refusal>,
) {
    let before = store.clone();
    assert_eq!(call(&mut store.parts()).err(), Some(refusal));
    assert_eq!(store, &before);
}

/// Makes each call of writer w but next, and all must be refused.
fn all_refused<const N: usize, const M: usize>(store: &mut Store<N, M>, w: u32, refusal: Refusal) {
    refused(store, refusal, |parts| parts.page(w, 0, 0));
    refused(store, refusal, |parts| parts.copy(w, 0, 1));
    refused(store, refusal, |parts| parts.drop(w, 0));
    refused(store, refusal, |parts| parts.read(w, 0, 0, 0));
    refused(store, refusal, |parts| parts.store(w, 0, 0, 0));
    refused(store, refusal, |parts| parts.create(w, 0));
    refused(store, refusal, |parts| parts.answer(w));
}

#[test]
fn a_store_that_is_not_started_is_refused() {
    let mut store = Store::<2, 1>::new();
    all_refused(&mut store, 0, Refusal::BadSize);
    refused(&mut store, Refusal::BadSize, |parts| parts.next(0));
    refused(&mut store, Refusal::BadSize, |parts| parts.collect());
    refused(&mut store, Refusal::BadSize, |parts| parts.census());
}

#[test]
fn a_refused_start_leaves_the_store() -> Result<(), Refusal> {
    let mut store = started::<20, 1>();
    create(&mut store.parts(), 0)?;
    let before = store.clone();
    for g in [0, MOST_PAGES + 1, u32::MAX] {
        assert_eq!(store.start(g), Err(Refusal::BadSize));
        assert_eq!(store, before);
    }
    Ok(())
}

#[test]
fn lengths_that_do_not_fit_are_refused() {
    let mut store = started::<2, 2>();
    let before = store.clone();
    let mut parts = store.parts();
    parts.desk = &mut [];
    assert_eq!(parts.page(0, 0, 0), Err(Refusal::BadSize));
    assert_eq!(parts.start(2, 1, 2), Err(Refusal::BadSize));
    let mut parts = store.parts();
    parts.fields = &mut [];
    assert_eq!(parts.collect(), Err(Refusal::BadSize));
    let mut parts = store.parts();
    parts.colours = &mut [];
    assert_eq!(parts.census(), Err(Refusal::BadSize));
    assert_eq!(store, before);
}

#[test]
fn damaged_memory_is_refused() {
    let mut store = started::<2, 1>();
    store.parts().record.stage = 6;
    all_refused(&mut store, 0, Refusal::BadNumber);
    refused(&mut store, Refusal::BadNumber, |parts| parts.next(0));
    refused(&mut store, Refusal::BadNumber, |parts| parts.collect());
    refused(&mut store, Refusal::BadNumber, |parts| parts.census());
}

#[test]
fn what_is_not_there_is_refused() {
    let mut store = started::<2, 1>();
    for w in [1, u32::MAX] {
        all_refused(&mut store, w, Refusal::NoSuch);
        refused(&mut store, Refusal::NoSuch, |parts| parts.next(w));
    }
    refused(&mut store, Refusal::NoSuch, |parts| parts.page(0, 1, 0));
    refused(&mut store, Refusal::NoSuch, |parts| parts.copy(0, 0, 8));
    refused(&mut store, Refusal::NoSuch, |parts| parts.read(0, 0, 4, 0));
}

#[test]
fn a_busy_writer_makes_next_alone() {
    let mut store = started::<2, 1>();
    assert_eq!(store.parts().create(0, 0), Ok(Progress::More));
    all_refused(&mut store, 0, Refusal::Busy);
}

#[test]
fn the_others_are_refused_each_for_its_reason() -> Result<(), Refusal> {
    let mut store = started::<2, 1>();
    refused(&mut store, Refusal::NoTurn, |parts| parts.next(0));
    refused(&mut store, Refusal::NoTurn, |parts| parts.answer(0));
    assert_eq!(store.desk()[0].slots[0], NONE);
    refused(&mut store, Refusal::EmptySlot, |parts| {
        parts.read(0, 0, 0, 1)
    });
    refused(&mut store, Refusal::EmptySlot, |parts| {
        parts.store(0, 0, 0, 1)
    });
    create(&mut store.parts(), 0)?;
    refused(&mut store, Refusal::Full, |parts| parts.create(0, 1));
    Ok(())
}
