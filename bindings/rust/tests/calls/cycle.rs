//! Whole cycles of a store that owns its parts.

use crate::{answer, create, started};
use std::sync::Mutex;
use turns::{colour, stage, Collected, Parts, Refusal, Store};

/// From the opening to the closing, with prompt answers of writer 0.
fn cycle(parts: &mut Parts) -> Result<(), Refusal> {
    loop {
        if parts.collect()? == Collected::Waited {
            assert!(parts.must_answer(0));
            answer(parts)?;
            assert!(!parts.must_answer(0));
        } else if parts.record.stage == stage::REST {
            return Ok(());
        }
    }
}

#[test]
fn a_dropped_cell_is_free_after_23_turns() -> Result<(), Refusal> {
    let mut store = started::<2, 1>();
    let mut parts = store.parts();
    create(&mut parts, 0)?;
    parts.drop(0, 0)?;
    assert_eq!(parts.census()?.floating, 1);
    cycle(&mut parts)?;
    assert_eq!(parts.census()?.floating, 0);
    assert_eq!(store.record().count, 23);
    assert_eq!(store.colours(), &[colour::WHITE, colour::FREE]);
    Ok(())
}

#[test]
fn the_smallest_cycle_takes_the_most_turns() -> Result<(), Refusal> {
    let mut store = started::<1, 1>();
    cycle(&mut store.parts())?;
    assert_eq!(u64::from(store.record().count), turns::cycle_bound(1, 1));
    Ok(())
}

#[test]
fn a_stored_cell_stays() -> Result<(), Refusal> {
    let mut store = started::<2, 1>();
    let mut parts = store.parts();
    parts.page(0, 0, 0)?;
    create(&mut parts, 1)?;
    let begun = parts.store(0, 0, 3, 1)?;
    assert_eq!(crate::finish(&mut parts, 0, begun)?, 1);
    parts.drop(0, 1)?;
    cycle(&mut parts)?;
    cycle(&mut parts)?;
    assert_eq!(
        store.fields()[0],
        [turns::NONE, turns::NONE, turns::NONE, 1]
    );
    store.parts().read(0, 0, 3, 7)?;
    assert_eq!(store.desk()[0].slots[7], 1);
    Ok(())
}

#[test]
fn a_store_can_lie_in_a_static() -> Result<(), Refusal> {
    static STORE: Mutex<Store<4096, 8>> = Mutex::new(Store::new());
    let mut store = STORE.lock().expect("nobody else has it");
    assert_eq!(store.parts().census(), Err(Refusal::BadSize));
    store.start(16)?;
    let counts = store.parts().census()?;
    assert_eq!((counts.free, counts.held), (4_080, 16));
    Ok(())
}

#[test]
fn only_the_writers_that_are_asked_must_answer() -> Result<(), Refusal> {
    let mut store = started::<2, 2>();
    let mut parts = store.parts();
    let asked = |parts: &Parts| [0, 1, 2, u32::MAX].map(|w| parts.must_answer(w));
    assert_eq!(parts.posted(), 0);
    assert_eq!(asked(&parts), [false; 4]);
    assert_eq!(parts.collect()?, Collected::Worked);
    assert_eq!(parts.posted(), 1);
    assert_eq!(asked(&parts), [true, true, false, false]);
    assert_eq!(answer(&mut parts)?, 1);
    assert_eq!(asked(&parts), [false, true, false, false]);
    parts.record.m = 1;
    assert_eq!(asked(&parts), [false; 4]);
    Ok(())
}

#[test]
fn what_is_posted_goes_by_the_stage() {
    let mut store = started::<1, 1>();
    let parts = store.parts();
    for (stage, posted) in [(0, 0), (1, 1), (2, 2), (3, 0), (4, 0), (5, 0), (6, 0)] {
        parts.record.stage = stage;
        assert_eq!(parts.posted(), posted, "stage {stage}");
    }
}
