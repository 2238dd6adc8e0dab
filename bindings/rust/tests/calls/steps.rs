//! The names of stages, statuses and steps are those of the turns that they stand for.

use crate::{answer, create, finish, started};
use turns::{job, stage, status, step, Collected, Parts, Progress, Refusal};

/// Goes on until the collector is in a stage.
fn until(parts: &mut Parts, stage: u32) -> Result<(), Refusal> {
    while parts.record.stage != stage {
        if parts.collect()? == Collected::Waited {
            answer(parts)?;
        }
    }
    Ok(())
}

/// The steps of a job from its first turn on.
fn steps(parts: &mut Parts, mut progress: Progress) -> Result<Vec<u16>, Refusal> {
    let mut steps = Vec::new();
    while progress == Progress::More {
        steps.push(parts.desk[0].step);
        progress = parts.next(0)?;
    }
    assert_eq!(parts.desk[0].job, job::IDLE);
    Ok(steps)
}

/// The steps of a store into page 0.
fn steps_of_store(parts: &mut Parts) -> Result<Vec<u16>, Refusal> {
    let begun = parts.store(0, 0, 0, 0)?;
    assert_eq!(parts.desk[0].job, job::STORING);
    steps(parts, begun)
}

#[test]
fn a_store_has_the_steps_of_its_plan() -> Result<(), Refusal> {
    let mut store = started::<2, 1>();
    let mut parts = store.parts();
    parts.page(0, 0, 0)?;
    let bare = [step::BARE_WRITE];
    let full = [
        step::FULL_READ,
        step::FULL_OLD,
        step::FULL_NEW,
        step::FULL_WRITE,
    ];
    let traced = [step::TRACED_READ, step::TRACED_OLD, step::TRACED_WRITE];

    assert_eq!(steps_of_store(&mut parts)?, bare);
    until(&mut parts, stage::FIRST)?;
    assert_eq!(steps_of_store(&mut parts)?, bare);
    answer(&mut parts)?;
    assert_eq!(parts.desk[0].status, status::FIRST);
    assert_eq!(steps_of_store(&mut parts)?, full);
    until(&mut parts, stage::SECOND)?;
    answer(&mut parts)?;
    assert_eq!(parts.desk[0].status, status::SECOND);
    assert_eq!(steps_of_store(&mut parts)?, full);
    until(&mut parts, stage::PAGES)?;
    assert_eq!(steps_of_store(&mut parts)?, full);
    answer(&mut parts)?;
    assert_eq!(parts.desk[0].status, status::SETTLED);
    assert_eq!(steps_of_store(&mut parts)?, traced);
    until(&mut parts, stage::SCAN)?;
    assert_eq!(steps_of_store(&mut parts)?, traced);
    until(&mut parts, stage::SWEEP)?;
    assert_eq!(steps_of_store(&mut parts)?, bare);
    until(&mut parts, stage::REST)
}

#[test]
fn a_creation_is_white_at_rest_and_kept_in_the_scan() -> Result<(), Refusal> {
    let mut store = started::<3, 1>();
    let mut parts = store.parts();
    let begun = parts.create(0, 0)?;
    assert_eq!(steps(&mut parts, begun)?, [step::AHEAD, step::WHITE]);
    until(&mut parts, stage::SCAN)?;
    let begun = parts.create(0, 1)?;
    assert_eq!(steps(&mut parts, begun)?, [step::AHEAD, step::KEEP]);
    Ok(())
}

#[test]
fn the_third_answer_goes_through_the_slots() -> Result<(), Refusal> {
    let mut store = started::<2, 1>();
    let mut parts = store.parts();
    create(&mut parts, 7)?;
    until(&mut parts, stage::PAGES)?;
    let begun = parts.answer(0)?;
    assert_eq!(parts.desk[0].job, job::ANSWERING);
    let through = steps(&mut parts, begun)?;
    assert_eq!(through, [0, 1, 2, 3, 4, 5, 6, 7, 8]);
    assert_eq!(parts.colours[1], turns::colour::GRAY);
    Ok(())
}

#[test]
fn a_job_is_finished_by_next_alone() -> Result<(), Refusal> {
    let mut store = started::<2, 2>();
    let mut parts = store.parts();
    let begun = parts.create(1, 0)?;
    assert_eq!(parts.answer(1), Err(Refusal::Busy));
    assert_eq!(finish(&mut parts, 1, begun)?, 2);
    assert_eq!(parts.next(1), Err(Refusal::NoTurn));
    Ok(())
}
