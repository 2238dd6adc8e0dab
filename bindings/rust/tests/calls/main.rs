//! The calls, through the crate and the archive.

mod cycle;
mod layouts;
mod refusals;
mod steps;
mod version;

use turns::{Parts, Progress, Refusal, Store};

/// A started store with one page.
fn started<const N: usize, const M: usize>() -> Store<N, M> {
    let mut store = Store::new();
    store.start(1).expect("the sizes are within limits");
    store
}

/// The rest of a job: how many turns it takes.
fn finish(parts: &mut Parts, w: u32, mut progress: Progress) -> Result<u32, Refusal> {
    let mut turns = 0;
    while progress == Progress::More {
        progress = parts.next(w)?;
        turns += 1;
    }
    Ok(turns)
}

/// Creates a cell into a slot of writer 0.
fn create(parts: &mut Parts, slot: u32) -> Result<(), Refusal> {
    let begun = parts.create(0, slot)?;
    assert_eq!(finish(parts, 0, begun)?, 2);
    Ok(())
}

/// Writer 0 answers: how many turns it takes.
fn answer(parts: &mut Parts) -> Result<u32, Refusal> {
    let begun = parts.answer(0)?;
    Ok(1 + finish(parts, 0, begun)?)
}
