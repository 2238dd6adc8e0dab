//! One cycle of a store of two cells: cell 1 is created, dropped, and free again after 23 working
//! turns. The functions are what a scheduler is made of.

use turns::{stage, Collected, Counts, Parts, Progress, Refusal, Store};

/// The rest of a job: `next` until it is done.
fn finish(parts: &mut Parts, w: u32, mut progress: Progress) -> Result<(), Refusal> {
    while progress == Progress::More {
        progress = parts.next(w)?;
    }
    Ok(())
}

/// Creates a cell into a slot.
fn create(parts: &mut Parts, w: u32, slot: u32) -> Result<(), Refusal> {
    let begun = parts.create(w, slot)?;
    finish(parts, w, begun)
}

/// Lets every writer that hasn't answered do so.
fn answer(parts: &mut Parts) -> Result<(), Refusal> {
    for w in 0..parts.record.m {
        if parts.must_answer(w) {
            let begun = parts.answer(w)?;
            finish(parts, w, begun)?;
        }
    }
    Ok(())
}

/// One cycle, from the opening to the closing: where the collector waits, the writers answer.
fn cycle(parts: &mut Parts) -> Result<(), Refusal> {
    loop {
        match parts.collect()? {
            Collected::Waited => answer(parts)?,
            Collected::Worked if parts.record.stage == stage::REST => return Ok(()),
            Collected::Worked => {}
        }
    }
}

fn print(counts: Counts) {
    let Counts {
        free,
        held,
        floating,
        ..
    } = counts;
    println!("free {free}, held {held}, floating {floating}");
}

fn main() -> Result<(), Refusal> {
    assert_eq!(
        turns::version(),
        turns::VERSION,
        "libturns.a is of another version than the crate"
    );
    let mut store = Store::<2, 1>::new();
    store.start(1)?;
    let mut parts = store.parts();

    create(&mut parts, 0, 0)?;
    println!("created: cell {}", parts.desk[0].slots[0]);
    if let Err(refusal) = create(&mut parts, 0, 1) {
        println!("another: {refusal}");
    }
    parts.drop(0, 0)?;
    print(parts.census()?);

    cycle(&mut parts)?;
    let (count, most) = (parts.record.count, turns::cycle_bound(2, 1));
    println!("working turns: {count}, at most {most}");
    print(parts.census()?);
    Ok(())
}
