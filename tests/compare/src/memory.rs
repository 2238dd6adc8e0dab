//! Memory in range that no run need leave behind.

use crate::chance::Chance;
use crate::parts::{Parts, Sizes};
use reference::{AT, CELL, JOB, NEW, NONE, OLD, ROW, SLOT, STATUS, STEP, STORING};

/// Sizes from 1 to 4,096 cells, mostly few.
pub fn sizes(chance: &mut Chance) -> Sizes {
    let n = match chance.below(40) {
        0 => chance.pick(&[1_024, 4_095, 4_096]),
        1 | 2 => chance.pick(&[32, 33, 64]),
        _ => chance.between(1, 12),
    };
    let most_pages = n.min(chance.pick(&[1, 3, 16]));
    let most_writers = chance.pick(&[3, 8]);
    Sizes {
        n,
        g: chance.between(1, most_pages),
        m: chance.between(1, most_writers),
    }
}

/// Parts in range in which anything may stand.
pub fn any_parts(chance: &mut Chance, sizes: Sizes) -> Parts {
    let mut parts = Parts::of(sizes);
    parts.record = record(chance, sizes);
    // Often all writers have answered.
    let posted = chance.one_in(2).then_some(parts.posted());
    for place in parts.desk.as_chunks_mut::<ROW>().0 {
        *place = row(chance, sizes);
        place[STATUS] = posted.unwrap_or(place[STATUS]);
    }
    for field in &mut parts.fields {
        *field = value(chance, sizes.n);
    }
    let least_colour = chance.pick(&[0, 0, 1]);
    for colour in &mut parts.colours {
        *colour = chance.between(least_colour, 3) as u8;
    }
    parts
}

/// The last place of a stage.
pub fn last_place(sizes: Sizes, stage: u32) -> u32 {
    match stage {
        0..=2 => 0,
        3 => sizes.g,
        _ => sizes.n,
    }
}

/// A record in range.
pub fn record(chance: &mut Chance, sizes: Sizes) -> Vec<u32> {
    let Sizes { n, g, m } = sizes;
    let stage = chance.below(6);
    let last = last_place(sizes, stage);
    let place = match chance.below(3) {
        0 => last,
        1 => last.saturating_sub(1),
        _ => chance.between(0, last),
    };
    let opened = stage == 4 && place < n;
    let part = if opened { chance.below(10) } else { 0 };
    let holding = matches!(part, 2 | 4 | 6 | 8);
    let hold = if holding { value(chance, n) } else { NONE };
    let found = if stage == 4 { chance.below(2) } else { 0 };
    let count = match chance.below(4) {
        0 => u32::MAX - chance.between(1, 3),
        _ => chance.below(1_000),
    };
    vec![n, g, m, stage, place, part, hold.into(), found, count]
}

/// How many steps a job has, and how many places its word `at` may name.
pub fn limits(job: u16) -> (u32, u32) {
    match job {
        0 => (0, 0),
        1 => (9, 0),
        2 => (8, 4),
        _ => (3, 8),
    }
}

/// A row in range, with anything in the words that its job has no use for.
pub fn row(chance: &mut Chance, sizes: Sizes) -> [u16; ROW] {
    let Sizes { n, .. } = sizes;
    let mut row = [(); ROW].map(|()| chance.any() as u16);
    row[STATUS] = chance.below(3) as u16;
    for slot in &mut row[SLOT..JOB] {
        *slot = value(chance, n);
    }
    row[JOB] = chance.below(4) as u16;
    let (steps, places) = limits(row[JOB]);
    if steps > 0 {
        row[STEP] = chance.below(steps) as u16;
    }
    if places > 0 {
        row[CELL] = chance.below(n) as u16;
        row[AT] = chance.below(places) as u16;
    }
    if row[JOB] == STORING {
        row[NEW] = value(chance, n);
        row[OLD] = value(chance, n);
    }
    row
}

/// A cell or none.
fn value(chance: &mut Chance, n: u32) -> u16 {
    if chance.one_in(3) {
        NONE
    } else {
        chance.below(n) as u16
    }
}
