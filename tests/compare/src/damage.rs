//! Damage to the lent parts.

use crate::chance::Chance;
use crate::memory::{last_place, limits, record, row};
use crate::parts::{Parts, Sizes};
use reference::{AT, CELL, JOB, NEW, OLD, ROW, SLOT, STATUS, STEP};

/// A number near an edge: of a range of the paper, of a width, or of what stood there.
pub fn odd(chance: &mut Chance, sizes: Sizes, was: u32) -> u32 {
    let Sizes { n, g, m } = sizes;
    match chance.below(8) {
        0 => was.wrapping_add(1),
        1 => was.wrapping_sub(1),
        2 => was.wrapping_add(chance.pick(&[256, 65_536, 1 << 31])),
        3 => chance.pick(&[n - 1, n, n + 1, g, g + 1, m, m + 1]),
        4 => chance.pick(&[254, 255, 256, 4_095, 4_096, 4_097, 65_534, 65_535, 65_536]),
        5 => chance.pick(&[1 << 30, 1 << 31, u32::MAX - 1, u32::MAX]),
        6 => chance.below(18),
        _ => chance.any(),
    }
}

/// Puts one number of a record in range just beyond its range.
fn beyond_record(chance: &mut Chance, record: &mut [u32], sizes: Sizes) {
    let &mut [_, _, _, stage, place, part, ..] = record else {
        return;
    };
    let opened = stage == 4 && place < sizes.n;
    let holding = matches!(part, 2 | 4 | 6 | 8);
    let (at, number) = chance.pick(&[
        (3, 6),
        (4, last_place(sizes, stage) + 1),
        (5, if opened { 10 } else { 1 }),
        (6, if holding { sizes.n } else { 0 }),
        (7, if stage == 4 { 2 } else { 1 }),
        (8, u32::MAX),
    ]);
    record[at] = number;
}

/// Puts one word of a row in range just beyond its range.
fn beyond_row(chance: &mut Chance, row: &mut [u16; ROW], sizes: Sizes) {
    let (steps, places) = limits(row[JOB]);
    let slot = SLOT + chance.below(8) as usize;
    let (at, word) = chance.pick(&[
        (STATUS, 3),
        (slot, sizes.n),
        (JOB, 4),
        (STEP, steps),
        (CELL, sizes.n),
        (AT, places),
        (NEW, sizes.n),
        (OLD, sizes.n),
    ]);
    row[at] = word as u16;
}

/// Changes one thing in the parts, to something that may or may not be in range.
pub fn damage(chance: &mut Chance, parts: &mut Parts, sizes: Sizes) {
    match chance.below(12) {
        0 | 1 => {
            if let Some(number) = any_of(chance, &mut parts.record) {
                *number = odd(chance, sizes, *number);
            }
        }
        2..=4 => {
            if let Some(word) = any_of(chance, &mut parts.desk) {
                *word = odd(chance, sizes, (*word).into()) as u16;
            }
        }
        5 | 6 => {
            let at = 4 * cell_in_play(chance, parts, sizes) + chance.below(4) as usize;
            if let Some(field) = parts.fields.get_mut(at) {
                *field = odd(chance, sizes, (*field).into()) as u16;
            }
        }
        7 | 8 => {
            let at = cell_in_play(chance, parts, sizes);
            if let Some(colour) = parts.colours.get_mut(at) {
                *colour = chance.pick(&[0, 1, 2, 3, 4, 4, 5, 128, 255]);
            }
        }
        9 => {
            let mut row = row(chance, sizes);
            if chance.one_in(2) {
                beyond_row(chance, &mut row, sizes);
            }
            let rows = parts.desk.as_chunks_mut::<ROW>().0;
            if let Some(place) = any_of(chance, rows) {
                *place = row;
            }
        }
        10 => {
            parts.record = record(chance, sizes);
            if chance.one_in(2) {
                beyond_record(chance, &mut parts.record, sizes);
            }
        }
        _ => match chance.below(6) {
            0 => resize(chance, &mut parts.record),
            1 => resize(chance, &mut parts.desk),
            2 => resize(chance, &mut parts.fields),
            3 => resize(chance, &mut parts.colours),
            4 => resize(chance, &mut parts.counts),
            _ => beyond_limits(chance, parts, sizes),
        },
    }
}

fn any_of<'a, T>(chance: &mut Chance, of: &'a mut [T]) -> Option<&'a mut T> {
    let at = chance.below(of.len().max(1) as u32);
    of.get_mut(at as usize)
}

/// A cell that a turn is likely to read: at the place, held, in a slot or in a job.
fn cell_in_play(chance: &mut Chance, parts: &Parts, sizes: Sizes) -> usize {
    let cell = match chance.below(4) {
        0 => parts.record.get(4).copied(),
        1 => parts.record.get(6).copied(),
        2 => {
            let word = chance.between(SLOT as u32, OLD as u32);
            let w = chance.below(sizes.m);
            Some(parts.word(w, word as usize).into())
        }
        _ => None,
    };
    match cell {
        Some(cell) if cell < sizes.n => cell as usize,
        _ => chance.below(sizes.n) as usize,
    }
}

/// Makes a part shorter or longer.
fn resize<T: Copy + Default>(chance: &mut Chance, part: &mut Vec<T>) {
    let len = part.len();
    let to = match chance.below(7) {
        0 => 0,
        1 => len.saturating_sub(1),
        2 => len + 1,
        3 => len.saturating_sub(ROW),
        4 => len + ROW,
        5 => 2 * len,
        _ => chance.below(len as u32 + 8) as usize,
    };
    let fill = part.first().copied().unwrap_or_default();
    part.resize(to, fill);
}

/// Sizes just out of limits (or just within), with lengths that fit them.
fn beyond_limits(chance: &mut Chance, parts: &mut Parts, sizes: Sizes) {
    let Sizes {
        mut n,
        mut g,
        mut m,
    } = sizes;
    match chance.below(6) {
        0 => n = chance.pick(&[0, 4_097]),
        1 => g = chance.pick(&[0, n + 1]),
        2 => (n, g) = (n.max(17), 17),
        3 => (n, g) = (n.max(16), 16),
        4 => m = chance.pick(&[0, 9]),
        _ => (n, m) = (n + 1, 8),
    }
    parts.resize(Sizes { n, g, m });
    for (number, size) in parts.record.iter_mut().zip([n, g, m]) {
        *number = size;
    }
}
