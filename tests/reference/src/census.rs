//! The census.

use crate::numbers::*;
use crate::record::Record;
use crate::row;

/// Counts the cells that are free, white, gray, black, held and floating.
#[inline(never)]
pub fn census<const S: u8>(
    record: &[u32],
    desk: &[u16],
    fields: &[u16],
    colours: &[u8],
    counts: &mut [u32],
) -> u32 {
    number_of(|| {
        let record = Record::sized(record, desk.len(), fields.len(), colours.len())?;
        let counts: &mut [u32; 6] = counts.try_into().map_err(|_| BAD_SIZE)?;
        let desk = desk.as_chunks::<ROW>().0;
        record.in_range()?;
        for row in desk {
            row::in_range(row, record.n)?;
        }
        // Every word is looked at: no branch between them.
        let fields_good = fields
            .iter()
            .fold(true, |good, &v| good & names_cell_or_none(v, record.n));
        let colours_good = colours.iter().fold(true, |good, &c| good & (c <= BLACK));
        if !(fields_good && colours_good) {
            return Err(BAD_NUMBER);
        }
        let of = |colour| colours.iter().filter(|&&c| c == colour).count() as u32;
        let [free, white, gray, black] = [FREE, WHITE, GRAY, BLACK].map(of);
        let held = held(record.g, desk, fields.as_chunks::<4>().0, colours);
        *counts = [free, white, gray, black, held, record.n - free - held];
        Ok(DONE)
    })
}

/// Counts the cells in use that pages and slots reach through cells in use.
fn held(g: u32, desk: &[[u16; ROW]], fields: &[[u16; 4]], colours: &[u8]) -> u32 {
    // In use and not reached yet. None has no mark, so it is never met.
    let mut ahead: Vec<bool> = colours.iter().map(|&c| c != FREE).collect();
    let mut found: Vec<u16> = Vec::with_capacity(colours.len());
    let mut held = 0;
    let mut meet = |number: u16, found: &mut Vec<u16>| {
        if let Some(ahead) = ahead.get_mut(usize::from(number)) {
            if *ahead {
                *ahead = false;
                held += 1;
                found.push(number);
            }
        }
    };
    for page in 0..g as u16 {
        meet(page, &mut found);
    }
    for row in desk {
        for &slot in &row[SLOT..JOB] {
            meet(slot, &mut found);
        }
    }
    while let Some(cell) = found.pop() {
        for &field in &fields[usize::from(cell)] {
            meet(field, &mut found);
        }
    }
    held
}
