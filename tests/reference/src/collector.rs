//! The collector's turns.

use crate::numbers::*;
use crate::record::Record;
use crate::shortcut::*;

/// C: the most working turns that a cycle takes.
pub fn cycle_bound(n: u16, g: u16) -> u64 {
    let (n, g) = (u64::from(n), u64::from(g));
    (n + 1) * (n + 1) + 10 * n + g + 5
}

/// A turn of the collector.
#[inline(never)]
pub fn collect<const S: u8>(
    record: &mut [u32],
    desk: &[u16],
    fields: &[u16],
    colours: &mut [u8],
) -> u32 {
    number_of(|| turn::<S>(record, desk, fields, colours))
}

#[inline(always)]
fn turn<const S: u8>(
    lent_record: &mut [u32],
    desk: &[u16],
    fields: &[u16],
    colours: &mut [u8],
) -> Outcome {
    let mut record = Record::sized(lent_record, desk.len(), fields.len(), colours.len())?;
    record.in_range()?;
    match record.stage {
        0 => {
            record.stage = if S == ONE_HANDSHAKE { 3 } else { 1 };
            record.count = 0;
        }
        1 | 2 => {
            if !all_answered::<S>(desk, record.posted())? {
                return Ok(WAITED);
            }
            record.stage += 1;
            record.place = 0;
        }
        3 if record.place < record.g => {
            gray(colours, record.place as u16)?;
            record.place += 1;
        }
        3 => {
            if !all_answered::<S>(desk, record.posted())? {
                return Ok(WAITED);
            }
            record.stage = 4;
            record.place = 0;
            record.found = 0;
        }
        4 => scan::<S>(&mut record, fields, colours)?,
        _ => sweep(&mut record, colours)?,
    }
    record.count += 1;
    lent_record.copy_from_slice(&record.words());
    Ok(WORKED)
}

/// The waiting test. All statuses are read, even past one that differs.
fn all_answered<const S: u8>(desk: &[u16], posted: u16) -> Result<bool, u32> {
    let mut all = true;
    for row in desk.as_chunks::<ROW>().0 {
        let status = row[STATUS];
        if status > 2 {
            return Err(BAD_NUMBER);
        }
        let busy = row[JOB] != IDLE;
        all &= status == posted || (S == BUSY_ANSWERS && busy);
    }
    Ok(all)
}

/// Stage 4: looks for gray cells and follows their fields, until a pass finds none.
fn scan<const S: u8>(record: &mut Record, fields: &[u16], colours: &mut [u8]) -> Result<(), u32> {
    let place = record.place as usize;
    match record.part {
        0 if place == colours.len() => {
            if record.found == 0 || S == ONE_PASS {
                record.stage = 5;
            }
            record.found = 0;
            record.place = 0;
        }
        0 => match colours[place] {
            GRAY => {
                record.found = 1;
                record.part = 1;
            }
            FREE | WHITE | BLACK => record.place += 1,
            _ => return Err(BAD_NUMBER),
        },
        1 | 3 | 5 | 7 => {
            let value = fields[4 * place + record.part as usize / 2];
            if !names_cell_or_none(value, record.n) {
                return Err(BAD_NUMBER);
            }
            record.hold = u32::from(value);
            record.part += 1;
        }
        2 | 4 | 6 | 8 => {
            gray(colours, record.hold as u16)?;
            record.hold = u32::from(NONE);
            record.part += 1;
        }
        _ => {
            colours[place] = BLACK;
            record.place += 1;
            record.part = 0;
        }
    }
    Ok(())
}

/// Stage 5: frees the white cells and whitens the black ones.
#[inline]
fn sweep(record: &mut Record, colours: &mut [u8]) -> Result<(), u32> {
    let Some(colour) = colours.get_mut(record.place as usize) else {
        record.stage = 0;
        record.place = 0;
        return Ok(());
    };
    *colour = match *colour {
        WHITE => FREE,
        BLACK => WHITE,
        FREE | GRAY => *colour,
        _ => return Err(BAD_NUMBER),
    };
    record.place += 1;
    Ok(())
}
