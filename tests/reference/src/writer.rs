//! The writers' turns.

use crate::numbers::*;
use crate::record::Record;
use crate::row::{self, set_idle, set_job};
use crate::shortcut::*;

/// A writer at its row, with what its turn may read and write.
struct Seat<'a> {
    record: Record,
    row: &'a mut [u16; ROW],
    fields: &'a mut [[u16; 4]],
    colours: &'a mut [u8],
}

impl<'a> Seat<'a> {
    /// Refusal 1; then 3, if there is no writer `w` or `named` says no; then 2.
    #[inline(always)]
    fn take(
        record: &[u32],
        desk: &'a mut [u16],
        fields: &'a mut [u16],
        colours: &'a mut [u8],
        w: u32,
        named: impl FnOnce(&Record) -> bool,
    ) -> Result<Seat<'a>, u32> {
        let record = Record::sized(record, desk.len(), fields.len(), colours.len())?;
        let row = match desk.as_chunks_mut::<ROW>().0.get_mut(w as usize) {
            Some(row) if named(&record) => row,
            _ => return Err(NO_SUCH),
        };
        record.in_range()?;
        row::in_range(row, record.n)?;
        Ok(Seat {
            record,
            row,
            fields: fields.as_chunks_mut::<4>().0,
            colours,
        })
    }

    /// The same for any call but next, and refusal 4 while the writer has a job.
    /// The row is idle, so the words after its slots become 0 by any turn.
    #[inline(always)]
    fn take_idle(
        record: &[u32],
        desk: &'a mut [u16],
        fields: &'a mut [u16],
        colours: &'a mut [u8],
        w: u32,
        named: impl FnOnce(&Record) -> bool,
    ) -> Result<Seat<'a>, u32> {
        let seat = Seat::take(record, desk, fields, colours, w, named)?;
        match seat.row[JOB] {
            IDLE => Ok(seat),
            _ => Err(BUSY),
        }
    }

    #[inline(always)]
    fn slot(&mut self, s: u32) -> &mut u16 {
        &mut self.row[SLOT + s as usize]
    }

    /// The cell in slot `r`; refusal 6 if there is none.
    #[inline(always)]
    fn cell_in(&mut self, r: u32) -> Result<u16, u32> {
        match *self.slot(r) {
            NONE => Err(EMPTY_SLOT),
            cell => Ok(cell),
        }
    }

    #[inline(always)]
    fn field(&mut self, cell: u16, f: u16) -> &mut u16 {
        &mut self.fields[usize::from(cell)][usize::from(f)]
    }

    /// What a field holds; refusal 2 if that is out of range.
    #[inline(always)]
    fn read_field(&mut self, cell: u16, f: u16) -> Result<u16, u32> {
        let value = *self.field(cell, f);
        if names_cell_or_none(value, self.record.n) {
            Ok(value)
        } else {
            Err(BAD_NUMBER)
        }
    }

    /// Puts a value in a slot, and that is all the turn does.
    #[inline(always)]
    fn fill_slot(mut self, s: u32, value: u16) -> Outcome {
        *self.slot(s) = value;
        set_idle(self.row);
        Ok(DONE)
    }
}

/// Puts page `p` in slot `s`.
#[inline(never)]
pub fn page<const S: u8>(
    record: &[u32],
    desk: &mut [u16],
    fields: &mut [u16],
    colours: &mut [u8],
    w: u32,
    p: u32,
    s: u32,
) -> u32 {
    number_of(|| {
        let named = |record: &Record| p < record.g && s < SLOTS;
        let seat = Seat::take_idle(record, desk, fields, colours, w, named)?;
        seat.fill_slot(s, p as u16)
    })
}

/// Copies slot `r` to slot `s`.
#[inline(never)]
pub fn copy<const S: u8>(
    record: &[u32],
    desk: &mut [u16],
    fields: &mut [u16],
    colours: &mut [u8],
    w: u32,
    r: u32,
    s: u32,
) -> u32 {
    number_of(|| {
        let named = |_: &Record| r < SLOTS && s < SLOTS;
        let mut seat = Seat::take_idle(record, desk, fields, colours, w, named)?;
        let value = *seat.slot(r);
        seat.fill_slot(s, value)
    })
}

/// Empties slot `r`.
#[inline(never)]
pub fn drop<const S: u8>(
    record: &[u32],
    desk: &mut [u16],
    fields: &mut [u16],
    colours: &mut [u8],
    w: u32,
    r: u32,
) -> u32 {
    number_of(|| {
        let named = |_: &Record| r < SLOTS;
        let seat = Seat::take_idle(record, desk, fields, colours, w, named)?;
        seat.fill_slot(r, NONE)
    })
}

/// Puts field `f` of the cell in slot `r` into slot `s`.
#[inline(never)]
pub fn read<const S: u8>(
    record: &[u32],
    desk: &mut [u16],
    fields: &mut [u16],
    colours: &mut [u8],
    w: u32,
    r: u32,
    f: u32,
    s: u32,
) -> u32 {
    number_of(|| {
        let named = |_: &Record| r < SLOTS && f < FIELDS && s < SLOTS;
        let mut seat = Seat::take_idle(record, desk, fields, colours, w, named)?;
        let cell = seat.cell_in(r)?;
        let value = seat.read_field(cell, f as u16)?;
        seat.fill_slot(s, value)
    })
}

/// Starts to store slot `q` into field `f` of the cell in slot `r`.
#[inline(never)]
pub fn store<const S: u8>(
    record: &[u32],
    desk: &mut [u16],
    fields: &mut [u16],
    colours: &mut [u8],
    w: u32,
    r: u32,
    f: u32,
    q: u32,
) -> u32 {
    number_of(|| {
        let named = |_: &Record| r < SLOTS && f < FIELDS && q < SLOTS;
        let mut seat = Seat::take_idle(record, desk, fields, colours, w, named)?;
        let cell = seat.cell_in(r)?;
        let new = *seat.slot(q);
        let traced = seat.record.tracing() && S != GRAY_NEITHER;
        let step = match seat.row[STATUS] {
            0 if traced => 4,
            0 => 7,
            _ => 0,
        };
        set_job(seat.row, [STORING, step, cell, f as u16, new, NONE]);
        Ok(MORE)
    })
}

/// Starts to create a cell into slot `s`: takes the lowest free one.
#[inline(never)]
pub fn create<const S: u8>(
    record: &[u32],
    desk: &mut [u16],
    fields: &mut [u16],
    colours: &mut [u8],
    w: u32,
    s: u32,
) -> u32 {
    number_of(|| {
        let named = |_: &Record| s < SLOTS;
        let seat = Seat::take_idle(record, desk, fields, colours, w, named)?;
        let cell = lowest_free(seat.colours)?;
        seat.colours[cell] = BLACK;
        seat.fields[cell] = [NONE; 4];
        set_job(seat.row, [CREATING, 0, cell as u16, s as u16, 0, 0]);
        Ok(MORE)
    })
}

/// Reads colours upward to the first free cell: 2 for a byte above 3 before it, 7 without one.
#[inline]
fn lowest_free(colours: &[u8]) -> Result<usize, u32> {
    /// Cells looked at together.
    const STRETCH: usize = 32;
    let ends = |colour: u8| colour == FREE || colour > BLACK;
    // Whole stretches in use are passed without a branch for each cell.
    let passed = colours
        .chunks_exact(STRETCH)
        .take_while(|stretch| !stretch.iter().fold(false, |end, &c| end | ends(c)))
        .count();
    let from = passed * STRETCH;
    match colours[from..].iter().position(|&c| ends(c)) {
        Some(at) if colours[from + at] == FREE => Ok(from + at),
        Some(_) => Err(BAD_NUMBER),
        None => Err(FULL),
    }
}

/// Answers the handshake that is posted.
#[inline(never)]
pub fn answer<const S: u8>(
    record: &[u32],
    desk: &mut [u16],
    fields: &mut [u16],
    colours: &mut [u8],
    w: u32,
) -> u32 {
    number_of(|| {
        let seat = Seat::take_idle(record, desk, fields, colours, w, |_| true)?;
        let posted = seat.record.posted();
        if seat.row[STATUS] == posted {
            return Err(NO_TURN);
        }
        if posted == 0 {
            set_job(seat.row, [ANSWERING, 0, 0, 0, 0, 0]);
            return Ok(MORE);
        }
        seat.row[STATUS] = posted;
        set_idle(seat.row);
        Ok(DONE)
    })
}

/// The next turn of the writer's job.
#[inline(never)]
pub fn next<const S: u8>(
    record: &[u32],
    desk: &mut [u16],
    fields: &mut [u16],
    colours: &mut [u8],
    w: u32,
) -> u32 {
    number_of(|| {
        let seat = Seat::take(record, desk, fields, colours, w, |_| true)?;
        match seat.row[JOB] {
            ANSWERING => next_of_answer(seat),
            STORING => next_of_store::<S>(seat),
            CREATING => next_of_create::<S>(seat),
            _ => Err(NO_TURN),
        }
    })
}

/// Grays the next slot; after the last one the status becomes 0.
#[inline(always)]
fn next_of_answer(mut seat: Seat) -> Outcome {
    let step = seat.row[STEP];
    if u32::from(step) == SLOTS {
        seat.row[STATUS] = 0;
        set_idle(seat.row);
        return Ok(DONE);
    }
    let slot = *seat.slot(step.into());
    gray(seat.colours, slot)?;
    set_job(seat.row, [ANSWERING, step + 1, 0, 0, 0, 0]);
    Ok(MORE)
}

/// Reads the old value, grays a value, or writes.
#[inline(always)]
fn next_of_store<const S: u8>(mut seat: Seat) -> Outcome {
    let [step, cell, f, new, mut old] = [STEP, CELL, AT, NEW, OLD].map(|word| seat.row[word]);
    match step {
        0 | 4 => old = seat.read_field(cell, f)?,
        5 if S == GRAY_ONLY_NEW => gray(seat.colours, new)?,
        1 | 5 => gray(seat.colours, old)?,
        2 => gray(seat.colours, new)?,
        _ => {
            *seat.field(cell, f) = new;
            set_idle(seat.row);
            return Ok(DONE);
        }
    }
    set_job(seat.row, [STORING, step + 1, cell, f, new, old]);
    Ok(MORE)
}

/// Looks whether the cell is to be white, or finishes.
#[inline(always)]
fn next_of_create<const S: u8>(mut seat: Seat) -> Outcome {
    let [step, cell, s] = [STEP, CELL, AT].map(|word| seat.row[word]);
    if step == 0 {
        let white = seat.row[STATUS] != 0
            || u32::from(cell) < seat.record.hand::<S>()
            || (S == CREATE_WHITE && seat.record.tracing());
        let decided = if white { 2 } else { 1 };
        set_job(seat.row, [CREATING, decided, cell, s, 0, 0]);
        return Ok(MORE);
    }
    if step == 2 {
        seat.colours[usize::from(cell)] = WHITE;
    }
    *seat.slot(s.into()) = cell;
    set_idle(seat.row);
    Ok(DONE)
}
