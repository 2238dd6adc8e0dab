//! The numbers of `turns.h`.

/// No cell: in a field, a slot, the hold, and a store's old and new values.
pub const NONE: u16 = 65_535;

pub const MOST_CELLS: u32 = 4_096;
pub const MOST_PAGES: u32 = 16;
pub const MOST_WRITERS: u32 = 8;

/// Slots of a writer and fields of a cell.
pub const SLOTS: u32 = 8;
pub const FIELDS: u32 = 4;

/// The words of a row: how many, and which is which. Slot 0 is at `SLOT`.
pub const ROW: usize = 16;
pub const STATUS: usize = 0;
pub const SLOT: usize = 1;
pub const JOB: usize = 9;
pub const STEP: usize = 10;
pub const CELL: usize = 11;
/// The field of a store, the slot of a creation.
pub const AT: usize = 12;
pub const NEW: usize = 13;
pub const OLD: usize = 14;

/// Jobs.
pub const IDLE: u16 = 0;
pub const ANSWERING: u16 = 1;
pub const STORING: u16 = 2;
pub const CREATING: u16 = 3;

pub const FREE: u8 = 0;
pub const WHITE: u8 = 1;
pub const GRAY: u8 = 2;
pub const BLACK: u8 = 3;

/// Refusals.
pub const BAD_SIZE: u32 = 1;
pub const BAD_NUMBER: u32 = 2;
pub const NO_SUCH: u32 = 3;
pub const BUSY: u32 = 4;
pub const NO_TURN: u32 = 5;
pub const EMPTY_SLOT: u32 = 6;
pub const FULL: u32 = 7;

/// The other answers.
pub const DONE: u32 = 100;
pub const MORE: u32 = 101;
pub const WORKED: u32 = 102;
pub const WAITED: u32 = 103;

/// A call's answer, or the refusal that ended it.
pub(crate) type Outcome = Result<u32, u32>;

/// Makes a turn; its answer and its refusal are one number to the caller.
#[inline(always)]
pub(crate) fn number_of(turn: impl FnOnce() -> Outcome) -> u32 {
    match turn() {
        Ok(number) | Err(number) => number,
    }
}

/// Whether a value is none or the number of one of the `n` cells.
#[inline]
pub(crate) fn names_cell_or_none(value: u16, n: u32) -> bool {
    // One comparison of 16 bits: none wraps to 0, and n is 4,096 at most.
    value.wrapping_add(1) <= n as u16
}

/// Grays a number. Only a cell's colour is read, so none is never refused.
#[inline]
pub(crate) fn gray(colours: &mut [u8], number: u16) -> Result<(), u32> {
    if number == NONE {
        return Ok(());
    }
    let colour = &mut colours[usize::from(number)];
    match *colour {
        WHITE => *colour = GRAY,
        FREE | GRAY | BLACK => {}
        _ => return Err(BAD_NUMBER),
    }
    Ok(())
}
