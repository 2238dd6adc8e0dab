//! A writer's row of the desk.

use crate::numbers::*;

/// Refusal 2 unless the status, the slots, and every word that the job uses are in range.
#[inline]
pub(crate) fn in_range(row: &[u16; ROW], n: u32) -> Result<(), u32> {
    let [status, slots @ .., job, step, cell, at, new, old, _spare] = row;
    // Every slot is looked at: no branch between them.
    let slots_good = slots
        .iter()
        .fold(true, |good, &slot| good & names_cell_or_none(slot, n));
    let names_cell = u32::from(*cell) < n;
    let job_good = match *job {
        IDLE => true,
        ANSWERING => *step <= 8,
        STORING => {
            *step <= 7
                && names_cell
                && *at < 4
                && names_cell_or_none(*new, n)
                && names_cell_or_none(*old, n)
        }
        CREATING => *step <= 2 && names_cell && *at < 8,
        _ => false,
    };
    if *status <= 2 && slots_good && job_good {
        Ok(())
    } else {
        Err(BAD_NUMBER)
    }
}

/// Gives the row a job: its words from `JOB` to `OLD`, with 0 where it has no use for one.
#[inline]
pub(crate) fn set_job(row: &mut [u16; ROW], job: [u16; 6]) {
    let [.., kind, step, cell, at, new, old, spare] = row;
    [*kind, *step, *cell, *at, *new, *old] = job;
    *spare = 0;
}

/// Ends the row's job.
#[inline]
pub(crate) fn set_idle(row: &mut [u16; ROW]) {
    set_job(row, [IDLE, 0, 0, 0, 0, 0]);
}
