//! What a call answers that isn't refused.

use crate::lent::{DONE, MORE, WAITED, WORKED};
use crate::Refusal;

/// What a writer's turn leaves of its job.
#[derive(Clone, Copy, Debug, PartialEq, Eq, Hash)]
#[must_use = "a writer with an unfinished job can make no call but `next`"]
pub enum Progress {
    /// The job is finished.
    Done,
    /// The job is unfinished: the writer's next call must be `next`.
    More,
}

impl Progress {
    /// Reads the answer of a writer's call in [`lent`](crate::lent).
    ///
    /// ```
    /// use turns::{lent, Progress, Refusal};
    ///
    /// assert_eq!(Progress::of(lent::MORE), Ok(Progress::More));
    /// assert_eq!(Progress::of(4), Err(Refusal::Busy));
    /// ```
    ///
    /// # Errors
    ///
    /// Any number but those of done and more.
    pub const fn of(answer: u32) -> Result<Progress, Refusal> {
        match answer {
            DONE => Ok(Progress::Done),
            MORE => Ok(Progress::More),
            number => Err(Refusal::of(number)),
        }
    }
}

/// What a turn of the collector did.
#[derive(Clone, Copy, Debug, PartialEq, Eq, Hash)]
#[must_use = "a collector that waits goes on only when the writers have answered"]
pub enum Collected {
    /// It did something.
    Worked,
    /// It waits until all writers have answered, and changed nothing.
    Waited,
}

impl Collected {
    /// Reads the answer of [`lent::collect`](crate::lent::collect).
    ///
    /// ```
    /// use turns::{lent, Collected, Refusal};
    ///
    /// assert_eq!(Collected::of(lent::WAITED), Ok(Collected::Waited));
    /// assert_eq!(Collected::of(1), Err(Refusal::BadSize));
    /// ```
    ///
    /// # Errors
    ///
    /// Any number but those of worked and waited.
    pub const fn of(answer: u32) -> Result<Collected, Refusal> {
        match answer {
            WORKED => Ok(Collected::Worked),
            WAITED => Ok(Collected::Waited),
            number => Err(Refusal::of(number)),
        }
    }
}

/// Reads the answer of a call that is finished at once.
pub(crate) const fn done(answer: u32) -> Result<(), Refusal> {
    match answer {
        DONE => Ok(()),
        number => Err(Refusal::of(number)),
    }
}
