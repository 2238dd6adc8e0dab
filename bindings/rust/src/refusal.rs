//! Why a call is refused.

use core::error::Error;
use core::fmt;

/// Why a call is refused. Nothing has changed then, but see [`Refusal::Other`].
///
/// Its text is for the people who set a site up: it has the number of the refusal, and says what
/// to do about it. Later versions refuse for more reasons.
///
/// ```
/// use turns::{Refusal, Store};
///
/// let mut store = Store::<2, 1>::new();
/// let refusal = store.start(3).unwrap_err();
/// assert_eq!(refusal, Refusal::BadSize);
/// assert_eq!(refusal.number(), 1);
/// assert!(refusal.to_string().starts_with("refused 1: "));
/// ```
#[derive(Clone, Copy, Debug, PartialEq, Eq, Hash)]
#[non_exhaustive]
pub enum Refusal {
    /// 1: N, g or M is out of limits, or a lent part has another length than they ask for. The
    /// set-up must be mended, or the store hasn't been started.
    BadSize,
    /// 2: a number that the call reads is out of range. Somebody else wrote into the lent memory:
    /// the store must be started anew.
    BadNumber,
    /// 3: there is no such writer, slot, field or page. The call must be mended.
    NoSuch,
    /// 4: the writer has a job, and the call isn't `next`, which does its next turn.
    Busy,
    /// 5: there is nothing to do. `next` without a job, or `answer` when the writer's status equals
    /// what is posted.
    NoTurn,
    /// 6: read or store through an empty slot. The call must be mended.
    EmptySlot,
    /// 7: create with no free cell. It may go when the collector has gone on.
    Full,
    /// A number that has no name in this crate: the archive is of another [`version`] than the
    /// crate. What the call has changed isn't known, unless the number is below 100; then it is a
    /// refusal, and nothing has.
    ///
    /// [`version`]: crate::version
    Other(u32),
}

impl Refusal {
    /// The refusal of that number. One without a name becomes [`Refusal::Other`].
    ///
    /// ```
    /// use turns::Refusal;
    ///
    /// assert_eq!(Refusal::of(7), Refusal::Full);
    /// assert_eq!(Refusal::of(99), Refusal::Other(99));
    /// ```
    #[must_use]
    pub const fn of(number: u32) -> Refusal {
        match number {
            1 => Refusal::BadSize,
            2 => Refusal::BadNumber,
            3 => Refusal::NoSuch,
            4 => Refusal::Busy,
            5 => Refusal::NoTurn,
            6 => Refusal::EmptySlot,
            7 => Refusal::Full,
            other => Refusal::Other(other),
        }
    }

    /// The number of the refusal, as C sees it.
    ///
    /// ```
    /// assert_eq!(turns::Refusal::Busy.number(), 4);
    /// ```
    #[must_use]
    pub const fn number(self) -> u32 {
        match self {
            Refusal::BadSize => 1,
            Refusal::BadNumber => 2,
            Refusal::NoSuch => 3,
            Refusal::Busy => 4,
            Refusal::NoTurn => 5,
            Refusal::EmptySlot => 6,
            Refusal::Full => 7,
            Refusal::Other(number) => number,
        }
    }

    /// What is wrong, and what to do about it.
    const fn sentence(self) -> &'static str {
        match self {
            Refusal::BadSize => {
                "the numbers of cells, pages and writers are out of limits \
                 or do not fit the lent memory, or the store was not started"
            }
            Refusal::BadNumber => {
                "a number in the lent memory is out of range; \
                 something else has written there, so start the store anew"
            }
            Refusal::NoSuch => "there is no such writer, slot, field or page",
            Refusal::Busy => "the writer has an unfinished job; make next until it is done",
            Refusal::NoTurn => "the writer has no job to go on with, or nothing to answer",
            Refusal::EmptySlot => "the slot is empty; there is no cell to read or to store into",
            Refusal::Full => "no cell is free; let the collector go on and try again",
            Refusal::Other(_) => {
                "this number is unknown here; \
                 libturns.a and the crate turns must be of the same version"
            }
        }
    }
}

impl fmt::Display for Refusal {
    fn fmt(&self, f: &mut fmt::Formatter<'_>) -> fmt::Result {
        write!(f, "refused {}: {}", self.number(), self.sentence())
    }
}

impl Error for Refusal {}
