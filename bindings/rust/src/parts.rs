//! The four parts of a store, with the calls that aren't a writer's.

use crate::answers::done;
use crate::row::{words, words_mut};
use crate::{lent, stage, status, Collected, Counts, Record, Refusal, Row};

/// The four parts of a store, lent, with the calls as its methods.
///
/// Lend the same four parts to every call of a store, and write to them by these calls alone; then
/// no call is refused with [`BadSize`](Refusal::BadSize) or [`BadNumber`](Refusal::BadNumber) after
/// a start. They may be read at any time between calls. [`Store`](crate::Store) owns such parts; or
/// they lie wherever the program has them:
///
/// ```
/// use turns::{Parts, Record, Row};
///
/// let (n, g, m) = (100, 4, 2);
/// let mut parts = Parts {
///     record: &mut Record::ZERO,
///     desk: &mut vec![Row::ZERO; m],
///     fields: &mut vec![0; 4 * n],
///     colours: &mut vec![0; n],
/// };
/// parts.start(n as u32, g, m as u32)?;
/// assert_eq!(parts.census()?.free, 96);
/// # Ok::<(), turns::Refusal>(())
/// ```
///
/// A writer, a slot, a field or a page is a number counted from 0: `w` is a writer, `r`, `s` and
/// `q` are slots, `f` is a field, `p` a page.
#[derive(Debug)]
pub struct Parts<'a> {
    /// The collector's record.
    pub record: &'a mut Record,
    /// The desk: a row for each of the M writers.
    pub desk: &'a mut [Row],
    /// The fields of the N cells: four words each, a cell or [`NONE`](crate::NONE).
    pub fields: &'a mut [u16],
    /// The colours of the N cells: a byte each, named in [`colour`](crate::colour).
    pub colours: &'a mut [u8],
}

impl Parts<'_> {
    /// Fills all four parts, whatever stood there: `n` cells, `g` of them pages, and `m` writers.
    /// Fields and slots are none, pages white, other cells free, the collector at rest.
    ///
    /// ```
    /// use turns::{Parts, Record, Refusal, Row};
    ///
    /// let mut parts = Parts {
    ///     record: &mut Record::ZERO,
    ///     desk: &mut [Row::ZERO; 1],
    ///     fields: &mut [0; 8],
    ///     colours: &mut [0; 2],
    /// };
    /// assert_eq!(parts.start(2, 1, 1), Ok(()));
    /// assert_eq!(parts.start(3, 1, 1), Err(Refusal::BadSize)); // the parts are of two cells
    /// ```
    ///
    /// # Errors
    ///
    /// [`BadSize`](Refusal::BadSize) where a number is out of limits or a part has another length.
    pub fn start(&mut self, n: u32, g: u32, m: u32) -> Result<(), Refusal> {
        done(lent::start(
            self.record.numbers_mut(),
            words_mut(self.desk),
            self.fields,
            self.colours,
            n,
            g,
            m,
        ))
    }

    /// A turn of the collector: what the record's stage asks for. It changes the record and at most
    /// one colour, and its cost doesn't grow with N. The [example](crate#a-cycle) has a whole cycle.
    ///
    /// ```
    /// use turns::{Collected, Store};
    ///
    /// let mut store = Store::<2, 1>::new();
    /// store.start(1)?;
    /// let mut parts = store.parts();
    /// assert_eq!(parts.collect()?, Collected::Worked); // a cycle is open, and 1 is posted
    /// assert_eq!(parts.collect()?, Collected::Waited); // writer 0 hasn't answered
    /// # Ok::<(), turns::Refusal>(())
    /// ```
    ///
    /// # Errors
    ///
    /// [`BadSize`](Refusal::BadSize) or [`BadNumber`](Refusal::BadNumber), which a started store
    /// that these calls alone have changed doesn't give.
    pub fn collect(&mut self) -> Result<Collected, Refusal> {
        Collected::of(lent::collect(
            self.record.numbers_mut(),
            words(self.desk),
            self.fields,
            self.colours,
        ))
    }

    /// Counts the cells, and changes nothing. Its time is linear in the store.
    ///
    /// ```
    /// use turns::{Counts, Store};
    ///
    /// let mut store = Store::<2, 1>::new();
    /// store.start(1)?;
    /// let counts = store.parts().census()?;
    /// assert_eq!(counts, Counts { free: 1, white: 1, gray: 0, black: 0, held: 1, floating: 0 });
    /// # Ok::<(), turns::Refusal>(())
    /// ```
    ///
    /// # Errors
    ///
    /// [`BadSize`](Refusal::BadSize), or [`BadNumber`](Refusal::BadNumber) where anything in the
    /// four parts is out of range.
    pub fn census(&self) -> Result<Counts, Refusal> {
        let mut six = [0; 6];
        let answer = lent::census(
            self.record.numbers(),
            words(self.desk),
            self.fields,
            self.colours,
            &mut six,
        );
        let [free, white, gray, black, held, floating] = six;
        done(answer).map(|()| Counts {
            free,
            white,
            gray,
            black,
            held,
            floating,
        })
    }

    /// The status that the collector asks every writer for: 1 and 2 in the first and the second
    /// handshake, else 0.
    ///
    /// ```
    /// use turns::{Collected, Store};
    ///
    /// let mut store = Store::<2, 1>::new();
    /// store.start(1)?;
    /// let mut parts = store.parts();
    /// assert_eq!(parts.posted(), 0);
    /// assert_eq!(parts.collect()?, Collected::Worked);
    /// assert_eq!(parts.posted(), 1);
    /// # Ok::<(), turns::Refusal>(())
    /// ```
    #[must_use]
    pub fn posted(&self) -> u16 {
        match self.record.stage {
            stage::FIRST => status::FIRST,
            stage::SECOND => status::SECOND,
            _ => status::SETTLED,
        }
    }

    /// Whether writer `w` has still to answer: its status isn't the posted one. Then
    /// [`answer`](Parts::answer) is its call; while it has a job, which may be that answer,
    /// [`next`](Parts::next) is. False where there is no writer `w`.
    ///
    /// ```
    /// use turns::{Collected, Progress, Store};
    ///
    /// let mut store = Store::<2, 1>::new();
    /// store.start(1)?;
    /// let mut parts = store.parts();
    /// assert!(!parts.must_answer(0));
    /// assert_eq!(parts.collect()?, Collected::Worked);
    /// assert!(parts.must_answer(0));
    /// assert_eq!(parts.answer(0)?, Progress::Done);
    /// assert!(!parts.must_answer(0));
    /// # Ok::<(), turns::Refusal>(())
    /// ```
    #[must_use]
    pub fn must_answer(&self, w: u32) -> bool {
        let row = usize::try_from(w).ok().and_then(|w| self.desk.get(w));
        row.is_some_and(|row| w < self.record.m && row.status != self.posted())
    }
}
