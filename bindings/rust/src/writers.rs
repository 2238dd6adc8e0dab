//! The writers' calls over the four parts of a store.

use crate::answers::done;
use crate::row::words_mut;
use crate::{lent, Parts, Progress, Refusal};

/// The calls of a writer. Each reads the record and the writer's row, and changes that row.
///
/// [`page`](Parts::page), [`copy`](Parts::copy), [`drop`](Parts::drop) and [`read`](Parts::read)
/// are one turn. The others begin a job, of which [`next`](Parts::next) does the later turns; until
/// it is done the writer can make no other call. Jobs of different writers may stand side by side.
///
/// All can be refused with [`NoSuch`](Refusal::NoSuch), and all but `next` with
/// [`Busy`](Refusal::Busy) while the writer has a job. A started store that these calls alone have
/// changed gives no [`BadSize`](Refusal::BadSize) and no [`BadNumber`](Refusal::BadNumber).
impl Parts<'_> {
    /// Puts page `p` in slot `s` of writer `w`.
    ///
    /// ```
    /// # let mut store = turns::Store::<4, 1>::new();
    /// # store.start(2)?;
    /// # let mut parts = store.parts();
    /// parts.page(0, 1, 3)?;
    /// assert_eq!(parts.desk[0].slots[3], 1);
    /// # Ok::<(), turns::Refusal>(())
    /// ```
    ///
    /// # Errors
    ///
    /// [`NoSuch`](Refusal::NoSuch) writer, page or slot; [`Busy`](Refusal::Busy).
    pub fn page(&mut self, w: u32, p: u32, s: u32) -> Result<(), Refusal> {
        let (record, desk, fields, colours) = self.lend();
        done(lent::page(record, desk, fields, colours, w, p, s))
    }

    /// Copies slot `r` to slot `s`, also where it is empty.
    ///
    /// ```
    /// # let mut store = turns::Store::<4, 1>::new();
    /// # store.start(2)?;
    /// # let mut parts = store.parts();
    /// parts.page(0, 1, 3)?;
    /// parts.copy(0, 3, 4)?;
    /// assert_eq!(parts.desk[0].slots[4], 1);
    /// # Ok::<(), turns::Refusal>(())
    /// ```
    ///
    /// # Errors
    ///
    /// [`NoSuch`](Refusal::NoSuch) writer or slot; [`Busy`](Refusal::Busy).
    pub fn copy(&mut self, w: u32, r: u32, s: u32) -> Result<(), Refusal> {
        let (record, desk, fields, colours) = self.lend();
        done(lent::copy(record, desk, fields, colours, w, r, s))
    }

    /// Empties slot `r`, which may be empty. What it held is free again when the collector finds
    /// that nothing leads to it.
    ///
    /// ```
    /// # let mut store = turns::Store::<4, 1>::new();
    /// # store.start(2)?;
    /// # let mut parts = store.parts();
    /// parts.page(0, 1, 3)?;
    /// parts.drop(0, 3)?;
    /// assert_eq!(parts.desk[0].slots[3], turns::NONE);
    /// # Ok::<(), turns::Refusal>(())
    /// ```
    ///
    /// # Errors
    ///
    /// [`NoSuch`](Refusal::NoSuch) writer or slot; [`Busy`](Refusal::Busy).
    pub fn drop(&mut self, w: u32, r: u32) -> Result<(), Refusal> {
        let (record, desk, fields, colours) = self.lend();
        done(lent::drop(record, desk, fields, colours, w, r))
    }

    /// Puts field `f` of the cell in slot `r` into slot `s`.
    ///
    /// ```
    /// # let mut store = turns::Store::<4, 1>::new();
    /// # store.start(2)?;
    /// # let mut parts = store.parts();
    /// parts.page(0, 1, 3)?;
    /// parts.read(0, 3, 2, 5)?;
    /// assert_eq!(parts.desk[0].slots[5], turns::NONE); // nothing was stored there
    /// assert_eq!(parts.read(0, 5, 2, 6), Err(turns::Refusal::EmptySlot));
    /// # Ok::<(), turns::Refusal>(())
    /// ```
    ///
    /// # Errors
    ///
    /// [`NoSuch`](Refusal::NoSuch) writer, slot or field; [`Busy`](Refusal::Busy);
    /// [`EmptySlot`](Refusal::EmptySlot) where slot `r` is empty.
    pub fn read(&mut self, w: u32, r: u32, f: u32, s: u32) -> Result<(), Refusal> {
        let (record, desk, fields, colours) = self.lend();
        done(lent::read(record, desk, fields, colours, w, r, f, s))
    }

    /// Begins to store slot `q`, which may be empty, into field `f` of the cell in slot `r`.
    ///
    /// It takes five turns while the writer's status is 1 or 2, four at status 0 while the
    /// collector marks (stages 3 and 4), and two otherwise. What is stored, and where, is fixed by
    /// this first one.
    ///
    /// ```
    /// # let mut store = turns::Store::<4, 1>::new();
    /// # store.start(2)?;
    /// # let mut parts = store.parts();
    /// use turns::Progress;
    ///
    /// parts.page(0, 0, 3)?;
    /// parts.page(0, 1, 4)?;
    /// assert_eq!(parts.store(0, 3, 2, 4)?, Progress::More);
    /// assert_eq!(parts.next(0)?, Progress::Done);
    /// assert_eq!(parts.fields[2], 1); // field 2 of page 0 holds page 1
    /// # Ok::<(), turns::Refusal>(())
    /// ```
    ///
    /// # Errors
    ///
    /// [`NoSuch`](Refusal::NoSuch) writer, slot or field; [`Busy`](Refusal::Busy);
    /// [`EmptySlot`](Refusal::EmptySlot) where slot `r` is empty.
    pub fn store(&mut self, w: u32, r: u32, f: u32, q: u32) -> Result<Progress, Refusal> {
        let (record, desk, fields, colours) = self.lend();
        Progress::of(lent::store(record, desk, fields, colours, w, r, f, q))
    }

    /// Begins to create a cell into slot `s`: the lowest free one, with four empty fields. It takes
    /// three turns, and the slot is as it was until the last of them.
    ///
    /// ```
    /// # let mut store = turns::Store::<4, 1>::new();
    /// # store.start(2)?;
    /// # let mut parts = store.parts();
    /// use turns::Progress;
    ///
    /// assert_eq!(parts.create(0, 1)?, Progress::More);
    /// assert_eq!(parts.next(0)?, Progress::More);
    /// assert_eq!(parts.next(0)?, Progress::Done);
    /// assert_eq!(parts.desk[0].slots[1], 2); // cells 0 and 1 are pages
    /// # Ok::<(), turns::Refusal>(())
    /// ```
    ///
    /// # Errors
    ///
    /// [`NoSuch`](Refusal::NoSuch) writer or slot; [`Busy`](Refusal::Busy);
    /// [`Full`](Refusal::Full) where no cell is free.
    pub fn create(&mut self, w: u32, s: u32) -> Result<Progress, Refusal> {
        let (record, desk, fields, colours) = self.lend();
        Progress::of(lent::create(record, desk, fields, colours, w, s))
    }

    /// Answers the handshake: one turn in the first and the second, ten in the third.
    /// [`must_answer`](Parts::must_answer) tells whether the writer has one to answer.
    ///
    /// ```
    /// # let mut store = turns::Store::<4, 1>::new();
    /// # store.start(2)?;
    /// # let mut parts = store.parts();
    /// use turns::{Collected, Progress, Refusal};
    ///
    /// assert_eq!(parts.answer(0), Err(Refusal::NoTurn)); // at rest
    /// assert_eq!(parts.collect()?, Collected::Worked); // the first handshake is posted
    /// assert_eq!(parts.answer(0)?, Progress::Done);
    /// # Ok::<(), turns::Refusal>(())
    /// ```
    ///
    /// # Errors
    ///
    /// [`NoSuch`](Refusal::NoSuch) writer; [`Busy`](Refusal::Busy); [`NoTurn`](Refusal::NoTurn)
    /// where its status is the posted one.
    pub fn answer(&mut self, w: u32) -> Result<Progress, Refusal> {
        let (record, desk, fields, colours) = self.lend();
        Progress::of(lent::answer(record, desk, fields, colours, w))
    }

    /// The next turn of the writer's job.
    ///
    /// ```
    /// # let mut store = turns::Store::<4, 1>::new();
    /// # store.start(2)?;
    /// # let mut parts = store.parts();
    /// use turns::{Progress, Refusal};
    ///
    /// let mut progress = parts.create(0, 0)?;
    /// assert_eq!(parts.drop(0, 0), Err(Refusal::Busy));
    /// while progress == Progress::More {
    ///     progress = parts.next(0)?;
    /// }
    /// assert_eq!(parts.next(0), Err(Refusal::NoTurn));
    /// # Ok::<(), turns::Refusal>(())
    /// ```
    ///
    /// # Errors
    ///
    /// [`NoSuch`](Refusal::NoSuch) writer; [`NoTurn`](Refusal::NoTurn) where it has no job.
    pub fn next(&mut self, w: u32) -> Result<Progress, Refusal> {
        let (record, desk, fields, colours) = self.lend();
        Progress::of(lent::next(record, desk, fields, colours, w))
    }

    /// The parts as a writer's call takes them.
    fn lend(&mut self) -> (&[u32], &mut [u16], &mut [u16], &mut [u8]) {
        (
            self.record.numbers(),
            words_mut(self.desk),
            self.fields,
            self.colours,
        )
    }
}
