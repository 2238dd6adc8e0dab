//! A store that owns its four parts.

use crate::{Parts, Record, Refusal, Row, FIELDS, MOST_CELLS, MOST_WRITERS};

/// A store of `N` cells and `M` writers that owns its four parts, 36 + 32M + 9N bytes, and needs no
/// heap. [`start`](Store::start) fills it, and [`parts`](Store::parts) lends it to the calls.
///
/// ```
/// use turns::{Refusal, Store};
///
/// let mut store = Store::<64, 2>::new();
/// assert_eq!(store.parts().page(0, 0, 1), Err(Refusal::BadSize)); // it hasn't been started
/// store.start(4)?;
/// store.parts().page(0, 0, 1)?;
/// assert_eq!(store.desk()[0].slots[1], 0);
/// # Ok::<(), turns::Refusal>(())
/// ```
///
/// It can lie in a static:
///
/// ```
/// use std::sync::Mutex;
/// use turns::{Refusal, Store};
///
/// static ARCHIVE: Mutex<Store<4096, 8>> = Mutex::new(Store::new());
///
/// ARCHIVE.lock().unwrap().start(16)?;
/// # Ok::<(), Refusal>(())
/// ```
///
/// `N` is 1 to 4,096 and `M` is 1 to 8; others don't compile:
///
/// ```compile_fail
/// let store = turns::Store::<4097, 1>::new();
/// ```
///
/// ```compile_fail
/// let store = turns::Store::<64, 9>::new();
/// ```
#[derive(Clone, Debug, PartialEq, Eq)]
pub struct Store<const N: usize, const M: usize> {
    record: Record,
    desk: [Row; M],
    fields: [[u16; FIELDS]; N],
    colours: [u8; N],
}

impl<const N: usize, const M: usize> Store<N, M> {
    /// N and M as the calls take them, if they are within limits.
    const SIZES: (u32, u32) = {
        assert!(N >= 1 && N <= MOST_CELLS as usize, "N is 1 to 4,096");
        assert!(M >= 1 && M <= MOST_WRITERS as usize, "M is 1 to 8");
        (N as u32, M as u32)
    };

    /// A store before its start. Every call but start is refused with
    /// [`BadSize`](Refusal::BadSize).
    #[must_use]
    pub const fn new() -> Self {
        let _ = Self::SIZES;
        Store {
            record: Record::ZERO,
            desk: [Row::ZERO; M],
            fields: [[0; FIELDS]; N],
            colours: [0; N],
        }
    }

    /// Starts the store, or starts it anew, with `g` pages: [`Parts::start`] with the sizes that
    /// it has.
    ///
    /// ```
    /// use turns::{Refusal, Store};
    ///
    /// let mut store = Store::<2, 1>::new();
    /// assert_eq!(store.start(3), Err(Refusal::BadSize)); // more pages than cells
    /// assert_eq!(store.start(1), Ok(()));
    /// ```
    ///
    /// # Errors
    ///
    /// [`BadSize`](Refusal::BadSize) where `g` is 0, above 16 or above N. The store is as it was.
    pub fn start(&mut self, g: u32) -> Result<(), Refusal> {
        let (n, m) = Self::SIZES;
        self.parts().start(n, g, m)
    }

    /// Lends the four parts to the calls.
    pub fn parts(&mut self) -> Parts<'_> {
        Parts {
            record: &mut self.record,
            desk: &mut self.desk,
            fields: self.fields.as_flattened_mut(),
            colours: &mut self.colours,
        }
    }

    /// The collector's record.
    #[must_use]
    pub const fn record(&self) -> &Record {
        &self.record
    }

    /// The writers' rows.
    #[must_use]
    pub const fn desk(&self) -> &[Row; M] {
        &self.desk
    }

    /// The cells' fields: a cell, or [`NONE`](crate::NONE).
    #[must_use]
    pub const fn fields(&self) -> &[[u16; FIELDS]; N] {
        &self.fields
    }

    /// The cells' colours, named in [`colour`](crate::colour).
    #[must_use]
    pub const fn colours(&self) -> &[u8; N] {
        &self.colours
    }
}

impl<const N: usize, const M: usize> Default for Store<N, M> {
    fn default() -> Self {
        Store::new()
    }
}
