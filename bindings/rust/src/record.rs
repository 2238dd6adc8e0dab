//! The collector's record.

use core::mem::offset_of;
use core::ptr;

/// The collector's record: nine numbers, laid out as in C.
///
/// A start writes them all, a turn of the collector some of them, a writer's turn none. They may be
/// read at any time between calls. They are plain numbers, since memory that was damaged may hold
/// any; each call tests them, and refuses those out of range.
#[repr(C)]
#[derive(Clone, Copy, Debug, Default, PartialEq, Eq, Hash)]
pub struct Record {
    /// N, the number of cells: 1 to 4,096.
    pub n: u32,
    /// g, the number of pages: 1 to 16, and at most N. They are the cells 0 to g − 1.
    pub g: u32,
    /// M, the number of writers: 1 to 8.
    pub m: u32,
    /// What the collector does: 0 to 5, named in [`stage`](crate::stage).
    pub stage: u32,
    /// The page or cell that it is at: 0 in stages 0 to 2, at most g in stage 3, at most N in
    /// stages 4 and 5.
    pub place: u32,
    /// How far it is with the cell that is open in stage 4: 0 where none is; 1, 3, 5, 7 before it
    /// reads field 0, 1, 2, 3, and 2, 4, 6, 8 before it grays what was read; 9 before the cell
    /// becomes black.
    pub part: u32,
    /// What was read from the field, in parts 2, 4, 6 and 8: a cell, or none. Else none, which is
    /// 65,535.
    pub hold: u32,
    /// 1 if this pass of the scan has opened a cell, else 0.
    pub found: u32,
    /// The working turns since the cycle was opened. After its closing they stay until the next
    /// opening.
    pub count: u32,
}

impl Record {
    /// Before a start: every call but start is refused with [`BadSize`](crate::Refusal::BadSize),
    /// since N, g and M are 0.
    pub const ZERO: Record = Record {
        n: 0,
        g: 0,
        m: 0,
        stage: 0,
        place: 0,
        part: 0,
        hold: 0,
        found: 0,
        count: 0,
    };

    /// The record as the archive takes it.
    pub(crate) fn numbers(&self) -> &[u32; 9] {
        // SAFETY: a record has the size, the alignment and the order of nine numbers, as asserted
        // below, and any numbers are valid in either. The lifetime is that of the record's borrow.
        unsafe { &*ptr::from_ref(self).cast() }
    }

    /// The record as the archive takes it to write.
    pub(crate) fn numbers_mut(&mut self) -> &mut [u32; 9] {
        // SAFETY: as in `numbers`, and the borrow is the only one.
        unsafe { &mut *ptr::from_mut(self).cast() }
    }
}

/// A record is nine numbers in this order, with no gap between them.
const _: () = {
    assert!(size_of::<Record>() == size_of::<[u32; 9]>());
    assert!(align_of::<Record>() == align_of::<[u32; 9]>());
    assert!(offset_of!(Record, n) == 0);
    assert!(offset_of!(Record, g) == 4);
    assert!(offset_of!(Record, m) == 8);
    assert!(offset_of!(Record, stage) == 12);
    assert!(offset_of!(Record, place) == 16);
    assert!(offset_of!(Record, part) == 20);
    assert!(offset_of!(Record, hold) == 24);
    assert!(offset_of!(Record, found) == 28);
    assert!(offset_of!(Record, count) == 32);
};
