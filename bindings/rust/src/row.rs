//! A writer's row of the desk.

use crate::SLOTS;
use core::mem::offset_of;
use core::slice;

/// A writer's row of the desk: sixteen words, laid out as in C.
///
/// A start writes every row, and a writer's turn that isn't refused writes its own row whole, with
/// 0 in the words that its job has no use for. Such words aren't read. They are plain numbers,
/// since memory that was damaged may hold any; each call tests those that it reads, and refuses
/// those out of range.
#[repr(C)]
#[derive(Clone, Copy, Debug, Default, PartialEq, Eq, Hash)]
pub struct Row {
    /// What the writer has answered last: 0 to 2, named in [`status`](crate::status). A handshake
    /// asks every writer for the status that is [posted](crate::Parts::posted).
    pub status: u16,
    /// Eight slots, each with a cell or [`NONE`](crate::NONE).
    pub slots: [u16; SLOTS],
    /// What the writer is doing: 0 to 3, named in [`job`](crate::job).
    pub job: u16,
    /// What the job's next turn does, named in [`step`](crate::step).
    pub step: u16,
    /// Storing: the cell that is stored into. Creating: the new cell.
    pub cell: u16,
    /// Storing: the field, 0 to 3. Creating: the slot, 0 to 7.
    pub at: u16,
    /// Storing: the new value, a cell or none.
    pub fresh: u16,
    /// Storing: the old value, a cell or none. It is none until it is read.
    pub old: u16,
    /// No job has a use for it.
    pub spare: u16,
}

impl Row {
    /// Before a start.
    pub const ZERO: Row = Row {
        status: 0,
        slots: [0; SLOTS],
        job: 0,
        step: 0,
        cell: 0,
        at: 0,
        fresh: 0,
        old: 0,
        spare: 0,
    };
}

/// The desk as the archive takes it.
pub(crate) fn words(desk: &[Row]) -> &[u16] {
    // SAFETY: a row has the size, the alignment and the order of sixteen words, as asserted below,
    // and any words are valid in either. The lifetime is that of the desk's borrow.
    let rows: &[[u16; 16]] = unsafe { slice::from_raw_parts(desk.as_ptr().cast(), desk.len()) };
    rows.as_flattened()
}

/// The desk as the archive takes it to write.
pub(crate) fn words_mut(desk: &mut [Row]) -> &mut [u16] {
    let (first, rows) = (desk.as_mut_ptr().cast(), desk.len());
    // SAFETY: as in `words`, and the borrow is the only one.
    let rows: &mut [[u16; 16]] = unsafe { slice::from_raw_parts_mut(first, rows) };
    rows.as_flattened_mut()
}

/// A row is sixteen words in this order, with no gap between them.
const _: () = {
    assert!(size_of::<Row>() == size_of::<[u16; 16]>());
    assert!(align_of::<Row>() == align_of::<[u16; 16]>());
    assert!(offset_of!(Row, status) == 0);
    assert!(offset_of!(Row, slots) == 2);
    assert!(offset_of!(Row, job) == 18);
    assert!(offset_of!(Row, step) == 20);
    assert!(offset_of!(Row, cell) == 22);
    assert!(offset_of!(Row, at) == 24);
    assert!(offset_of!(Row, fresh) == 26);
    assert!(offset_of!(Row, old) == 28);
    assert!(offset_of!(Row, spare) == 30);
};
