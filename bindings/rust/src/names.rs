//! Names for the numbers in a store's parts.

/// No cell: in a field, a slot, the hold, and a store's old and new values.
pub const NONE: u16 = 65_535;

/// The most cells of a store, N.
pub const MOST_CELLS: u32 = 4_096;

/// The most pages of a store, g. There are at most as many as cells.
pub const MOST_PAGES: u32 = 16;

/// The most writers of a store, M.
pub const MOST_WRITERS: u32 = 8;

/// The fields of a cell.
pub const FIELDS: usize = 4;

/// The slots of a writer.
pub const SLOTS: usize = 8;

/// The colours of cells.
pub mod colour {
    /// Not in use.
    pub const FREE: u8 = 0;
    /// In use, and not found by the collector in this cycle.
    pub const WHITE: u8 = 1;
    /// Found, with its fields still to be followed.
    pub const GRAY: u8 = 2;
    /// Found, with its fields followed; or new.
    pub const BLACK: u8 = 3;
}

/// The stages of the collector, in [`Record::stage`](crate::Record::stage).
pub mod stage {
    /// Between two cycles: the next turn opens one.
    pub const REST: u32 = 0;
    /// The first handshake: 1 is posted, and the collector waits until every status is 1.
    pub const FIRST: u32 = 1;
    /// The second handshake: 2 is posted, and the collector waits until every status is 2.
    pub const SECOND: u32 = 2;
    /// The third handshake: 0 is posted. The pages become gray, and then the collector waits until
    /// every status is 0.
    pub const PAGES: u32 = 3;
    /// The cells are looked at in passes, and what gray ones name becomes gray, until a pass finds
    /// none.
    pub const SCAN: u32 = 4;
    /// White cells become free, and black ones white. After the last cell the cycle is closed.
    pub const SWEEP: u32 = 5;
}

/// What a writer has answered last, in [`Row::status`](crate::Row::status); and what is
/// [posted](crate::Parts::posted) for it to answer.
pub mod status {
    /// The third handshake; or the writer has answered none yet.
    pub const SETTLED: u16 = 0;
    /// The first handshake.
    pub const FIRST: u16 = 1;
    /// The second handshake.
    pub const SECOND: u16 = 2;
}

/// The jobs of a writer, in [`Row::job`](crate::Row::job).
pub mod job {
    /// No job.
    pub const IDLE: u16 = 0;
    /// It answers the third handshake.
    pub const ANSWERING: u16 = 1;
    /// It stores a value into a field.
    pub const STORING: u16 = 2;
    /// It creates a cell.
    pub const CREATING: u16 = 3;
}

/// What the next turn of a job does, in [`Row::step`](crate::Row::step), where the writer is storing
/// or creating.
///
/// The step of an answering writer is the slot that is grayed next, 0 to 7, or 8 where its status
/// is all that is left to set.
pub mod step {
    /// A full store, which was begun at status 1 or 2: the old value is read.
    pub const FULL_READ: u16 = 0;
    /// A full store: the old value becomes gray.
    pub const FULL_OLD: u16 = 1;
    /// A full store: the new value becomes gray.
    pub const FULL_NEW: u16 = 2;
    /// A full store: the new value is written.
    pub const FULL_WRITE: u16 = 3;
    /// A traced store, which was begun at status 0 in stage 3 or 4: the old value is read.
    pub const TRACED_READ: u16 = 4;
    /// A traced store: the old value becomes gray.
    pub const TRACED_OLD: u16 = 5;
    /// A traced store: the new value is written.
    pub const TRACED_WRITE: u16 = 6;
    /// A bare store, which was begun at status 0 in any other stage: the new value is written.
    pub const BARE_WRITE: u16 = 7;

    /// Creating, with the look ahead: it is decided whether the cell becomes white.
    pub const AHEAD: u16 = 0;
    /// Creating: the cell goes to its slot, and stays black.
    pub const KEEP: u16 = 1;
    /// Creating: the cell becomes white, and goes to its slot.
    pub const WHITE: u16 = 2;
}
