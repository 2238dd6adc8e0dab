//! The counts of a census.

/// What a [census](crate::Parts::census) counts.
#[derive(Clone, Copy, Debug, Default, PartialEq, Eq, Hash)]
pub struct Counts {
    /// Free cells.
    pub free: u32,
    /// White cells.
    pub white: u32,
    /// Gray cells.
    pub gray: u32,
    /// Black cells.
    pub black: u32,
    /// Cells in use that fields lead to from pages and slots, through cells in use.
    pub held: u32,
    /// Cells in use that aren't held. A cell in the making floats until its creation is finished.
    pub floating: u32,
}
