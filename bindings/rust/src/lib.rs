//! The turn library for Rust: a concurrent collector over memory that the caller owns.
//!
//! A store is four parts: a [`Record`], a desk of a [`Row`] for each writer, the fields and the
//! colours of its cells. They are lent to every call, and a call is one turn, of one writer or of
//! the collector. Which turn comes next is up to the program: any order is safe, no call blocks,
//! and what can be reached is never freed.
//!
//! A call takes any numbers and any contents of the four parts. What it can't do it refuses, with
//! a [`Refusal`] that says why, and a refusal changes nothing. Nothing is allocated and no state is
//! kept between calls.
//!
//! - [`Store`] owns the four parts, for N cells and M writers that the program fixes.
//! - [`Parts`] has the calls, over four parts that are lent to it.
//! - [`lent`] has the same calls over plain slices of numbers, as C sees them.
//!
//! The calls are those of `libturns.a`, where they are proved. What stands in this crate isn't: it
//! passes pointers and lengths on, and gives names to numbers. [`version`] tells whether archive
//! and crate are of one version.
//!
//! # A cycle
//!
//! A store of two cells, of which cell 0 is a page. A cell is created and dropped, and the
//! collector takes it back; where it waits, the writer answers.
//!
//! ```
//! use turns::{stage, Collected, Parts, Progress, Refusal, Store};
//!
//! /// The rest of a job, which may be none.
//! fn finish(parts: &mut Parts, w: u32, mut progress: Progress) -> Result<(), Refusal> {
//!     while progress == Progress::More {
//!         progress = parts.next(w)?;
//!     }
//!     Ok(())
//! }
//!
//! fn main() -> Result<(), Refusal> {
//!     assert_eq!(turns::version(), turns::VERSION);
//!
//!     let mut store = Store::<2, 1>::new();
//!     store.start(1)?;
//!     let mut parts = store.parts();
//!
//!     let begun = parts.create(0, 0)?;
//!     finish(&mut parts, 0, begun)?;
//!     assert_eq!(parts.create(0, 1), Err(Refusal::Full));
//!     parts.drop(0, 0)?;
//!     assert_eq!(parts.census()?.floating, 1);
//!
//!     loop {
//!         if parts.collect()? == Collected::Waited {
//!             let begun = parts.answer(0)?;
//!             finish(&mut parts, 0, begun)?;
//!         } else if parts.record.stage == stage::REST {
//!             break;
//!         }
//!     }
//!     assert_eq!(parts.record.count, 23);
//!     assert_eq!(parts.census()?.free, 1);
//!     Ok(())
//! }
//! ```

#![no_std]
#![deny(missing_docs)]
#![deny(clippy::undocumented_unsafe_blocks)]
#![deny(clippy::unwrap_used, clippy::expect_used, clippy::panic)]
#![deny(clippy::indexing_slicing)]

mod answers;
mod counts;
pub mod lent;
mod names;
mod parts;
mod record;
mod refusal;
mod row;
mod store;
mod writers;

pub use answers::{Collected, Progress};
pub use counts::Counts;
#[doc(inline)]
pub use lent::{cycle_bound, version};
pub use names::{colour, job, stage, status, step};
pub use names::{FIELDS, MOST_CELLS, MOST_PAGES, MOST_WRITERS, NONE, SLOTS};
pub use parts::Parts;
pub use record::Record;
pub use refusal::Refusal;
pub use row::Row;
pub use store::Store;

/// The version that this crate is of: 10,000 × major + 100 × minor + patch. The archive's is
/// [`version`]; where the two differ, an answer may be a number that this crate has no name for,
/// and becomes [`Refusal::Other`].
pub const VERSION: u32 = 200;

/// The examples of the readme, run as tests.
#[cfg(doctest)]
#[doc = include_str!("../README.md")]
mod readme {}
