//! The machine of document 01 in plain Rust, written from the paper alone.
//!
//! Each call takes the lent parts as slices of numbers, in the layouts of
//! `turns.h`, and answers with that file's numbers. `S` names a shortcut that
//! the machine takes: 0 is none, the true machine; the others are listed in
//! [`shortcut`] and exist to show that a watch over the machine can fail.

#![forbid(unsafe_code)]
// A call has the parameters of `turns.h`, four of them the lent parts.
#![allow(clippy::too_many_arguments)]

mod census;
mod collector;
mod numbers;
pub mod player;
mod record;
mod row;
pub mod shortcut;
mod start;
mod writer;

pub use census::census;
pub use collector::{collect, cycle_bound};
pub use numbers::*;
pub use start::start;
pub use writer::{answer, copy, create, drop, next, page, read, store};
