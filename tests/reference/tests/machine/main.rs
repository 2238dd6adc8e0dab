//! The machine and the player on the paper's own cases.

#[macro_use]
mod store;

mod points;
mod refusals;
mod whole_case;
