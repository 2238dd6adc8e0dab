//! The proved library and the plain reference, side by side.

pub mod call;
pub mod chance;
pub mod damage;
pub mod machine;
pub mod memory;
pub mod moves;
pub mod options;
pub mod parts;
pub mod schedule;
pub mod watch;
