//! A call as a value, to be made on any machine.

use crate::machine::Machine;
use crate::parts::{Parts, Sizes};

#[derive(Clone, Copy, Debug, PartialEq)]
pub enum Call {
    Start { n: u32, g: u32, m: u32 },
    Page { w: u32, p: u32, s: u32 },
    Copy { w: u32, r: u32, s: u32 },
    Drop { w: u32, r: u32 },
    Read { w: u32, r: u32, f: u32, s: u32 },
    Store { w: u32, r: u32, f: u32, q: u32 },
    Create { w: u32, s: u32 },
    Answer { w: u32 },
    Next { w: u32 },
    Collect,
    Census,
}

impl Call {
    /// The start that gives a store these sizes.
    pub fn start(sizes: Sizes) -> Call {
        let Sizes { n, g, m } = sizes;
        Call::Start { n, g, m }
    }

    /// Makes the call; the answer is the number of `turns.h`.
    pub fn make<M: Machine>(self, parts: &mut Parts) -> u32 {
        let (lent, counts) = parts.lend();
        match self {
            Call::Start { n, g, m } => M::start(lent, n, g, m),
            Call::Page { w, p, s } => M::page(lent, w, p, s),
            Call::Copy { w, r, s } => M::copy(lent, w, r, s),
            Call::Drop { w, r } => M::drop(lent, w, r),
            Call::Read { w, r, f, s } => M::read(lent, w, r, f, s),
            Call::Store { w, r, f, q } => M::store(lent, w, r, f, q),
            Call::Create { w, s } => M::create(lent, w, s),
            Call::Answer { w } => M::answer(lent, w),
            Call::Next { w } => M::next(lent, w),
            Call::Collect => M::collect(lent),
            Call::Census => M::census(lent, counts),
        }
    }

    /// The numbers of the call.
    pub fn numbers(&mut self) -> Vec<&mut u32> {
        match self {
            Call::Start { n, g, m } => vec![n, g, m],
            Call::Page { w, p, s } => vec![w, p, s],
            Call::Copy { w, r, s } => vec![w, r, s],
            Call::Drop { w, r } => vec![w, r],
            Call::Read { w, r, f, s } => vec![w, r, f, s],
            Call::Store { w, r, f, q } => vec![w, r, f, q],
            Call::Create { w, s } => vec![w, s],
            Call::Answer { w } | Call::Next { w } => vec![w],
            Call::Collect | Call::Census => vec![],
        }
    }
}
