//! What an idle writer does: single moves, and short plans that race with the collector.

use crate::call::Call;
use crate::chance::Chance;
use crate::parts::{Parts, Sizes};
use reference::{FREE, NONE, SLOT};

/// How many pages, slots and fields are in use for a while: the fewer, the more writers meet.
#[derive(Clone, Copy)]
pub struct Span {
    pub pages: u32,
    pub slots: u32,
    pub fields: u32,
}

impl Span {
    /// All that there are.
    pub fn whole(sizes: Sizes) -> Span {
        Span {
            pages: sizes.g,
            slots: 8,
            fields: 4,
        }
    }

    pub fn draw(chance: &mut Chance, sizes: Sizes) -> Span {
        Span {
            pages: chance.between(1, sizes.g),
            slots: chance.pick(&[2, 3, 4, 8]),
            fields: chance.pick(&[1, 2, 4]),
        }
    }
}

/// A single move of writer `w`, of the kind 0 to 5.
pub fn single(chance: &mut Chance, span: Span, w: u32, kind: u32) -> Call {
    let [r, s] = [(); 2].map(|()| chance.below(span.slots));
    let f = chance.below(span.fields);
    match kind {
        0 => {
            let p = chance.below(span.pages);
            Call::Page { w, p, s }
        }
        1 => Call::Copy { w, r, s },
        2 => Call::Drop { w, r },
        3 => Call::Read { w, r, f, s },
        4 => Call::Store { w, r, f, q: s },
        _ => Call::Create { w, s },
    }
}

/// The next calls of writer `w`, in their order.
pub fn plan(chance: &mut Chance, parts: &Parts, span: Span, w: u32) -> Vec<Call> {
    let [a, b, c] = [(); 3].map(|()| chance.below(span.slots));
    let [f, h] = [(); 2].map(|()| chance.below(span.fields));
    let page = Call::Page {
        w,
        p: chance.below(span.pages),
        s: a,
    };
    // Most plans begin at a cell in slot a.
    if parts.word(w, SLOT + a as usize) == NONE {
        return vec![page];
    }
    let create = Call::Create { w, s: b };
    let read = Call::Read { w, r: a, f, s: c };
    let link = Call::Store {
        w,
        r: b,
        f: h,
        q: c,
    };
    let hang = Call::Store { w, r: a, f, q: b };
    let cut = Call::Store { w, r: a, f, q: c };
    let down = Call::Read { w, r: a, f, s: a };
    let [drop_a, drop_b, drop_c] = [a, b, c].map(|r| Call::Drop { w, r });
    let full = !parts.colours.contains(&FREE);
    match chance.below(16) {
        // A full store is let go of, so that cells can be created again.
        0 if full => vec![drop_c, cut],
        0..=4 if full => vec![drop_a, drop_b, drop_c],
        // Puts a new cell between another and what its field held.
        0..=2 => vec![create, read, link, hang, drop_b, drop_c],
        // Hangs a new cell below another, and goes down to it.
        3 | 4 => vec![create, hang, Call::Copy { w, r: b, s: a }, drop_b],
        // Goes down from a page, or further down.
        5 | 6 => vec![page, down],
        7 => vec![down],
        // Takes a cell out of its field, which may be the only way to it.
        8 => vec![read, drop_b, hang],
        // Moves a cell from one field to another.
        9 => vec![read, link, drop_c, cut],
        10 => vec![read],
        11 => vec![drop_a],
        12 => vec![drop_a, drop_b, drop_c],
        _ => {
            let kind = chance.below(6);
            vec![single(chance, span, w, kind)]
        }
    }
}
