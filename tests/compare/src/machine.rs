//! A machine under test: the eleven calls on lent parts.

use crate::parts::Lent;
use reference::shortcut::{last_handshake_ahead, ONE_HANDSHAKE};
use turns::lent;

pub trait Machine {
    fn start(lent: Lent, n: u32, g: u32, m: u32) -> u32;
    fn page(lent: Lent, w: u32, p: u32, s: u32) -> u32;
    fn copy(lent: Lent, w: u32, r: u32, s: u32) -> u32;
    fn drop(lent: Lent, w: u32, r: u32) -> u32;
    fn read(lent: Lent, w: u32, r: u32, f: u32, s: u32) -> u32;
    fn store(lent: Lent, w: u32, r: u32, f: u32, q: u32) -> u32;
    fn create(lent: Lent, w: u32, s: u32) -> u32;
    fn answer(lent: Lent, w: u32) -> u32;
    fn next(lent: Lent, w: u32) -> u32;
    fn collect(lent: Lent) -> u32;
    fn census(lent: Lent, counts: &mut [u32]) -> u32;
    /// C: the most working turns that a cycle takes.
    fn cycle_bound(n: u16, g: u16) -> u64;
}

/// Calls that are passed on: the lent parts, and then the numbers.
macro_rules! passed_on {
    ($($name:ident($($number:ident),*) => $call:expr;)*) => {$(
        #[inline(always)]
        fn $name(l: Lent, $($number: u32),*) -> u32 {
            $call(l.record, l.desk, l.fields, l.colours, $($number),*)
        }
    )*};
}

/// The proved library, through its functions for Rust.
pub struct Proved;

impl Machine for Proved {
    passed_on! {
        start(n, g, m) => lent::start;
        page(w, p, s) => lent::page;
        copy(w, r, s) => lent::copy;
        drop(w, r) => lent::drop;
        read(w, r, f, s) => lent::read;
        store(w, r, f, q) => lent::store;
        create(w, s) => lent::create;
        answer(w) => lent::answer;
        next(w) => lent::next;
        collect() => lent::collect;
    }

    fn census(l: Lent, counts: &mut [u32]) -> u32 {
        lent::census(l.record, l.desk, l.fields, l.colours, counts)
    }

    fn cycle_bound(n: u16, g: u16) -> u64 {
        lent::cycle_bound(n, g)
    }
}

/// The reference with shortcut `S`; 0 is the true machine.
pub struct Reference<const S: u8>;

impl<const S: u8> Machine for Reference<S> {
    passed_on! {
        start(n, g, m) => reference::start::<S>;
        page(w, p, s) => reference::page::<S>;
        copy(w, r, s) => reference::copy::<S>;
        drop(w, r) => reference::drop::<S>;
        read(w, r, f, s) => reference::read::<S>;
        store(w, r, f, q) => reference::store::<S>;
        create(w, s) => reference::create::<S>;
        answer(w) => reference::answer::<S>;
        next(w) => reference::next::<S>;
    }

    fn collect(l: Lent) -> u32 {
        let opening = S == ONE_HANDSHAKE && l.record[3] == 0;
        let answer = reference::collect::<S>(l.record, l.desk, l.fields, l.colours);
        if opening && answer == reference::WORKED {
            last_handshake_ahead(l.desk);
        }
        answer
    }

    fn census(l: Lent, counts: &mut [u32]) -> u32 {
        reference::census::<S>(l.record, l.desk, l.fields, l.colours, counts)
    }

    fn cycle_bound(n: u16, g: u16) -> u64 {
        reference::cycle_bound(n, g)
    }
}
