//! How the cost of a turn grows with N.

use crate::kinds::{chained, collects, coloured, creates, nearly_full};
use crate::timing::{both, head, row};
use compare::machine::{Machine, Proved, Reference};
use compare::parts::Parts;

const SIZES: [u32; 3] = [64, 1024, 4096];

fn sweep<M: Machine>(parts: &mut Parts) -> u64 {
    let turns = parts.colours.len() as u64;
    collects::<M>(parts, turns);
    turns
}

fn create<M: Machine>(parts: &mut Parts) -> u64 {
    for _ in 0..200 {
        creates::<M>(parts);
    }
    3 * 200
}

fn census<M: Machine>(parts: &mut Parts) -> u64 {
    for _ in 0..20 {
        let (lent, counts) = parts.lend();
        M::census(lent, counts);
    }
    20
}

fn measure(
    name: &str,
    before: fn(u32) -> Parts,
    proved: fn(&mut Parts) -> u64,
    plain: fn(&mut Parts) -> u64,
) {
    for n in SIZES {
        let store = before(n);
        let pair = both(
            50,
            || store.clone(),
            |mut parts| proved(&mut parts),
            |mut parts| plain(&mut parts),
        );
        row(&format!("{name}, N {n}"), pair);
    }
}

pub fn table() {
    head("the cost of a turn as N grows", "turns");
    measure(
        "sweep",
        |n| coloured(n, 5, 3),
        sweep::<Proved>,
        sweep::<Reference<0>>,
    );
    measure(
        "create where only the last cell is free",
        nearly_full,
        create::<Proved>,
        create::<Reference<0>>,
    );
    measure(
        "census, all held",
        chained,
        census::<Proved>,
        census::<Reference<0>>,
    );
}
