//! Whole cycles with prompt answers, over stores of random references.

use crate::timing::{both, head, row};
use compare::chance::Chance;
use compare::machine::{Machine, Proved, Reference};
use compare::parts::{Parts, Sizes};

/// All cells in use, each field a random cell.
fn tangled(sizes: Sizes) -> Parts {
    let mut parts = Parts::of(sizes);
    Reference::<0>::start(parts.lend().0, sizes.n, sizes.g, sizes.m);
    parts.colours.fill(1);
    let mut chance = Chance::new(1, 0);
    for field in &mut parts.fields {
        *field = chance.below(sizes.n) as u16;
    }
    parts
}

/// From the opening to the closing: while the collector waits, the writers answer. Says how many turns were made.
fn cycle<M: Machine>(parts: &mut Parts, m: u32) -> u64 {
    let mut turns = 0;
    loop {
        turns += 1;
        if M::collect(parts.lend().0) == reference::WAITED {
            for w in 0..m {
                let mut answer = M::answer(parts.lend().0, w);
                turns += 1;
                while answer == reference::MORE {
                    answer = M::next(parts.lend().0, w);
                    turns += 1;
                }
            }
        } else if parts.stage() == 0 {
            return turns;
        }
    }
}

fn measure(n: u32, m: u32) {
    let before = tangled(Sizes { n, g: 4, m });
    let pair = both(
        (200_000 / n as usize).min(200),
        || before.clone(),
        |mut parts| cycle::<Proved>(&mut parts, m),
        |mut parts| cycle::<Reference<0>>(&mut parts, m),
    );
    row(&format!("N {n}, M {m}"), pair);
}

pub fn table() {
    head("whole cycles, all cells held", "turns");
    for n in [64, 1024, 4096] {
        for m in [1, 8] {
            measure(n, m);
        }
    }
}
