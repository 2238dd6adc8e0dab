//! Turns by kind of call. Each batch leaves the store as it found it, or begins from a copy.

use crate::timing::{both, head, row};
use compare::machine::{Machine, Proved, Reference};
use compare::parts::{Parts, Sizes};
use std::hint::black_box;

/// Places of the record.
const STAGE: usize = 3;
const PLACE: usize = 4;

const ROUNDS: usize = 25;

/// A started store with page 0 in slot 0 of each writer.
fn store<M: Machine>(n: u32, m: u32) -> Parts {
    let mut parts = Parts::of(Sizes { n, g: n.min(16), m });
    M::start(parts.lend().0, n, n.min(16), m);
    for w in 0..m {
        M::page(parts.lend().0, w, 0, 0);
    }
    parts
}

/// A batch of turns on a machine.
trait Batch {
    /// The memory before it.
    fn before() -> Parts;
    /// Makes the turns, and says how many they were.
    fn make<M: Machine>(parts: &mut Parts) -> u64;
}

/// A kind of call: measured against plain Rust, or its batch made once on one machine.
struct Kind {
    name: &'static str,
    measure: fn(&str),
    proved: fn() -> u64,
    plain: fn() -> u64,
}

fn kind<B: Batch>(name: &'static str) -> Kind {
    Kind {
        name,
        measure: measure::<B>,
        proved: once::<B, Proved>,
        plain: once::<B, Reference<0>>,
    }
}

fn once<B: Batch, M: Machine>() -> u64 {
    B::make::<M>(&mut B::before())
}

fn measure<B: Batch>(name: &str) {
    let before = B::before();
    let pair = both(
        ROUNDS,
        || before.clone(),
        |mut parts| B::make::<Proved>(&mut parts),
        |mut parts| B::make::<Reference<0>>(&mut parts),
    );
    row(name, pair);
}

/// A batch: the store before it, and what is repeated, so many times.
macro_rules! batch {
    ($name:ident, $before:expr, $times:expr, $machine:ident, $parts:ident, $turns:expr, $body:block) => {
        struct $name;
        impl Batch for $name {
            fn before() -> Parts {
                $before
            }
            fn make<$machine: Machine>($parts: &mut Parts) -> u64 {
                for _ in 0..$times {
                    $body
                }
                $times * $turns
            }
        }
    };
}

fn at_rest() -> Parts {
    store::<Reference<0>>(64, 8)
}

/// At a stage, with every status as given.
fn at_stage(mut parts: Parts, stage: u32, status: u16) -> Parts {
    parts.record[STAGE] = stage;
    for row in parts.desk.chunks_exact_mut(16) {
        row[0] = status;
    }
    parts
}

/// In the scan or the sweep, all cells of one colour.
pub fn coloured(n: u32, stage: u32, colour: u8) -> Parts {
    let mut parts = at_stage(store::<Reference<0>>(n, 8), stage, 0);
    parts.colours.fill(colour);
    parts
}

/// All cells but the last in use.
pub fn nearly_full(n: u32) -> Parts {
    let mut parts = store::<Reference<0>>(n, 8);
    parts.colours.fill(1);
    parts.colours[n as usize - 1] = 0;
    parts
}

/// Every cell held: each is in a field of the one before it.
pub fn chained(n: u32) -> Parts {
    let mut parts = store::<Reference<0>>(n, 8);
    parts.colours.fill(1);
    for cell in 0..n as usize - 1 {
        parts.fields[4 * cell] = cell as u16 + 1;
    }
    parts
}

pub fn collects<M: Machine>(parts: &mut Parts, turns: u64) {
    for _ in 0..turns {
        black_box(M::collect(parts.lend().0));
    }
}

/// A creation; its cell is then free again.
pub fn creates<M: Machine>(parts: &mut Parts) {
    black_box(M::create(parts.lend().0, 0, 1));
    let cell = parts.desk[11];
    M::next(parts.lend().0, 0);
    M::next(parts.lend().0, 0);
    parts.colours[usize::from(cell)] = 0;
}

fn stores<M: Machine>(parts: &mut Parts, turns: u64) {
    black_box(M::store(parts.lend().0, 0, 0, 1, 0));
    for _ in 1..turns {
        M::next(parts.lend().0, 0);
    }
}

const TIMES: u64 = 20_000;

batch!(Start, at_rest(), 2000, M, parts, 1, {
    black_box(M::start(parts.lend().0, 64, 16, 8));
});
batch!(Page, at_rest(), TIMES, M, parts, 1, {
    black_box(M::page(parts.lend().0, 3, 5, 1));
});
batch!(Copy, at_rest(), TIMES, M, parts, 1, {
    black_box(M::copy(parts.lend().0, 3, 0, 1));
});
batch!(Drop, at_rest(), TIMES, M, parts, 1, {
    black_box(M::drop(parts.lend().0, 3, 1));
});
batch!(Read, at_rest(), TIMES, M, parts, 1, {
    black_box(M::read(parts.lend().0, 3, 0, 2, 1));
});
batch!(Bare, at_rest(), TIMES, M, parts, 2, {
    stores::<M>(parts, 2)
});
batch!(Traced, at_stage(at_rest(), 4, 0), TIMES, M, parts, 4, {
    stores::<M>(parts, 4)
});
batch!(Full, at_stage(at_rest(), 1, 1), TIMES, M, parts, 5, {
    stores::<M>(parts, 5)
});
batch!(Create, at_rest(), TIMES, M, parts, 3, {
    creates::<M>(parts)
});
batch!(CreateLast, nearly_full(4096), 2000, M, parts, 3, {
    creates::<M>(parts)
});
batch!(AnswerOnce, at_stage(at_rest(), 1, 1), TIMES, M, parts, 1, {
    parts.desk[0] = 0;
    black_box(M::answer(parts.lend().0, 0));
});
batch!(
    AnswerSlots,
    at_stage(at_rest(), 3, 2),
    TIMES,
    M,
    parts,
    10,
    {
        parts.desk[0] = 2;
        black_box(M::answer(parts.lend().0, 0));
        for _ in 0..9 {
            M::next(parts.lend().0, 0);
        }
    }
);
batch!(Refused, at_rest(), TIMES, M, parts, 1, {
    black_box(M::next(parts.lend().0, 3));
});
batch!(Waits, at_stage(at_rest(), 1, 0), TIMES, M, parts, 1, {
    collects::<M>(parts, 1)
});
batch!(Marks, at_stage(at_rest(), 3, 2), 2000, M, parts, 16, {
    collects::<M>(parts, 16);
    parts.record[PLACE] = 0;
});
batch!(Scans, coloured(4096, 4, 1), 10, M, parts, 4096, {
    collects::<M>(parts, 4096);
    parts.record[PLACE] = 0;
});
batch!(Opens, coloured(4096, 4, 2), 1, M, parts, 10 * 4096, {
    collects::<M>(parts, 10 * 4096)
});
batch!(Sweeps, coloured(4096, 5, 3), 10, M, parts, 4096, {
    collects::<M>(parts, 4096);
    parts.record[PLACE] = 0;
});
batch!(Census, chained(4096), 100, M, parts, 1, {
    let (lent, counts) = parts.lend();
    black_box(M::census(lent, counts));
});

fn kinds() -> [Kind; 19] {
    [
        kind::<Start>("start"),
        kind::<Page>("page"),
        kind::<Copy>("copy"),
        kind::<Drop>("drop"),
        kind::<Read>("read"),
        kind::<Bare>("store at rest, 2 turns"),
        kind::<Traced>("store at status 0 in stage 4, 4 turns"),
        kind::<Full>("store at status 1, 5 turns"),
        kind::<Create>("create, 3 turns"),
        kind::<CreateLast>("create of cell 4,095 of 4,096, 3 turns"),
        kind::<AnswerOnce>("answer to posted 1"),
        kind::<AnswerSlots>("answer to posted 0, 10 turns"),
        kind::<Refused>("next without a job, refused 5"),
        kind::<Waits>("collect, waiting for 8 writers"),
        kind::<Marks>("collect, marking pages"),
        kind::<Scans>("collect, scan past white cells, N 4,096"),
        kind::<Opens>("collect, scan of gray cells, N 4,096"),
        kind::<Sweeps>("collect, sweep, N 4,096"),
        kind::<Census>("census, all held, N 4,096"),
    ]
}

pub fn table() {
    head("turns by kind of call (N 64 unless said)", "turns");
    for kind in kinds() {
        (kind.measure)(kind.name);
    }
}

/// Makes the turns of one kind on one machine, for a program that counts instructions.
pub fn one(name: &str, machine: &str) -> Option<u64> {
    let kind = kinds().into_iter().find(|kind| kind.name == name)?;
    match machine {
        "proved" => Some((kind.proved)()),
        "plain" => Some((kind.plain)()),
        _ => None,
    }
}
