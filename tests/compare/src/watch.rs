//! Demand 3 watched at run time: nothing reachable is freed, garbage is, and no cycle is too long.

use crate::call::Call;
use crate::chance::Chance;
use crate::machine::Machine;
use crate::parts::{Parts, Sizes};
use crate::schedule::Schedule;
use reference::{BAD_NUMBER, BAD_SIZE, DONE, FREE, MORE, WORKED};
use reference::{CELL, CREATING, JOB, NEW, OLD, ROW, SLOT, STORING};

/// Turns of a run: several whole cycles of the stores that are drawn.
const RUN: u64 = 5_000;

/// The sizes of a watched run: few cells, so that the writers meet.
fn sizes(chance: &mut Chance) -> Sizes {
    let n = match chance.below(8) {
        0 => chance.between(1, 16),
        _ => chance.between(4, 8),
    };
    Sizes {
        n,
        g: chance.between(1, n.min(2)),
        m: chance.pick(&[1, 2, 2, 2, 3, 3, 4]),
    }
}

/// What a watch saw: runs, turns, and what it found, if anything.
pub struct Seen {
    pub runs: u64,
    pub turns: u64,
    pub found: Option<String>,
}

/// Watches runs of a machine until something is found or the turns are made.
pub fn watch<M: Machine>(seed: u64, turns: u64) -> Seen {
    let mut seen = Seen {
        runs: 0,
        turns: 0,
        found: None,
    };
    while seen.found.is_none() && seen.turns < turns {
        let mut chance = Chance::new(seed, seen.runs);
        let (made, found) = run::<M>(&mut chance);
        seen.found = found;
        seen.runs += 1;
        seen.turns += made;
    }
    seen
}

/// One run from a start: the turns made, and what was found after the last of them.
fn run<M: Machine>(chance: &mut Chance) -> (u64, Option<String>) {
    let sizes = sizes(chance);
    let mut parts = Parts::of(sizes);
    let answer = Call::start(sizes).make::<M>(&mut parts);
    if answer != DONE {
        return (0, Some(format!("start is refused with {answer}")));
    }
    let mut schedule = Schedule::new(chance, sizes);
    let mut eye = Eye::new::<M>(sizes, &parts);
    for turn in 1..=RUN {
        let call = schedule.call(chance, &parts);
        let stage = parts.stage();
        let answer = call.make::<M>(&mut parts);
        if let Err(found) = eye.look(call, stage, answer, &parts) {
            let Sizes { n, g, m } = sizes;
            let found = format!("{found} after turn {turn} with N {n}, g {g}, M {m}");
            return (turn, Some(found));
        }
    }
    (RUN, None)
}

/// What the watch remembers of a run. Sets of cells are bits.
struct Eye {
    bound: u64,
    /// The cells that were reachable after the last turn.
    reachable: u64,
    /// The collector's working turns, in all and since the opening.
    worked: u64,
    in_cycle: u64,
    /// The cells in use and not reachable, and how many turns had worked when each became so.
    garbage: u64,
    since: [u64; 64],
}

impl Eye {
    fn new<M: Machine>(sizes: Sizes, parts: &Parts) -> Eye {
        Eye {
            bound: M::cycle_bound(sizes.n as u16, sizes.g as u16),
            reachable: reachable(parts),
            worked: 0,
            in_cycle: 0,
            garbage: 0,
            since: [0; 64],
        }
    }

    /// Looks at the parts after a turn, which began in `stage`.
    fn look(&mut self, call: Call, stage: u32, answer: u32, parts: &Parts) -> Result<(), String> {
        if matches!(answer, BAD_SIZE | BAD_NUMBER) {
            return Err(format!("{call:?} is refused with {answer}"));
        }
        if let (Call::Create { w, .. }, MORE) = (call, answer) {
            let taken = parts.word(w, CELL);
            if self.reachable & bit(taken) != 0 {
                return Err(format!("cell {taken} is taken while reachable"));
            }
        }
        if answer == WORKED {
            self.worked += 1;
            self.in_cycle = if stage == 0 { 1 } else { self.in_cycle + 1 };
            let count = u64::from(parts.record[8]);
            if count != self.in_cycle || count > self.bound {
                let (turns, bound) = (self.in_cycle, self.bound);
                return Err(format!("the count is {count} at {turns} turns, C {bound}"));
            }
        }
        self.reachable = reachable(parts);
        let free = free(parts);
        let lost = self.reachable & free;
        if lost != 0 {
            let cell = lost.trailing_zeros();
            return Err(format!("cell {cell} is free while reachable"));
        }
        self.look_at_garbage(!self.reachable & !free & below(parts.colours.len()))
    }

    /// Garbage stays garbage until it is freed, and that within 3 C working turns.
    fn look_at_garbage(&mut self, garbage: u64) -> Result<(), String> {
        for cell in cells(garbage & !self.garbage) {
            self.since[cell] = self.worked;
        }
        self.garbage = garbage;
        match cells(garbage).find(|&cell| self.worked - self.since[cell] > 3 * self.bound) {
            Some(cell) => Err(format!("cell {cell} is garbage for more than 3 C")),
            None => Ok(()),
        }
    }
}

/// The set of one cell, or of none.
fn bit(number: u16) -> u64 {
    1u64.checked_shl(number.into()).unwrap_or(0)
}

/// The set of the first cells.
fn below(n: usize) -> u64 {
    (0..n).fold(0, |set, cell| set | 1 << cell)
}

/// The cells of a set.
fn cells(mut set: u64) -> impl Iterator<Item = usize> {
    std::iter::from_fn(move || {
        let cell = (set != 0).then(|| set.trailing_zeros() as usize)?;
        set &= set - 1;
        Some(cell)
    })
}

fn free(parts: &Parts) -> u64 {
    let colours = parts.colours.iter().enumerate();
    colours.fold(0, |set, (cell, &c)| set | u64::from(c == FREE) << cell)
}

/// What pages, slots and unfinished jobs reach through fields.
fn reachable(parts: &Parts) -> u64 {
    let mut reached = below(parts.record[1] as usize);
    for row in parts.desk.chunks_exact(ROW) {
        let carried: &[u16] = match row[JOB] {
            STORING => &[row[CELL], row[NEW], row[OLD]],
            CREATING => &[row[CELL]],
            _ => &[],
        };
        for &number in row[SLOT..JOB].iter().chain(carried) {
            reached |= bit(number);
        }
    }
    let mut ahead = reached;
    while ahead != 0 {
        let cell = ahead.trailing_zeros() as usize;
        ahead &= ahead - 1;
        let fields = &parts.fields[4 * cell..4 * cell + 4];
        let met = fields.iter().fold(0, |set, &field| set | bit(field));
        ahead |= met & !reached;
        reached |= met;
    }
    reached
}
