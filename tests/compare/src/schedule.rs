//! Who moves next: random runs that make progress, with writers left in the middle of a job.

use crate::call::Call;
use crate::chance::Chance;
use crate::moves::{plan, single, Span};
use crate::parts::{Parts, Sizes};
use reference::{JOB, ROW, STATUS, STORING};

/// What the collector and the writers tend to do for a while.
struct Tempo {
    /// Turns of the collector, out of 16.
    collector: u32,
    /// At rest the collector opens a cycle once in so many of its turns.
    rests: u32,
    /// How often each writer moves.
    writers: [u32; 8],
    /// How soon a writer answers, out of 16.
    answers: u32,
    /// A writer falls asleep once in so many of its turns.
    sleeps: u32,
    span: Span,
    /// Calls until the next tempo.
    left: u32,
}

impl Tempo {
    fn draw(chance: &mut Chance, sizes: Sizes) -> Tempo {
        let mut writers = [0; 8];
        for weight in &mut writers[..sizes.m as usize] {
            *weight = chance.pick(&[1, 2, 8]);
        }
        Tempo {
            collector: chance.pick(&[2, 8, 12, 15]),
            rests: chance.pick(&[1, 16, 64]),
            writers,
            answers: chance.pick(&[1, 4, 16]),
            sleeps: chance.pick(&[6, 20, 100]),
            span: Span::draw(chance, sizes),
            left: chance.between(20, 200),
        }
    }
}

/// Calls for a store that has started, none of them refused for its numbers.
pub struct Schedule {
    pub sizes: Sizes,
    tempo: Tempo,
    /// What each writer is going to do, the next call last.
    plans: [Vec<Call>; 8],
    /// How many calls each writer sleeps.
    asleep: [u32; 8],
}

impl Schedule {
    pub fn new(chance: &mut Chance, sizes: Sizes) -> Schedule {
        Schedule {
            sizes,
            tempo: Tempo::draw(chance, sizes),
            plans: Default::default(),
            asleep: [0; 8],
        }
    }

    /// The next call of the run.
    pub fn call(&mut self, chance: &mut Chance, parts: &Parts) -> Call {
        if self.tempo.left == 0 {
            self.tempo = Tempo::draw(chance, self.sizes);
        }
        self.tempo.left -= 1;
        for left in &mut self.asleep {
            *left = left.saturating_sub(1);
        }
        if chance.below(16) < self.tempo.collector && self.collector_moves(chance, parts) {
            return Call::Collect;
        }
        let w = self.awake(chance);
        let call = self.writers_call(chance, parts, w as u32);
        // A store that has just begun is where sleep does most harm.
        let begins = matches!(call, Call::Store { .. });
        if chance.one_in(if begins { 4 } else { self.tempo.sleeps }) {
            self.asleep[w] = chance.between(5, 100);
        }
        call
    }

    /// A collector at rest, or one that would wait, seldom moves.
    fn collector_moves(&self, chance: &mut Chance, parts: &Parts) -> bool {
        let posted = parts.posted();
        match parts.stage() {
            0 if parts
                .desk
                .chunks(ROW)
                .any(|row| row.get(JOB) == Some(&STORING)) =>
            {
                chance.one_in(2)
            }
            0 => chance.one_in(self.tempo.rests),
            1..=3 if parts.desk.chunks(ROW).any(|row| row[STATUS] != posted) => chance.one_in(8),
            _ => true,
        }
    }

    /// A writer that does not sleep; if all do, they wake.
    fn awake(&mut self, chance: &mut Chance) -> usize {
        let mut awake = self.tempo.writers;
        for (weight, &left) in awake.iter_mut().zip(&self.asleep) {
            if left > 0 {
                *weight = 0;
            }
        }
        if awake == [0; 8] {
            self.asleep = [0; 8];
            awake = self.tempo.writers;
        }
        chance.weighted(&awake)
    }

    fn writers_call(&mut self, chance: &mut Chance, parts: &Parts, w: u32) -> Call {
        if parts.word(w, JOB) != 0 {
            return Call::Next { w };
        }
        let asked = parts.word(w, STATUS) != parts.posted();
        if asked && chance.below(16) < self.tempo.answers {
            return Call::Answer { w };
        }
        let ahead = &mut self.plans[w as usize];
        if ahead.is_empty() {
            *ahead = plan(chance, parts, self.tempo.span, w);
            ahead.reverse();
        }
        ahead.pop().unwrap_or(Call::Next { w })
    }

    /// Any call of any writer, whether or not it has a job.
    pub fn any_call(&self, chance: &mut Chance, parts: &Parts) -> Call {
        let w = chance.below(self.sizes.m);
        match chance.below(13) {
            0 => Call::start(self.sizes),
            // With the sizes that stand in the record, whatever they are.
            1 => Call::start(parts.sizes().unwrap_or(self.sizes)),
            2 => Call::Answer { w },
            3 => Call::Next { w },
            4 | 5 => Call::Collect,
            6 => Call::Census,
            kind => single(chance, Span::whole(self.sizes), w, kind - 7),
        }
    }
}
