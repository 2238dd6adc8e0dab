//! Makes the same calls on the proved library and on the reference, and
//! compares the answers and all lent memory after each.

use compare::call::Call;
use compare::chance::Chance;
use compare::damage::{damage, odd};
use compare::machine::{Machine, Proved, Reference};
use compare::memory::{any_parts, sizes};
use compare::options::Options;
use compare::parts::Parts;
use compare::schedule::Schedule;
use reference::{BAD_NUMBER, BAD_SIZE, BUSY, EMPTY_SLOT, FULL, NO_SUCH, NO_TURN};
use reference::{DONE, MORE, MOST_CELLS, MOST_PAGES, WAITED, WORKED};
use std::process::exit;

const CALLS: u64 = 20_000_000;

/// How often each answer came.
type Tally = [u64; WAITED as usize + 1];

/// The answers that must come, with their names.
const ANSWERS: [(u32, &str); 11] = [
    (BAD_SIZE, "1"),
    (BAD_NUMBER, "2"),
    (NO_SUCH, "3"),
    (BUSY, "4"),
    (NO_TURN, "5"),
    (EMPTY_SLOT, "6"),
    (FULL, "7"),
    (DONE, "done"),
    (MORE, "more"),
    (WORKED, "worked"),
    (WAITED, "waited"),
];

/// The parts of both machines.
struct Pair {
    plain: Parts,
    proved: Parts,
}

impl Pair {
    /// Makes the call on both; tells what differs.
    fn make(&mut self, call: Call, tally: &mut Tally) -> Result<(), String> {
        let plain = call.make::<Reference<0>>(&mut self.plain);
        let proved = call.make::<Proved>(&mut self.proved);
        tally[plain as usize] += 1;
        if plain == proved && self.plain == self.proved {
            return Ok(());
        }
        let mut lines = vec![format!("{call:?}: reference {plain}, proved {proved}")];
        lines.extend(self.plain.differences(&self.proved));
        Err(lines.join("\n  "))
    }

    /// Changes the parts of both in the same way.
    fn change(&mut self, change: impl FnOnce(&mut Parts)) {
        change(&mut self.plain);
        self.proved.clone_from(&self.plain);
    }
}

/// How often a sequence leaves the plain run: once in so many calls, or never at 0.
struct Kind {
    wild: u32,
    damage: u32,
    /// It begins with memory that no run leaves behind, not with a start.
    leap: bool,
}

impl Kind {
    fn draw(chance: &mut Chance) -> Kind {
        let (wild, damage, leap) = chance.pick(&[
            (0, 0, false),
            (6, 0, false),
            (12, 8, false),
            (12, 30, true),
            (4, 2, true),
        ]);
        Kind { wild, damage, leap }
    }
}

/// Makes the calls of one sequence; tells what differs, and after which call.
fn play(seed: u64, sequence: u64, tally: &mut Tally) -> Result<(), String> {
    let chance = &mut Chance::new(seed, sequence);
    let sizes = sizes(chance);
    let kind = Kind::draw(chance);
    let mut schedule = Schedule::new(chance, sizes);
    let first = if kind.leap {
        any_parts(chance, sizes)
    } else {
        Parts::of(sizes)
    };
    let mut pair = Pair {
        plain: first.clone(),
        proved: first,
    };
    if !kind.leap {
        let start = Call::start(sizes);
        pair.make(start, tally)
            .map_err(|what| format!("call 0, {what}"))?;
    }
    // The parts before a damage, and the calls until they are mended.
    let mut whole: Option<(Parts, u32)> = None;
    let calls = match sizes.n {
        0..=64 => chance.between(20, 1_500),
        _ => chance.between(20, 400),
    };
    for number in 1..=calls {
        if let Some((parts, _)) = whole.take_if(|(_, left)| *left == 0) {
            pair.change(|all| *all = parts);
        }
        if kind.damage > 0 && chance.one_in(kind.damage) {
            let left = chance.pick(&[1, 1, 2, 4, 8, 40]);
            whole.get_or_insert_with(|| (pair.plain.clone(), left));
            pair.change(|parts| damage(chance, parts, sizes));
        }
        if let Some((_, left)) = &mut whole {
            *left -= 1;
        }
        let call = if kind.wild > 0 && chance.one_in(kind.wild) {
            wild(chance, &schedule, &pair.plain)
        } else {
            schedule.call(chance, &pair.plain)
        };
        let made = pair.make(call, tally);
        made.map_err(|what| format!("call {number}, {what}"))?;
    }
    Ok(())
}

/// A call that has reasons to be refused.
fn wild(chance: &mut Chance, schedule: &Schedule, parts: &Parts) -> Call {
    let mut call = schedule.any_call(chance, parts);
    let mut numbers = call.numbers();
    if !numbers.is_empty() && chance.one_in(2) {
        let at = chance.below(numbers.len() as u32) as usize;
        *numbers[at] = odd(chance, schedule.sizes, *numbers[at]);
    }
    call
}

/// Compares C at all sizes.
fn bounds() -> Result<(), String> {
    for n in 1..=MOST_CELLS as u16 {
        for g in 1..=(MOST_PAGES as u16).min(n) {
            let plain = Reference::<0>::cycle_bound(n, g);
            let proved = Proved::cycle_bound(n, g);
            if plain != proved {
                return Err(format!("C of {n}, {g}: reference {plain}, proved {proved}"));
            }
        }
    }
    Ok(())
}

/// Plays sequences until the calls are made, or only the one that is asked for.
fn run(seed: u64, calls: u64, only: Option<u64>) -> Result<Tally, String> {
    let mut tally = [0; WAITED as usize + 1];
    bounds()?;
    for sequence in only.unwrap_or(0).. {
        play(seed, sequence, &mut tally).map_err(|what| {
            format!("sequence {sequence}, {what}\n  again: --seed {seed} --only {sequence}")
        })?;
        if only.is_some() || tally.iter().sum::<u64>() >= calls {
            break;
        }
    }
    let never = |answer: u32| tally[answer as usize] == 0;
    match ANSWERS.iter().find(|(answer, _)| never(*answer)) {
        Some((_, name)) if only.is_none() => Err(format!("the answer {name} never came")),
        _ => Ok(tally),
    }
}

fn main() {
    let options = Options::read(&["--seed", "--calls", "--only"]);
    let seed = options.seed();
    // If a call ends the program, the seed is known.
    eprintln!("compare: seed {seed}");
    let calls = options.get("--calls").unwrap_or(CALLS);
    match run(seed, calls, options.get("--only")) {
        Ok(tally) => {
            let made: u64 = tally.iter().sum();
            let came = ANSWERS.map(|(answer, name)| format!("{name}: {}", tally[answer as usize]));
            let came = came.join(", ");
            println!("compare: seed {seed}, {made} calls, no difference; {came}");
        }
        Err(what) => {
            println!("compare: seed {seed}, {what}");
            exit(1);
        }
    }
}
