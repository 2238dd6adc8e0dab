//! Two programs timed side by side.

use std::time::{Duration, Instant};

/// Two programs' turns, and the least time of each.
pub struct Pair {
    turns: u64,
    proved: Duration,
    plain: Duration,
}

/// Times both over rounds in which each takes its turn, so that what else the machine does hits both. Each begins from `before`, and
/// says how many turns it made.
pub fn both<T>(
    rounds: usize,
    before: impl Fn() -> T,
    proved: impl Fn(T) -> u64,
    plain: impl Fn(T) -> u64,
) -> Pair {
    let mut pair = Pair {
        turns: 0,
        proved: Duration::MAX,
        plain: Duration::MAX,
    };
    for _ in 0..rounds {
        let (turns, time) = timed(before(), &proved);
        pair.proved = pair.proved.min(time);
        pair.turns = turns;
        let (turns, time) = timed(before(), &plain);
        pair.plain = pair.plain.min(time);
        assert_eq!(turns, pair.turns, "both make the same turns");
    }
    pair
}

fn timed<T>(from: T, work: impl Fn(T) -> u64) -> (u64, Duration) {
    let begun = Instant::now();
    let turns = work(from);
    (turns, begun.elapsed())
}

/// A row of a table.
pub fn row(name: &str, pair: Pair) {
    let each = |time: Duration| time.as_secs_f64() * 1e9 / pair.turns as f64;
    println!(
        "{name:<44} {:>9} {:>10.1} {:>10.1} {:>7.2}",
        pair.turns,
        each(pair.proved),
        each(pair.plain),
        pair.proved.as_secs_f64() / pair.plain.as_secs_f64()
    );
}

pub fn head(title: &str, count: &str) {
    println!();
    println!(
        "{title:<44} {count:>9} {:>10} {:>10} {:>7}",
        "proved ns", "plain ns", "ratio"
    );
}
