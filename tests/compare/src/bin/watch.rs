//! Watches random runs of the proved library and of the reference, which must
//! lose nothing, and of the reference with each shortcut, which must be caught.

use compare::machine::{Machine, Proved, Reference};
use compare::options::Options;
use compare::watch::watch;
use reference::shortcut::*;
use std::process::exit;

/// Turns of a true machine.
const TURNS: u64 = 5_000_000;
/// Turns of a shortcut at most: far more than any needs to be found.
const SHORTCUT_TURNS: u64 = 60_000_000;

/// Watches a machine and tells what was seen; the answer is whether something was found.
fn found<M: Machine>(name: &str, seed: u64, turns: u64) -> bool {
    let seen = watch::<M>(seed, turns);
    let (runs, turns) = (seen.runs, seen.turns);
    let what = match &seen.found {
        Some(found) => format!("found: {found}"),
        None => String::from("nothing lost"),
    };
    println!("{name}: seed {seed}, runs {runs}, turns {turns}, {what}");
    seen.found.is_some()
}

/// Watches the reference with a shortcut.
fn caught<const S: u8>(name: &str, seed: u64) -> bool {
    found::<Reference<S>>(name, seed, SHORTCUT_TURNS)
}

fn main() {
    let options = Options::read(&["--seed", "--turns"]);
    let seed = options.seed();
    let turns = options.get("--turns").unwrap_or(TURNS);
    let lost = [
        found::<Proved>("the proved library", seed, turns),
        found::<Reference<0>>("the reference", seed, turns),
    ];
    let caught = [
        caught::<ONE_HANDSHAKE>("one handshake", seed),
        caught::<HAND_AT_OPENING>("hand 0 at the opening", seed),
        caught::<CREATE_WHITE>("creating white while tracing", seed),
        caught::<GRAY_ONLY_NEW>("graying only the new value", seed),
        caught::<GRAY_NEITHER>("graying neither value", seed),
        caught::<ONE_PASS>("ending the scan early", seed),
        caught::<BUSY_ANSWERS>("a busy writer has answered", seed),
    ];
    if lost != [false; 2] || caught != [true; 7] {
        println!("watch: a true machine lost something, or a shortcut was not found");
        exit(1);
    }
}
