//! The player against a plain Rust player, on one turn file.

use crate::timing::{both, head, row};
use compare::chance::Chance;
use std::fmt::Write;
use std::fs::{self, File};
use std::path::{Path, PathBuf};
use std::process::{Command, Stdio};

const LINES: u64 = 2_000_000;

/// A turn file of every call, most of them good ones, with three writers and many cycles.
fn turn_file() -> String {
    let mut chance = Chance::new(7, 0);
    let mut text = String::from("start\t64\t4\t3\n");
    for _ in 1..LINES {
        let w = chance.below(3);
        let [a, b, f] = [chance.below(8), chance.below(8), chance.below(4)];
        let done = match chance.below(16) {
            0 => writeln!(text, "page\t{w}\t{f}\t{a}"),
            1 => writeln!(text, "copy\t{w}\t{a}\t{b}"),
            2 => writeln!(text, "drop\t{w}\t{a}"),
            3 => writeln!(text, "read\t{w}\t{a}\t{f}\t{b}"),
            4 => writeln!(text, "store\t{w}\t{a}\t{f}\t{b}"),
            5 => writeln!(text, "create\t{w}\t{a}"),
            6 | 7 => writeln!(text, "answer\t{w}"),
            8..=10 => writeln!(text, "next\t{w}"),
            _ => writeln!(text, "collect"),
        };
        done.expect("a string takes any text");
    }
    text
}

fn play(program: &Path, input: &Path) -> Command {
    let mut command = Command::new(program);
    command.stdin(File::open(input).expect("the turn file was written"));
    command
}

fn quietly(program: &Path, input: &Path) -> u64 {
    let status = play(program, input).stdout(Stdio::null()).status();
    assert!(status.expect("the player runs").success());
    LINES
}

pub fn table() {
    let root = PathBuf::from(env!("CARGO_MANIFEST_DIR")).join("..");
    let proved = root.join("target/bin/play");
    let plain = root.join("target/rust/release/plainplay");
    head("the player", "lines");
    if !proved.exists() || !plain.exists() {
        println!("not built: ./play examples/keyframe.turns; cargo build --release -p reference");
        return;
    }
    let input = root.join("target/bench.turns");
    fs::write(&input, turn_file()).expect("target/ can be written");
    let output = |program: &Path| {
        play(program, &input)
            .output()
            .expect("the player runs")
            .stdout
    };
    assert!(output(&proved) == output(&plain), "the players differ");
    let pair = both(
        5,
        || (),
        |()| quietly(&proved, &input),
        |()| quietly(&plain, &input),
    );
    row("calls of three writers, N 64", pair);
    fs::remove_file(&input).expect("it was written");
}
