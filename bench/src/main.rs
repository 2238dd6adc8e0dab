//! The proved library beside plain Rust: the same turns, in the same run, on the same memory. What counts is the last column, the
//! proved library's time over plain Rust's.

mod cycles;
mod growth;
mod kinds;
mod lines;
mod timing;

use std::env;
use std::process::exit;

fn main() {
    let given: Vec<String> = env::args().skip(1).collect();
    match given.as_slice() {
        [] => {
            kinds::table();
            cycles::table();
            growth::table();
            lines::table();
        }
        [kind, machine] => match kinds::one(kind, machine) {
            Some(turns) => println!("{turns} turns"),
            None => usage(),
        },
        _ => usage(),
    }
}

fn usage() {
    eprintln!("bench: the tables. bench KIND proved, bench KIND plain: the turns of one kind, as the table names it");
    exit(2);
}
