//! The options of the programs: names, each with a number.

use std::env;
use std::process::exit;
use std::time::{SystemTime, UNIX_EPOCH};

pub struct Options(Vec<(String, u64)>);

impl Options {
    /// Reads the program's arguments; anything but the known names ends the program.
    pub fn read(known: &[&str]) -> Options {
        let mut given = Vec::new();
        let mut arguments = env::args().skip(1);
        while let Some(name) = arguments.next() {
            let number = arguments.next().and_then(|text| text.parse().ok());
            match number {
                Some(number) if known.contains(&name.as_str()) => given.push((name, number)),
                _ => {
                    eprintln!("options, each with a number: {}", known.join(" "));
                    exit(2);
                }
            }
        }
        Options(given)
    }

    pub fn get(&self, name: &str) -> Option<u64> {
        let given = self.0.iter().find(|(known, _)| known == name)?;
        Some(given.1)
    }

    /// The seed that is given, or one from the clock.
    pub fn seed(&self) -> u64 {
        self.get("--seed").unwrap_or_else(|| {
            let since = SystemTime::now().duration_since(UNIX_EPOCH);
            since.map_or(0, |time| time.as_nanos() as u64)
        })
    }
}
