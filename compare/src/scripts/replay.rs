//! Runs scripts that a fuzzer has found on a program, on the plain one and on the second implementation: all have to print the same.

use std::path::Path;

use super::child::{self, Words};
use super::{files, hold};

/// Twice what the plain program keeps before it writes, so about what the fuzzer lets a script print.
const MOST_OUTPUT: usize = 131_072;
/// The second implementation takes busy ticks one by one, and a portion may have a million of them.
const MOST_BUSY_TICKS: u64 = 1_000_000;

#[derive(Default)]
struct Sums {
    replayed: u64,
    long_output: u64,
    many_ticks: u64,
    differences: u64,
}

enum Outcome {
    Replayed,
    LongOutput,
    ManyTicks,
}

pub fn run(program: Words, plain: Words, folders: &[&str]) -> Result<(), String> {
    let mut sums = Sums::default();
    for folder in folders {
        for path in files::all_in(Path::new(folder))? {
            sums.add(&path, replay(program, plain, &files::read(&path)?));
        }
    }
    println!(
        "{} scripts replayed; left out: {} with more than {MOST_OUTPUT} bytes of output, \
         {} with more than {MOST_BUSY_TICKS} busy ticks; differences: {}",
        sums.replayed, sums.long_output, sums.many_ticks, sums.differences
    );
    if sums.replayed == 0 {
        return Err("no script was replayed".to_string());
    }
    if sums.differences > 0 {
        return Err(format!("{} scripts differ", sums.differences));
    }
    Ok(())
}

impl Sums {
    /// A difference is told at once, and the other scripts are still replayed.
    fn add(&mut self, path: &Path, outcome: Result<Outcome, String>) {
        match outcome {
            Ok(Outcome::Replayed) => self.replayed += 1,
            Ok(Outcome::LongOutput) => self.long_output += 1,
            Ok(Outcome::ManyTicks) => self.many_ticks += 1,
            Err(reason) => {
                self.replayed += 1;
                self.differences += 1;
                eprintln!("script {}: {reason}", path.display());
            }
        }
    }
}

/// The plain program goes first: what it prints tells whether the others can be asked.
fn replay(program: Words, plain: Words, script: &[u8]) -> Result<Outcome, String> {
    let by_plain = |reason| format!("the plain program fails: {reason}");
    let ending = child::run(plain, script, MOST_OUTPUT + 1).map_err(by_plain)?;
    if ending.output.len() > MOST_OUTPUT {
        return Ok(Outcome::LongOutput);
    }
    if busy_ticks(&ending.output) > MOST_BUSY_TICKS {
        return Ok(Outcome::ManyTicks);
    }
    let expected = second::program::listing(script);
    hold::same(&ending, &expected).map_err(by_plain)?;
    let ending = child::run(program, script, expected.len() + hold::MORE_OUTPUT)?;
    hold::same(&ending, &expected)?;
    Ok(Outcome::Replayed)
}

fn busy_ticks(listing: &[u8]) -> u64 {
    let text = String::from_utf8_lossy(listing);
    text.lines().filter_map(busy_ticks_of_line).sum()
}

/// None for a line that is no portion, and for idle time with nothing to burn, which no program takes tick by tick.
fn busy_ticks_of_line(line: &str) -> Option<u64> {
    let [first, end, _, portion] = line.split(' ').collect::<Vec<_>>()[..] else {
        return None;
    };
    let (first, end): (u64, u64) = (first.parse().ok()?, end.parse().ok()?);
    (portion != "-").then(|| end.saturating_sub(first))
}
