//! Compares a program with the second implementation on scripts: the worked listing, the corpus, inputs about the size limit and
//! random ones. It is run from the repository root, where examples/ and corpus/ are.

mod bad_tables;
mod case;
pub mod child;
mod counts;
mod course;
mod damage;
pub mod files;
mod hold;
pub mod replay;
mod shapes;
mod sizes;
mod steps;

use std::thread::{self, ScopedJoinHandle};

use case::{Case, Known};
use child::Words;
use counts::Counts;

const RANDOM_SCRIPTS: usize = 7_200;
/// A child mostly waits for its start and its end, so two at a time keep two cores busy.
const THREADS: usize = 2;

pub fn run(program: Words, seed: u64) -> Result<(), String> {
    println!("seed {seed}, {THREADS} threads");
    let cases = fixed_cases()?;
    hold::unreadable_input(program)?;
    let told = |reason| format!("seed {seed}, {reason}");
    in_turns(cases.len(), |number| hold::output(program, &cases[number])).map_err(told)?;
    let random_case = |number| Case {
        name: format!("random_{number}"),
        script: shapes::script(seed, number),
        known: Known::Nothing,
    };
    let held = |number| hold::output(program, &random_case(number));
    let counts = in_turns(RANDOM_SCRIPTS, held).map_err(told)?;
    println!("random scripts: {RANDOM_SCRIPTS}; of their outputs");
    counts.print();
    counts.verdict().map_err(told)?;
    println!(
        "{} scripts agreed, seed {seed}",
        cases.len() + RANDOM_SCRIPTS
    );
    Ok(())
}

fn fixed_cases() -> Result<Vec<Case>, String> {
    let corpus = files::corpus()?;
    let sizes = sizes::all();
    println!("worked listing: 1 script");
    println!("corpus: {} files", corpus.len());
    println!("about the size limit: {} scripts", sizes.len());
    let mut cases = vec![files::listing()?];
    cases.extend(corpus);
    cases.extend(sizes);
    Ok(cases)
}

/// A script's number and what is wrong with its output.
type Failure = (usize, String);

/// Every thread takes each second number up to its first failure. So the failure with the smallest number is found, whatever the
/// threads' pace, and the same one in every run.
fn in_turns(
    count: usize,
    held: impl Fn(usize) -> Result<Vec<u8>, String> + Sync,
) -> Result<Counts, String> {
    let one_thread = |first| {
        let mut counts = Counts::default();
        for number in (first..count).step_by(THREADS) {
            counts.add_output(&held(number).map_err(|reason| (number, reason))?);
        }
        Ok(counts)
    };
    let outcomes = thread::scope(|scope| {
        let start = |first| scope.spawn(move || one_thread(first));
        let running: Vec<_> = (0..THREADS).map(start).collect();
        let stopped = || Err((0, "a thread stopped".to_string()));
        let outcome = |thread: ScopedJoinHandle<'_, _>| thread.join().unwrap_or_else(|_| stopped());
        running.into_iter().map(outcome).collect()
    });
    gathered(outcomes)
}

fn gathered(outcomes: Vec<Result<Counts, Failure>>) -> Result<Counts, String> {
    let mut sum = Counts::default();
    let mut failures = Vec::new();
    for outcome in outcomes {
        match outcome {
            Ok(counts) => sum.add(counts),
            Err(failure) => failures.push(failure),
        }
    }
    let first = failures.into_iter().min_by_key(|(number, _)| *number);
    first.map_or(Ok(sum), |(_, reason)| Err(reason))
}
