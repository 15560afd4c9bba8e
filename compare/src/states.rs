//! Compares the program `test_answers`, or the archive's functions for C, with the second implementation on calls on any state, any table and any
//! image: every number that comes back. Known answers come first, then batches made from a seed: the same ones for both, but that the program takes no
//! long images and buffers.

pub mod answers;
mod batch;
mod breaking;
mod choices;
mod counts;
mod expected;
mod fixed;
mod points;
pub mod request;
mod rows;
mod runs;
pub mod wire;

use std::fmt;
use std::thread::{self, ScopedJoinHandle};

use answers::Answers;
use counts::Counts;
use expected::Form;
use request::Request;
use wire::Name;

use crate::archive;
use crate::scripts::child::{self, Ending, Words};

const BATCHES: usize = 400;
const THREADS: usize = 2;
const MOST_SHOWN: usize = 30;

/// Who is held to the second implementation.
#[derive(Clone, Copy)]
pub enum Asked<'a> {
    Program(Words<'a>),
    Archive,
}

impl Asked<'_> {
    fn form(self) -> Form {
        match self {
            Asked::Program(_) => Form::Program,
            Asked::Archive => Form::Archive,
        }
    }

    /// No more bytes than are given.
    fn told(self, requests: &[Request], most: usize) -> Result<Told, String> {
        let Asked::Program(words) = self else {
            return archive::told(requests, most);
        };
        let mut input = (requests.len() as u64).to_le_bytes().to_vec();
        requests
            .iter()
            .for_each(|request| request.write(&mut input));
        Ok(child::run(words, &input, most)?.into())
    }
}

/// The bytes that answers make, and what went wrong behind them.
pub struct Told {
    pub output: Vec<u8>,
    pub failure: Option<String>,
}

impl From<Ending> for Told {
    fn from(ending: Ending) -> Told {
        let told = || format!("the program ends with {}", ending.status);
        Told {
            failure: (!ending.status.success()).then(told),
            output: ending.output,
        }
    }
}

impl fmt::Display for Asked<'_> {
    fn fmt(&self, out: &mut fmt::Formatter) -> fmt::Result {
        out.write_str(match self {
            Asked::Program(_) => "the program",
            Asked::Archive => "the archive",
        })
    }
}

pub fn run(asked: Asked, seed: u64) -> Result<(), String> {
    println!("seed {seed}, {THREADS} threads");
    let fixed = fixed::all();
    fixed.iter().try_for_each(|case| hold_fixed(asked, case))?;
    println!("known answers: {} requests", fixed.len());
    let told = |reason| format!("seed {seed}, {reason}");
    let counts = in_turns(|number| hold_batch(asked, seed, number)).map_err(told)?;
    counts.print(asked.form());
    counts.verdict(asked.form()).map_err(told)?;
    println!("{} calls agreed, seed {seed}", counts.calls);
    Ok(())
}

/// Every thread takes each second batch up to its first failure, and the failure of the smallest batch is told.
fn in_turns(held: impl Fn(usize) -> Result<Counts, String> + Sync) -> Result<Counts, String> {
    let one_thread = |first| {
        let mut counts = Counts::default();
        for number in (first..BATCHES).step_by(THREADS) {
            counts.add(held(number).map_err(|reason| (number, reason))?);
        }
        Ok(counts)
    };
    let outcomes: Vec<Result<Counts, (usize, String)>> = thread::scope(|scope| {
        let start = |first| scope.spawn(move || one_thread(first));
        let running: Vec<_> = (0..THREADS).map(start).collect();
        let stopped = || Err((0, "a thread stopped".to_string()));
        let outcome = |thread: ScopedJoinHandle<'_, _>| thread.join().unwrap_or_else(|_| stopped());
        running.into_iter().map(outcome).collect()
    });
    let mut sum = Counts::default();
    let mut failures = Vec::new();
    for outcome in outcomes {
        match outcome {
            Ok(counts) => sum.add(counts),
            Err(failure) => failures.push(failure),
        }
    }
    let first = failures.into_iter().min_by_key(|(number, _)| *number);
    first.map_or(Ok(sum), |(number, reason)| {
        Err(format!("batch {number}, {reason}"))
    })
}

fn hold_batch(asked: Asked, seed: u64, number: usize) -> Result<Counts, String> {
    let mut requests = batch::requests(seed, number)?;
    requests.retain(|request| asked.form() == Form::Archive || request.fits_program());
    let expected = |request| expected::answers(request, asked.form());
    let given: Vec<Answers> = requests.iter().map(expected).collect();
    hold(asked, &requests, &given)?;
    let mut counts = Counts::default();
    for (request, answers) in requests.iter().zip(&given) {
        counts
            .take(request, answers)
            .map_err(|reason| format!("{reason}\n{request}"))?;
    }
    Ok(counts)
}

/// The bytes that are told are those that the second implementation's answers make.
fn hold(asked: Asked, requests: &[Request], given: &[Answers]) -> Result<(), String> {
    let (mut expected, mut ends) = (Vec::new(), Vec::new());
    for answers in given {
        answers.tell(&mut expected);
        ends.push(expected.len());
    }
    let told = asked.told(requests, expected.len() + 1)?;
    if told.output == expected {
        return told.failure.map_or(Ok(()), Err);
    }
    let pairs = told.output.iter().zip(&expected);
    let agreed = pairs.take_while(|(one, other)| one == other).count();
    let Some(place) = ends.iter().position(|&end| agreed < end) else {
        return Err(format!("{asked} tells more than the answers"));
    };
    let start = if place == 0 { 0 } else { ends[place - 1] };
    let rest = told.output.get(start..).unwrap_or_default();
    let shown = differences(asked, rest, &given[place]).join("\n");
    Err(format!("request {place}: {}\n{shown}", requests[place]))
}

/// The numbers that differ, by name.
fn differences(asked: Asked, output: &[u8], given: &Answers) -> Vec<String> {
    let mut rest = output;
    let mut lines = Vec::new();
    for (name, value) in named(given) {
        let width = if name.call == "bytes" { 1 } else { 8 };
        let taken = rest.get(..width.min(rest.len())).unwrap_or_default();
        rest = &rest[taken.len()..];
        let number = taken
            .iter()
            .rev()
            .fold(0, |sum: u64, byte| sum << 8 | u64::from(*byte));
        if taken.len() < width {
            lines.push(format!("{name}: {asked} ends here"));
            break;
        }
        if number != value {
            lines.push(format!(
                "{name}: {asked} {number}, the second implementation {value}"
            ));
        }
    }
    lines.truncate(MOST_SHOWN);
    lines
}

fn named(given: &Answers) -> Vec<(Name, u64)> {
    let mut named = Vec::new();
    given.tell(&mut named);
    named
}

/// Both agree, and the second implementation on what is known.
fn hold_fixed(asked: Asked, case: &fixed::Fixed) -> Result<(), String> {
    let told = |reason| format!("{}: {reason}", case.name);
    let given = expected::answers(&case.request, asked.form());
    let request = std::slice::from_ref(&case.request);
    hold(asked, request, std::slice::from_ref(&given)).map_err(told)?;
    hold_known(&case.request, Form::Program, case.known).map_err(told)?;
    hold_known(&case.request, Form::Archive, case.known_to_c).map_err(told)
}

fn hold_known(request: &Request, form: Form, known: &str) -> Result<(), String> {
    let numbers = named(&expected::answers(request, form));
    for sentence in known.split(", ").filter(|sentence| !sentence.is_empty()) {
        let says = |(name, value): &(Name, u64)| format!("{name} = {value}") == sentence;
        if !numbers.iter().any(says) {
            return Err(format!("this must be, and is not: {sentence}"));
        }
    }
    Ok(())
}
