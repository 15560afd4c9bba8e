//! Compares liblomvadric.a with the second implementation. No argument: its check of images, on images made from a seed;
//! `few`: some two thousand of them, for valgrind; `write DIR`: no comparison, the sample images are written to DIR;
//! `calls`: each function of the archive, on any state, any table and any image.
//! The programs: `scripts WORD...` compares the listings of scripts by the program that the words start; `states WORD...` every call of the library
//! on what `calls` puts to the archive, as the program `test_answers` that the words start tells it. For inputs that a fuzzer has found:
//! `replay PROGRAM PLAIN FOLDER...` holds two programs to the second implementation on the folders' scripts, and
//! `images PLAIN FOLDER...` the archive and a program on their images; `seeds DIR` writes images for it to start with.

#[cfg_attr(not(target_arch = "x86_64"), path = "archive_apart.rs")]
mod archive;
mod draft;
mod faults;
mod images;
mod kinds;
mod purpose;
mod random;
mod samples;
mod scripts;
mod states;
mod tables;
mod tally;

use std::path::Path;
use std::process::ExitCode;
use std::thread;

use faults::{Faults, SET_COUNT};
use random::Random;
use states::Asked::{Archive, Program};
use tally::Tally;

const USAGE: &str = "usage: compare [few | write DIR | calls | scripts WORD... | states WORD... \
                     | replay PROGRAM PLAIN FOLDER... | images PLAIN FOLDER... | seeds DIR]";
const DEFAULT_SEED: u64 = 212;
/// The header promises that calls from several threads don't disturb one another, so two call at once.
const THREADS: u64 = 2;
const ALL_ROUNDS: u64 = 60;
const FEW_ROUNDS: u64 = 1;

fn main() -> ExitCode {
    let arguments: Vec<String> = std::env::args().skip(1).collect();
    let words: Vec<&str> = arguments.iter().map(String::as_str).collect();
    let outcome = match words[..] {
        [] => seed().and_then(|seed| run(seed, ALL_ROUNDS)),
        ["few"] => seed().and_then(|seed| run(seed, FEW_ROUNDS)),
        ["write", folder] => samples::write(Path::new(folder)).map_err(|error| error.to_string()),
        ["scripts", _, ..] => seed().and_then(|seed| scripts::run(&words[1..], seed)),
        ["states", _, ..] => seed().and_then(|seed| states::run(Program(&words[1..]), seed)),
        ["calls"] => seed().and_then(|seed| states::run(Archive, seed)),
        ["replay", program, plain, ref folders @ ..] => {
            scripts::replay::run(&[program], &[plain], folders)
        }
        ["images", plain, ref folders @ ..] => images::run(&[plain], folders),
        ["seeds", folder] => seed().and_then(|seed| {
            images::write_seeds(Path::new(folder), seed).map_err(|error| error.to_string())
        }),
        _ => Err(USAGE.to_string()),
    };
    let Err(reason) = outcome else {
        return ExitCode::SUCCESS;
    };
    eprintln!("compare: {reason}");
    ExitCode::FAILURE
}

fn seed() -> Result<u64, String> {
    let Ok(word) = std::env::var("SEED") else {
        return Ok(DEFAULT_SEED);
    };
    word.parse()
        .map_err(|_| format!("SEED is no number below 2^64: {word}"))
}

fn run(seed: u64, rounds: u64) -> Result<(), String> {
    println!("seed {seed}, {THREADS} threads, {rounds} rounds each");
    let mut tally = Tally::default();
    compare_samples(&mut tally)?;
    thread::scope(|scope| {
        let start = |thread| scope.spawn(move || compare_rounds(seed, thread, rounds));
        let running: Vec<_> = (0..THREADS).map(start).collect();
        for thread in running {
            let theirs = thread.join().map_err(|_| "a thread stopped")?;
            tally.add(theirs?);
        }
        Ok::<(), String>(())
    })?;
    if rounds == ALL_ROUNDS {
        compare_four_gigabytes(&mut tally, seed)?;
    }
    tally.print_counts();
    println!("{} images agreed", tally.verdict()?);
    Ok(())
}

fn compare_samples(tally: &mut Tally) -> Result<(), String> {
    for sample in samples::all() {
        tally.compare("samples", &sample.image, Some(sample.number))?;
    }
    Ok(())
}

fn compare_rounds(seed: u64, thread: u64, rounds: u64) -> Result<Tally, String> {
    // Mixed first, so that neighbouring seeds do not share a thread's images.
    let mut random = Random::new(Random::new(seed).next().wrapping_add(thread));
    let mut tally = Tally::default();
    for _ in 0..rounds {
        compare_random_bytes(&mut random, &mut tally)?;
        compare_built(&mut random, &mut tally)?;
        compare_good_and_near(&mut random, &mut tally)?;
    }
    Ok(tally)
}

fn compare_random_bytes(random: &mut Random, tally: &mut Tally) -> Result<(), String> {
    for length in (0..=64).chain(65_530..=65_545) {
        let legal = (draft::SHORTEST..=draft::LONGEST).contains(&length);
        let image = random.bytes(length).into_boxed_slice();
        tally.compare("random bytes", &image, (!legal).then_some(8))?;
    }
    Ok(())
}

fn compare_built(random: &mut Random, tally: &mut Tally) -> Result<(), String> {
    for bits in 1..SET_COUNT {
        let wanted = Faults::from_bits(bits);
        // One alone shows its border best, two show their order; of three and more there are many sets.
        let times = match wanted.count() {
            1 => 15,
            2 => 10,
            _ => 1,
        };
        for _ in 0..times {
            tally.compare_built(&purpose::build(random, wanted), wanted)?;
        }
    }
    Ok(())
}

fn compare_good_and_near(random: &mut Random, tally: &mut Tally) -> Result<(), String> {
    for _ in 0..50 {
        for _ in 0..5 {
            tally.compare("good", &kinds::good(random).image(), Some(0))?;
            tally.compare("changed", &kinds::changed(random), None)?;
        }
        tally.compare("wrapping offset", &kinds::wrapping(random), Some(11))?;
    }
    for _ in 0..4 {
        tally.compare("good, then more", &kinds::good_then_more(random), Some(8))?;
    }
    Ok(())
}

fn compare_four_gigabytes(tally: &mut Tally, seed: u64) -> Result<(), String> {
    match kinds::good_then_four_gigabytes(&mut Random::new(seed)) {
        Some(image) => tally.compare_number("good, then 4 GiB", &image, Some(8)),
        None => {
            println!("good, then 4 GiB: left out, there is no room for it");
            Ok(())
        }
    }
}
