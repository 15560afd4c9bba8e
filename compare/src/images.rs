//! Images for a fuzzer and from it: it is given some to start with, and those it has found are run on the archive, on the plain reader
//! and on the second implementation, which all have to give the same number.

use std::fs;
use std::io;
use std::path::Path;

use crate::archive;
use crate::faults::{Faults, SET_COUNT};
use crate::random::Random;
use crate::scripts::child::{self, Words};
use crate::scripts::files;
use crate::{kinds, purpose, samples};

/// Enough for any number of 32 bits, its line feed and something wrong behind it.
const MOST_OUTPUT: usize = 64;
const GOOD_SEEDS: usize = 60;
/// Long images keep a fuzzer busy with bytes that no one reads; the samples have enough of them.
const LONGEST_SEED: usize = 1_024;

/// The samples, an image for each set of refusals and some good ones.
pub fn write_seeds(folder: &Path, seed: u64) -> io::Result<()> {
    samples::write(folder)?;
    let mut random = Random::new(seed);
    let built: Vec<_> = (1..SET_COUNT)
        .map(|bits| purpose::build(&mut random, Faults::from_bits(bits)))
        .collect();
    let good = (0..GOOD_SEEDS).map(|_| kinds::good(&mut random).image());
    let short = built
        .into_iter()
        .chain(good)
        .filter(|image| image.len() <= LONGEST_SEED);
    for (number, image) in short.enumerate() {
        fs::write(folder.join(format!("seed_{number}.img")), image)?;
    }
    Ok(())
}

pub fn run(plain: Words, folders: &[&str]) -> Result<(), String> {
    let (mut replayed, mut differences) = (0, 0);
    for folder in folders {
        for path in files::all_in(Path::new(folder))? {
            // Told before the call, because a crash of the archive ends this program too.
            println!("{}", path.display());
            replayed += 1;
            if let Err(reason) = replay(plain, files::read(&path)?) {
                differences += 1;
                eprintln!("image {}: {reason}", path.display());
            }
        }
    }
    println!("{replayed} images replayed; differences: {differences}");
    if replayed == 0 {
        return Err("no image was replayed".to_string());
    }
    if differences > 0 {
        return Err(format!("{differences} images differ"));
    }
    Ok(())
}

fn replay(plain: Words, bytes: Vec<u8>) -> Result<(), String> {
    let image = bytes.clone().into_boxed_slice();
    let second = second::image::read(&image).refusal;
    let given = archive::check_image(&image);
    if given != second {
        return Err(format!(
            "the archive gives {given}, the second implementation {second}"
        ));
    }
    if std::hint::black_box(&*image) != bytes {
        return Err("the archive changed the image".to_string());
    }
    let ending = child::run(plain, &image, MOST_OUTPUT)?;
    if ending.output != format!("{second}\n").as_bytes() || !ending.status.success() {
        return Err(format!(
            "the plain reader prints \"{}\" and ends with {}, the second implementation gives {second}",
            ending.output.escape_ascii(),
            ending.status
        ));
    }
    Ok(())
}
