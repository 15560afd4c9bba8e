//! Sample images, one for each answer and for each border of the length, all near the table of the specification's example.

use std::fs;
use std::io;
use std::path::Path;

use crate::draft::{Draft, Entry, LONGEST};

/// An image, the name of its file and the number to be given for it.
pub struct Sample {
    pub name: &'static str,
    pub number: u32,
    pub image: Box<[u8]>,
}

pub fn all() -> Vec<Sample> {
    let mut samples = good_and_wrong_length();
    samples.extend(wrong_trailer());
    samples.extend(wrong_guests());
    samples
}

pub fn write(folder: &Path) -> io::Result<()> {
    fs::create_dir_all(folder)?;
    for sample in all() {
        fs::write(folder.join(sample.name), &sample.image)?;
    }
    Ok(())
}

/// Guests (3, 4) and (2, 8), H = 8, with some bytes in front.
fn example() -> Draft {
    Draft::new(b"anything".to_vec(), vec![guest(3, 4), guest(2, 8)], 8)
}

fn guest(budget: u32, period: u32) -> Entry {
    Entry { budget, period }
}

fn sample(name: &'static str, number: u32, draft: &Draft) -> Sample {
    Sample {
        name,
        number,
        image: draft.image(),
    }
}

fn of_length(length: usize) -> Draft {
    let mut draft = example();
    let shortest = draft.image().len() - draft.front.len();
    draft.front = vec![0; length - shortest];
    draft.offset = draft.front.len() as u32;
    draft
}

fn good_and_wrong_length() -> Vec<Sample> {
    let shortest = Draft::new(Vec::new(), vec![guest(1, 1)], 1);
    let cut = Sample {
        name: "refused_8.img",
        number: 8,
        image: shortest.image()[1..].into(),
    };
    let empty = Sample {
        name: "refused_8_empty.img",
        number: 8,
        image: Box::default(),
    };
    vec![
        sample("accepted.img", 0, &example()),
        sample("accepted_shortest.img", 0, &shortest),
        sample("accepted_longest.img", 0, &of_length(LONGEST)),
        cut,
        empty,
        sample("refused_8_long.img", 8, &of_length(LONGEST + 1)),
        sample("refused_8_longer.img", 8, &of_length(LONGEST + 10_000)),
    ]
}

fn wrong_trailer() -> Vec<Sample> {
    let (mut edition, mut offset) = (example(), example());
    edition.edition = 2;
    offset.offset += 1;
    let no_guest = Draft::new(b"anything".to_vec(), Vec::new(), 8);
    let long_frame = Draft::new(Vec::new(), vec![guest(3, 4), guest(2, 8)], 1_000_008);
    vec![
        sample("refused_9.img", 9, &edition),
        sample("refused_10.img", 10, &no_guest),
        sample("refused_11.img", 11, &offset),
        sample("refused_12.img", 12, &long_frame),
    ]
}

fn wrong_guests() -> Vec<Sample> {
    let no_divisor = Draft::new(Vec::new(), vec![guest(1, 3)], 8);
    let no_budget = Draft::new(Vec::new(), vec![guest(0, 4)], 8);
    let nine_of_eight = Draft::new(Vec::new(), vec![guest(3, 4), guest(3, 8)], 8);
    vec![
        sample("refused_13.img", 13, &no_divisor),
        sample("refused_13_no_budget.img", 13, &no_budget),
        sample("refused_14.img", 14, &nine_of_eight),
    ]
}
