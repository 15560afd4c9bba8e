//! Compares one image after the other, and counts what was given and what was built.

use std::collections::BTreeMap;

use crate::archive;
use crate::faults::{faults_of, Faults, FIRST, LAST};

#[derive(Default)]
pub struct Tally {
    images: u64,
    kinds: BTreeMap<&'static str, u64>,
    given: BTreeMap<u32, u64>,
    pairs: BTreeMap<(u32, u32), u64>,
}

/// The answers that an image can get.
fn numbers() -> impl Iterator<Item = u32> {
    std::iter::once(0).chain(FIRST..=LAST)
}

/// Every two refusals can hold at once: a long image may have any trailer and any entries.
fn possible_pairs() -> impl Iterator<Item = (u32, u32)> {
    (FIRST..=LAST).flat_map(|low| (low + 1..=LAST).map(move |high| (low, high)))
}

impl Tally {
    /// Holds the archive's answer to the second implementation's and, where the construction
    /// settles it, to that too; and the image to what it was.
    pub fn compare(
        &mut self,
        kind: &'static str,
        image: &[u8],
        built: Option<u32>,
    ) -> Result<(), String> {
        let before = image.to_vec();
        self.compare_number(kind, image, built)?;
        if std::hint::black_box(image) != before {
            return Err(format!(
                "{kind}: the image was changed; it was\n{}",
                hex(&before)
            ));
        }
        Ok(())
    }

    /// As `compare`, for an image too large to be copied.
    pub fn compare_number(
        &mut self,
        kind: &'static str,
        image: &[u8],
        built: Option<u32>,
    ) -> Result<(), String> {
        let given = archive::check_image(image);
        let second = second::image::read(image).refusal;
        if given != second || built.is_some_and(|number| number != given) {
            let built = built.map_or("any number".to_string(), |number| number.to_string());
            let answers = format!(
                "the archive gives {given}, the second implementation {second}, built for {built}"
            );
            let shown = hex(&image[..image.len().min(1 << 20)]);
            return Err(format!("{kind}, {} bytes: {answers}\n{shown}", image.len()));
        }
        self.images += 1;
        *self.kinds.entry(kind).or_default() += 1;
        *self.given.entry(given).or_default() += 1;
        Ok(())
    }

    /// Compares an image that was built for a set of refusals, once it is seen that they hold in it.
    pub fn compare_built(&mut self, image: &[u8], wanted: Faults) -> Result<(), String> {
        let found = faults_of(image);
        if !found.has_all_of(wanted) || found.smallest() != wanted.smallest() {
            return Err(format!("an image was not built as wanted\n{}", hex(image)));
        }
        // Only where nothing else is wrong does the answer show how these two are ordered.
        if let Some(pair) = possible_pairs().find(|&pair| found.is_pair(pair)) {
            *self.pairs.entry(pair).or_default() += 1;
        }
        self.compare("built on purpose", image, Some(wanted.smallest()))
    }

    pub fn add(&mut self, other: Tally) {
        self.images += other.images;
        add_counts(&mut self.kinds, other.kinds);
        add_counts(&mut self.given, other.given);
        add_counts(&mut self.pairs, other.pairs);
    }

    pub fn print_counts(&self) {
        for (kind, count) in &self.kinds {
            println!("{kind}: {count} images");
        }
        for (number, count) in &self.given {
            println!("{number} given {count} times");
        }
        let rarest = self.pairs.values().min().unwrap_or(&0);
        let (built, possible) = (self.pairs.len(), possible_pairs().count());
        println!(
            "{built} of {possible} pairs of refusals built, with nothing else wrong, the rarest {rarest} times"
        );
    }

    /// How many images agreed, or what was never tried.
    pub fn verdict(&self) -> Result<u64, String> {
        if let Some(number) = numbers().find(|number| !self.given.contains_key(number)) {
            return Err(format!("{number} was never given"));
        }
        if let Some(pair) = possible_pairs().find(|pair| !self.pairs.contains_key(pair)) {
            return Err(format!(
                "{} and {} at once were never built",
                pair.0, pair.1
            ));
        }
        Ok(self.images)
    }
}

fn add_counts<Key: Ord>(counts: &mut BTreeMap<Key, u64>, more: BTreeMap<Key, u64>) {
    for (key, count) in more {
        *counts.entry(key).or_default() += count;
    }
}

fn hex(bytes: &[u8]) -> String {
    bytes.iter().map(|byte| format!("{byte:02x}")).collect()
}
