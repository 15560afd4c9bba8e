//! Counts in how many outputs each refusal and each kind of portion occurs.

use std::collections::{BTreeMap, BTreeSet};

#[derive(Clone, Copy, PartialEq, Eq, PartialOrd, Ord)]
enum Feature {
    Refusal(u32),
    Own,
    OnSpare,
    Burn,
    Idle,
}

/// Refusal 6 needs more lines of output than a random script may have; no script gives 1, 8, 9, 11 or 15.
const REQUIRED: [Feature; 14] = [
    Feature::Refusal(2),
    Feature::Refusal(3),
    Feature::Refusal(4),
    Feature::Refusal(5),
    Feature::Refusal(7),
    Feature::Refusal(10),
    Feature::Refusal(12),
    Feature::Refusal(13),
    Feature::Refusal(14),
    Feature::Refusal(16),
    Feature::Own,
    Feature::OnSpare,
    Feature::Burn,
    Feature::Idle,
];
const LEAST_OUTPUTS: u64 = 20;

#[derive(Default)]
pub struct Counts(BTreeMap<Feature, u64>);

impl Counts {
    pub fn add_output(&mut self, output: &[u8]) {
        let text = String::from_utf8_lossy(output);
        let features: BTreeSet<Feature> = text.lines().filter_map(feature).collect();
        for feature in features {
            *self.0.entry(feature).or_default() += 1;
        }
    }

    pub fn add(&mut self, other: Counts) {
        for (feature, count) in other.0 {
            *self.0.entry(feature).or_default() += count;
        }
    }

    pub fn print(&self) {
        for (feature, count) in &self.0 {
            println!("  {count} have {}", name(*feature));
        }
    }

    /// A kind that hardly occurs is hardly compared.
    pub fn verdict(&self) -> Result<(), String> {
        let rare = |feature: &&Feature| self.0.get(feature).is_none_or(|&n| n < LEAST_OUTPUTS);
        REQUIRED.iter().find(rare).map_or(Ok(()), |feature| {
            let name = name(*feature);
            Err(format!("fewer than {LEAST_OUTPUTS} outputs have {name}"))
        })
    }
}

fn feature(line: &str) -> Option<Feature> {
    match line.split(' ').collect::<Vec<_>>()[..] {
        ["!", number] => number.parse().ok().map(Feature::Refusal),
        [_, _, "-", "-"] => Some(Feature::Idle),
        [_, _, "-", _] => Some(Feature::Burn),
        [_, _, _, source] if source.ends_with('o') => Some(Feature::Own),
        [_, _, _, _] => Some(Feature::OnSpare),
        _ => None,
    }
}

fn name(feature: Feature) -> String {
    match feature {
        Feature::Refusal(number) => format!("refusal {number}"),
        Feature::Own => "a guest on its own budget".to_string(),
        Feature::OnSpare => "a guest on a spare".to_string(),
        Feature::Burn => "a spare that burns".to_string(),
        Feature::Idle => "idle time with nothing to burn".to_string(),
    }
}
