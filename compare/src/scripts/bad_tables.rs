//! Scripts whose table may be wrong in its count, its frame, a guest or its shares, or in several of these, and what follows it.

use crate::draft::Entry;
use crate::random::Random;
use crate::tables;

/// Behind a bad table none of these is looked at; behind a good one each shows whether it is.
const BEHIND: [&str; 9] = [
    "",
    "A 0\nR 3\n",
    "?\n",
    "\n",
    "F 8\n",
    "G 1\n",
    "G 1 8",
    "R 1",
    "A 99\nR 1\nG 1 1\n",
];
/// Put on top of a good number, these are lost where only its low bits are kept.
const FURTHER: [u64; 3] = [1 << 32, 1 << 40, 1 << 42];

pub fn script(random: &mut Random) -> Vec<u8> {
    let good_frame = tables::good_frame(random, 1);
    let mut guests = guests(random, good_frame);
    let mut frame = u64::from(good_frame);
    if random.one_in(4) {
        frame = wrong_frame(random, frame);
    }
    if random.one_in(3) {
        let place = random.length(0, guests.len());
        guests.insert(place, wrong_guest(random, good_frame));
    }
    if random.one_in(5) {
        wrong_count(random, &mut guests);
    }
    let mut text = format!("F {frame}\n");
    for (budget, period) in guests {
        text += &format!("G {budget} {period}\n");
    }
    text += random.pick(&BEHIND);
    text.into_bytes()
}

fn guests(random: &mut Random, frame: u32) -> Vec<(u64, u64)> {
    let most = random.length(2, 15);
    let entries = if random.one_in(3) {
        tables::guests_beyond(random, frame, most)
    } else {
        tables::guests_within(random, frame, most)
    };
    entries.iter().map(pair).collect()
}

fn pair(entry: &Entry) -> (u64, u64) {
    (entry.budget.into(), entry.period.into())
}

fn wrong_frame(random: &mut Random, good: u64) -> u64 {
    let further = good + random.pick(&FURTHER);
    random.pick(&[
        0,
        1_000_001,
        good + 1_000_000,
        further,
        further,
        9_999_999_999_999,
    ])
}

fn wrong_guest(random: &mut Random, frame: u32) -> (u64, u64) {
    if random.one_in(2) {
        return pair(&tables::bad_guest(random, frame));
    }
    let period = u64::from(tables::divisor(random, frame));
    let further = random.pick(&FURTHER);
    random.pick(&[
        (period + further, period),
        (1, period + further),
        (1 + further, period + further),
        (1, 9_999_999_999_999),
    ])
}

fn wrong_count(random: &mut Random, guests: &mut Vec<(u64, u64)>) {
    if random.one_in(2) {
        guests.clear();
    } else {
        let last = guests.last().copied().unwrap_or_default();
        guests.resize(random.pick(&[17, 17, 18, 32, 256, 257, 272]), last);
    }
}
