//! Random tables: frames, guests whose shares fit the frame, guests whose shares pass it, and bad guests.

use crate::draft::Entry;
use crate::random::Random;

/// A frame that is accepted and at least `least`; often one at a border or with many divisors.
pub fn good_frame(random: &mut Random, least: u32) -> u32 {
    const CHOSEN: [u32; 8] = [1, 2, 8, 720, 524_288, 720_720, 999_999, 1_000_000];
    let chosen = random.pick(&CHOSEN);
    if chosen >= least && random.one_in(2) {
        chosen
    } else {
        random.between(least, 1_000_000)
    }
}

/// Some divisor of the frame, which is not 0.
pub fn divisor(random: &mut Random, frame: u32) -> u32 {
    let common = greatest_common_divisor(frame, random.between(1, 5_040));
    if random.one_in(2) {
        common
    } else {
        frame / common
    }
}

fn greatest_common_divisor(one: u32, other: u32) -> u32 {
    if other == 0 {
        one
    } else {
        greatest_common_divisor(other, one % other)
    }
}

/// One good guest that takes at most `part` of the frame, which is at least 1.
fn guest_of_part(random: &mut Random, frame: u32, part: u32) -> Entry {
    let tried = divisor(random, frame);
    // A period as long as the frame costs least, and so always fits.
    let period = if frame / tried <= part { tried } else { frame };
    Entry {
        budget: random.between(1, part / (frame / period)),
        period,
    }
}

/// Good guests whose shares fit, and what they leave of the frame: `most` of them, or fewer where the
/// frame is shorter than that.
fn fitting_guests(random: &mut Random, frame: u32, most: usize) -> (Vec<Entry>, u32) {
    let mut guests = Vec::new();
    let mut left = frame;
    while guests.len() < most && left > 0 {
        // No more than an equal part, so that something is left for those that follow.
        let part = left / (most - guests.len()) as u32;
        let guest = guest_of_part(random, frame, part.max(1));
        left -= share(&guest, frame);
        guests.push(guest);
    }
    (guests, left)
}

fn share(guest: &Entry, frame: u32) -> u32 {
    guest.budget * (frame / guest.period)
}

/// Good guests, as many, whose shares add up to at most the frame, and half the time exactly to it.
pub fn guests_within(random: &mut Random, frame: u32, most: usize) -> Vec<Entry> {
    let (mut guests, left) = fitting_guests(random, frame, most);
    if random.one_in(2) {
        // The last guest makes way for one that takes its share and all that was left.
        let last = guests.pop().map_or(0, |guest| share(&guest, frame));
        guests.push(whole_frame_guest(left + last, frame));
    }
    shuffle(random, &mut guests);
    guests
}

/// Good guests, as many but at least 2, whose shares add up to more than the frame, often by 1 only.
pub fn guests_beyond(random: &mut Random, frame: u32, most: usize) -> Vec<Entry> {
    let (mut guests, left) = fitting_guests(random, frame, most - 1);
    let budget = if random.one_in(2) {
        left + 1
    } else {
        random.between(left + 1, frame)
    };
    guests.push(whole_frame_guest(budget, frame));
    shuffle(random, &mut guests);
    guests
}

fn whole_frame_guest(budget: u32, frame: u32) -> Entry {
    Entry {
        budget,
        period: frame,
    }
}

fn shuffle(random: &mut Random, guests: &mut [Entry]) {
    for place in (1..guests.len()).rev() {
        guests.swap(place, random.length(0, place));
    }
}

/// A guest that breaks the rule for guests; every period divides a frame of 0, so there the budget is wrong.
pub fn bad_guest(random: &mut Random, frame: u32) -> Entry {
    if frame == 0 || random.one_in(2) {
        let period = random.between(1, 1_000);
        let period = if frame == 0 {
            period
        } else {
            divisor(random, frame)
        };
        bad_budget(random, period)
    } else {
        let period = no_divisor(random, frame);
        Entry {
            budget: random.between(1, period),
            period,
        }
    }
}

fn bad_budget(random: &mut Random, period: u32) -> Entry {
    let period = random.pick(&[period, period, period, 0]);
    let most = random.pick(&[period.saturating_add(1), u32::MAX]);
    let above = random.between(period.saturating_add(1), most);
    // A period of 2^32 - 1 has no budget above it; there 0 is the only wrong one.
    let above = if above > period { above } else { 0 };
    Entry {
        budget: random.pick(&[0, above]),
        period,
    }
}

/// A period above 0 that does not divide the frame, near it, far from it, or a multiple of it.
fn no_divisor(random: &mut Random, frame: u32) -> u32 {
    let tried = [
        frame - 1,
        frame.wrapping_add(1),
        frame.wrapping_mul(2),
        random.between(1, frame),
        random.between(1, u32::MAX),
        frame ^ (1 << random.between(0, 31)),
    ];
    let period = random.pick(&tried);
    if period == 0 || frame.is_multiple_of(period) {
        no_divisor(random, frame)
    } else {
        period
    }
}
