//! Random scripts of several shapes, each made from the seed and its own number alone.

use second::state::END_OF_TIME;

use super::course::Course;
use super::{bad_tables, damage, steps};
use crate::draft::Entry;
use crate::random::Random;
use crate::tables;

type Shape = fn(&mut Random) -> Vec<u8>;

/// Their advances are few and short, so that a damaged one is short too.
const SHORT_SHAPES: [Shape; 5] = [mixed, full_share, budgets_of_1, many_guests, many_spares];
const OTHER_SHAPES: [Shape; 7] = [
    many_jobs,
    one_full_guest,
    long_portions,
    end_of_time,
    bad_tables::script,
    damaged,
    damaged,
];
/// Many divisors, or very few.
const SMALL_FRAMES: [u32; 8] = [1, 2, 7, 12, 24, 60, 120, 360];
const FEW_TICKS: u64 = 300;

pub fn script(seed: u64, number: usize) -> Vec<u8> {
    // Mixed first, so that neighbouring seeds do not share their scripts.
    let mut random = Random::new(Random::new(seed).next().wrapping_add(number as u64));
    let place = number % (SHORT_SHAPES.len() + OTHER_SHAPES.len());
    let mut shapes = SHORT_SHAPES.iter().chain(&OTHER_SHAPES);
    shapes
        .nth(place)
        .map_or_else(Vec::new, |shape| shape(&mut random))
}

fn mixed(random: &mut Random) -> Vec<u8> {
    let frame = random.pick(&SMALL_FRAMES);
    let most = random.length(1, 5);
    let guests = tables::guests_within(random, frame, most);
    with_steps(random, Course::new(frame, &guests, FEW_TICKS), 60)
}

fn full_share(random: &mut Random) -> Vec<u8> {
    let frame = random.pick(&SMALL_FRAMES);
    let most = random.length(1, 4);
    let guests = loop {
        // Every second table or so has a full share by itself.
        let tried = tables::guests_within(random, frame, most);
        let share = |guest: &Entry| guest.budget * (frame / guest.period);
        if tried.iter().map(share).sum::<u32>() == frame {
            break tried;
        }
    };
    let mut course = Course::new(frame, &guests, FEW_TICKS);
    // With everyone active, each deadline is met to the tick.
    (0..course.guest_count()).for_each(|guest| course.arrive(guest));
    with_steps(random, course, 40)
}

fn budgets_of_1(random: &mut Random) -> Vec<u8> {
    let frame = random.between(1, 16);
    let guest = Entry {
        budget: 1,
        period: frame,
    };
    let count = random.length(1, frame as usize);
    with_steps(
        random,
        Course::new(frame, &vec![guest; count], FEW_TICKS),
        60,
    )
}

fn many_guests(random: &mut Random) -> Vec<u8> {
    let frame = random.pick(&[16, 48, 120, 5_040]);
    let guests = tables::guests_within(random, frame, 16);
    let mut course = Course::new(frame, &guests, FEW_TICKS);
    for _ in 0..random.length(0, 20) {
        course.arrive(steps::any_guest(random, &course));
    }
    with_steps(random, course, 80)
}

/// Arrivals with their completions, so many that the last find no place, and then a few ticks that free some.
fn many_spares(random: &mut Random) -> Vec<u8> {
    let frame = random.pick(&SMALL_FRAMES);
    let most = random.length(1, 4);
    let guests = tables::guests_within(random, frame, most);
    let mut course = Course::new(frame, &guests, FEW_TICKS);
    for _ in 0..2 {
        for _ in 0..random.length(40, 70) {
            let guest = steps::any_guest(random, &course);
            course.arrive(guest);
            if !random.one_in(30) {
                course.done(guest);
            }
        }
        steps::some(random, &mut course, 1, 15);
    }
    with_steps(random, course, 10)
}

fn many_jobs(random: &mut Random) -> Vec<u8> {
    let frame = random.pick(&SMALL_FRAMES);
    let most = random.length(1, 3);
    let guests = tables::guests_within(random, frame, most);
    let mut course = Course::new(frame, &guests, FEW_TICKS);
    steps::some(random, &mut course, 0, 5);
    let guest = steps::any_guest(random, &course);
    (0..random.length(250, 258)).for_each(|_| course.arrive(guest));
    steps::some(random, &mut course, 0, 5);
    (0..random.length(0, 260)).for_each(|_| course.done(guest));
    with_steps(random, course, 10)
}

/// A guest that may always run: with a budget of 1, each of its ticks is a portion.
fn one_full_guest(random: &mut Random) -> Vec<u8> {
    let frame = random.pick(&[1, 2, 60, 1_000_000]);
    let period = random.pick(&[1, 1, 1, frame]);
    let guest = Entry {
        budget: period,
        period,
    };
    with_steps(random, Course::new(frame, &[guest], FEW_TICKS), 60)
}

/// Long frames; the ticks are bounded by the smallest budget, and so the lines of output are.
fn long_portions(random: &mut Random) -> Vec<u8> {
    let frame = random.pick(&[5_040, 100_000, 720_720, 1_000_000]);
    let most = random.length(1, 4);
    let guests = tables::guests_within(random, frame, most);
    let smallest = guests.iter().map(|guest| guest.budget).min().unwrap_or(1);
    let ticks = (1_000 * u64::from(smallest)).min(150_000);
    let mut course = Course::new(frame, &guests, ticks);
    if random.one_in(2) {
        course.advance(random.next() >> 25);
    }
    with_steps(random, course, 40)
}

fn end_of_time(random: &mut Random) -> Vec<u8> {
    let frame = random.pick(&SMALL_FRAMES);
    let most = random.length(1, 4);
    let guests = tables::guests_within(random, frame, most);
    let mut course = Course::new(frame, &guests, FEW_TICKS);
    course.advance(END_OF_TIME - random.length(0, 60) as u64);
    with_steps(random, course, 60)
}

fn damaged(random: &mut Random) -> Vec<u8> {
    let script = random.pick(&SHORT_SHAPES)(random);
    damage::damaged(random, &script)
}

fn with_steps(random: &mut Random, mut course: Course, most: usize) -> Vec<u8> {
    steps::some(random, &mut course, 2, most);
    course.into_script()
}
