//! Random commands, most of them chosen by the state: the guests that are active, and the ticks to the end of the next portion.

use second::steps::{active, ask, Ask};

use super::course::Course;
use crate::random::Random;

pub fn some(random: &mut Random, course: &mut Course, least: usize, most: usize) {
    for _ in 0..random.length(least, most) {
        one(random, course);
    }
}

fn one(random: &mut Random, course: &mut Course) {
    match random.length(0, 23) {
        0..=7 => course.arrive(any_guest(random, course)),
        8..=13 => course.done(active_guest(random, course)),
        14..=22 => course.advance(ticks(random, course)),
        _ => refused(random, course),
    }
}

pub fn any_guest(random: &mut Random, course: &Course) -> u64 {
    random.next() % course.guest_count()
}

fn active_guest(random: &mut Random, course: &Course) -> u64 {
    let mask = active(course.state()).value.mask;
    let guests: Vec<u64> = (0..course.guest_count())
        .filter(|guest| mask & (1 << guest) != 0)
        .collect();
    if guests.is_empty() {
        any_guest(random, course)
    } else {
        random.pick(&guests)
    }
}

/// Often to the end of the next portion, or one tick beside it.
fn ticks(random: &mut Random, course: &Course) -> u64 {
    let few = random.length(1, 12) as u64;
    let span = match ask(course.state()).value {
        Ask::Run { span, .. } | Ask::Burn { span, .. } => span,
        Ask::Nothing => few,
    };
    random.pick(&[0, 1, span - 1, span, span, span + 1, 2 * span, few, few])
}

fn refused(random: &mut Random, course: &mut Course) {
    let (known, count) = (any_guest(random, course), course.guest_count());
    // Of these, a number's low bits alone name a guest that there is.
    let further = known + random.pick(&[1 << 8, 1 << 16, 1 << 32, 1 << 42]);
    let unknown = random.pick(&[count, count + 1, further, further]);
    match random.length(0, 3) {
        0 => course.arrive(unknown),
        1 => course.done(unknown),
        2 => course.done(known),
        _ => course.advance_past_the_end(random.pick(&[1, 2, 1 << 32, 1 << 42])),
    }
}
