//! Guest numbers, ticks, and changes of a state or a table by one or two numbers.

use second::state::State;
use second::steps::{ask, Ask};

use super::points::{bound, FURTHEST, LAST_TICK, LONGEST_FRAME};
use super::wire::{self, ENTRIES, GUESTS, SPARES};
use crate::random::Random;

/// The second implementation goes tick by tick wherever somebody runs or something burns.
const MOST_BUSY_TICKS: u64 = 1_500;
/// Numbers at which a rule begins or ends, besides those that a state has itself.
const BORDERS: [u64; 20] = [
    0,
    1,
    2,
    15,
    16,
    17,
    63,
    64,
    65,
    254,
    255,
    256,
    LONGEST_FRAME,
    LONGEST_FRAME + 1,
    1 << 32,
    LAST_TICK,
    LAST_TICK + 1,
    FURTHEST,
    FURTHEST + 1,
    u64::MAX,
];

/// Mostly a guest that there is; some numbers name one by their low bits alone.
pub fn guest(random: &mut Random, state: &State) -> u64 {
    let count = state.table.guest_count;
    let known = random.next() % count.clamp(1, 16);
    let further = known + random.pick(&[1 << 8, 1 << 16, 1 << 32, 1 << 63]);
    let other = random.pick(&[count, count.wrapping_add(1), 16, 17, further, u64::MAX]);
    random.pick(&[known, known, known, known, known, other])
}

/// None, one, some, to the end of the portion or beside it, to the end of time or past it.
pub fn ticks(random: &mut Random, state: &State) -> u64 {
    let few = random.length(2, 150) as u64;
    let span = match ask(state).value {
        Ask::Run { span, .. } | Ask::Burn { span, .. } => span,
        Ask::Nothing => few,
    };
    let left = LAST_TICK.saturating_sub(state.now);
    let past = random.pick(&[left + 1, left + 1, left + few, u64::MAX]);
    let tried = [
        0,
        1,
        few,
        few,
        few,
        span,
        span.saturating_sub(1),
        span + 1,
        left,
        left.saturating_sub(few),
        past,
    ];
    let chosen = random.pick(&tried);
    if chosen > left || is_quick(state, chosen) {
        chosen
    } else {
        few
    }
}

fn is_quick(state: &State, ticks: u64) -> bool {
    let idle = state.guests.iter().all(|guest| guest.jobs == 0);
    let burning = state
        .spares
        .iter()
        .fold(0, |sum: u64, spare| sum.saturating_add(spare.capacity));
    ticks <= MOST_BUSY_TICKS || (idle && burning <= MOST_BUSY_TICKS)
}

/// One number of a state by one up or down, or at a border.
pub fn change(random: &mut Random, state: &State) -> State {
    let mut numbers = wire::state_numbers(state);
    let place = place(random, state);
    numbers[place] = changed(random, &numbers, numbers[place], bound(state.now) as u64);
    wire::state_of(&numbers)
}

/// Most changes are among what is in use and the first place behind it.
fn place(random: &mut Random, state: &State) -> usize {
    let guest = random.length(0, state.table.guest_count.min(15) as usize);
    let spare = random.length(0, state.spare_count.min(63) as usize);
    let tried = [
        random.length(0, 1),
        ENTRIES + 2 * guest + random.length(0, 1),
        wire::NOW,
        GUESTS + 5 * guest + random.length(0, 4),
        GUESTS + 5 * guest + random.length(0, 4),
        wire::SPARE_COUNT,
        SPARES + 3 * spare + random.length(0, 2),
        SPARES + 3 * spare + random.length(0, 2),
        random.length(wire::BURNED, wire::IDLE),
        random.length(0, wire::STATE_NUMBERS - 1),
    ];
    random.pick(&tried)
}

fn changed(random: &mut Random, numbers: &[u64], value: u64, bound: u64) -> u64 {
    let border = random.pick(&BORDERS);
    let other = random.pick(numbers);
    let count = numbers[1];
    let tried = [
        value.wrapping_add(1),
        value.wrapping_sub(1),
        value.wrapping_add(1),
        value.wrapping_sub(1),
        border,
        border,
        other,
        other.wrapping_add(1),
        count,
        count.wrapping_sub(1),
        random.pick(&[bound, bound.wrapping_add(1)]),
    ];
    random.pick(&tried)
}

/// One number of a table.
pub fn change_table(random: &mut Random, table: &mut second::table::Table) {
    let mut numbers = wire::table_numbers(table);
    let guest = random.length(0, table.guest_count.min(15) as usize);
    let place = random.pick(&[
        0,
        1,
        ENTRIES + 2 * guest,
        ENTRIES + 2 * guest + 1,
        ENTRIES + 2 * guest + 1,
    ]);
    numbers[place] = changed(random, &numbers, numbers[place], u64::MAX);
    *table = wire::table_of(&numbers);
}
