//! States that break one point of soundness and no other, built on purpose.

use second::state::{Spare, State};

use super::points::{bound, broken, Point, LAST_TICK};
use super::runs::{any_guest, any_table, placed, shift_time, table_of, Pool};
use crate::random::Random;
use crate::tables;

const TRIES: usize = 2_000;

/// None where no try came out as wanted.
pub fn alone(random: &mut Random, pool: &Pool, point: Point) -> Option<State> {
    (0..TRIES)
        .map(|_| tried(random, pool, point))
        .find(|state| broken(state).alone() == Some(point))
}

fn tried(random: &mut Random, pool: &Pool, point: Point) -> State {
    let full = matches!(point, Point::SpareCount | Point::Room);
    let states = if full { &pool.full } else { &pool.any };
    let mut state = placed(random, states);
    match point {
        Point::GuestCount | Point::Frame | Point::Shares => break_table(random, &mut state, point),
        Point::NoBudget | Point::BudgetPastPeriod | Point::PeriodNoDivisor | Point::UnusedEntry => {
            break_entry(random, &mut state, point)
        }
        Point::Jobs
        | Point::LeftPastBudget
        | Point::IdleWithBudget
        | Point::GuestDeadline
        | Point::Room => {
            break_guest(random, &mut state, point);
        }
        Point::SpareCount | Point::Time | Point::Tallies => break_count(random, &mut state, point),
        Point::DeadlineOrder | Point::OwnerOrder | Point::EqualSpares => {
            break_order(random, &mut state, point)
        }
        Point::Owner | Point::NoCapacity | Point::CapacityPastBudget => {
            break_spare(random, &mut state, point)
        }
        Point::SpareDeadline | Point::PastIdleOwner | Point::AtActiveOwner => {
            break_behind(random, &mut state, point)
        }
        _ => break_unused(random, &mut state, point),
    }
    state
}

fn break_table(random: &mut Random, state: &mut State, point: Point) {
    let many = random.pick(&[17, 17, 18, 256 + 16, 1 << 32, u64::MAX]);
    match point {
        Point::GuestCount if random.one_in(3) => {
            *state = State::default();
            state.table.frame = any_table(random).frame;
            shift_time(state, random.next() % LAST_TICK);
        }
        Point::GuestCount => state.table.guest_count = many,
        Point::Frame if random.one_in(3) => state.table.frame = 0,
        Point::Frame if random.one_in(2) => state.table.frame *= 1_000_000 / state.table.frame + 1,
        Point::Frame => *state = fresh_of_frame(random, 1_000_001, false),
        _ if random.one_in(2) => {
            let frame = tables::good_frame(random, 1);
            *state = fresh_of_frame(random, frame, true);
        }
        _ => {
            let entry = &mut state.table.entries[random.length(0, 15)];
            entry.budget = entry.period;
        }
    }
}

/// A state like a fresh one, of a table that is refused.
fn fresh_of_frame(random: &mut Random, frame: u32, beyond: bool) -> State {
    let most = random.length(2, 16);
    let guests = if beyond {
        tables::guests_beyond(random, frame, most)
    } else {
        tables::guests_within(random, frame, most)
    };
    let mut state = State {
        table: table_of(frame, &guests),
        ..State::default()
    };
    shift_time(&mut state, random.pick(&[0, 5, LAST_TICK]));
    state
}

fn break_entry(random: &mut Random, state: &mut State, point: Point) {
    let any = random.next() >> random.between(0, 63);
    let unused = random.length(state.table.guest_count.min(15) as usize, 15);
    let place = any_guest(random, state) as usize;
    let frame = state.table.frame;
    let place = if point == Point::UnusedEntry {
        unused
    } else {
        place
    };
    let entry = &mut state.table.entries[place];
    match point {
        Point::NoBudget => entry.budget = 0,
        Point::BudgetPastPeriod => entry.budget = random.pick(&[entry.period + 1, u64::MAX]),
        Point::PeriodNoDivisor => {
            entry.period = random.pick(&[
                entry.period + 1,
                entry.period - 1,
                frame + 1,
                2 * frame,
                any,
                u64::MAX,
            ])
        }
        _ if random.one_in(2) => entry.budget = any,
        _ => entry.period = any,
    }
}

fn break_guest(random: &mut Random, state: &mut State, point: Point) {
    let place = any_guest(random, state) as usize;
    let budget = state.table.entries[place].budget;
    let bound = bound(state.now) as u64;
    let guest = &mut state.guests[place];
    match point {
        Point::Jobs => guest.jobs = random.pick(&[256, 256, 257, 1 << 32, u64::MAX]),
        Point::LeftPastBudget => {
            guest.current_budget = random.pick(&[budget + 1, budget + 1, u64::MAX])
        }
        Point::IdleWithBudget => guest.current_budget = random.pick(&[1, budget]),
        Point::GuestDeadline => {
            guest.deadline = random.pick(&[bound + 1, bound + 1, bound + 1_000, 1 << 63, u64::MAX])
        }
        _ => {
            guest.jobs = 1;
            guest.deadline += random.pick(&[1, 1, 2]);
        }
    }
}

fn break_count(random: &mut Random, state: &mut State, point: Point) {
    match point {
        Point::SpareCount => state.spare_count = random.pick(&[65, 65, 66, 128, 1 << 32, u64::MAX]),
        Point::Time => {
            let now = random.pick(&[
                LAST_TICK + 1,
                LAST_TICK + 1,
                LAST_TICK + 2,
                1 << 41,
                u64::MAX - 1,
            ]);
            state.nothing_ticks += now - state.now;
            state.now = now;
        }
        _ => break_tallies(random, state),
    }
}

fn break_tallies(random: &mut Random, state: &mut State) {
    let place = any_guest(random, state) as usize;
    let other = any_guest(random, state) as usize;
    let further = random.pick(&[1, 1, u64::MAX, u64::MAX, 1 << 40, 1 << 63]);
    match random.length(0, 5) {
        0 => state.guests[place].own_ticks = state.guests[place].own_ticks.wrapping_add(further),
        1 => {
            state.guests[place].spare_ticks = state.guests[place].spare_ticks.wrapping_add(further)
        }
        2 => state.burning_ticks = state.burning_ticks.wrapping_add(further),
        3 => state.nothing_ticks = state.nothing_ticks.wrapping_add(further),
        // The sum is right again where it wraps.
        4 => {
            state.guests[place].own_ticks += 1 << 63;
            state.guests[other].spare_ticks += 1 << 63;
        }
        _ => {
            state.burning_ticks += 1 << 63;
            state.nothing_ticks += 1 << 63;
        }
    }
}

fn break_order(random: &mut Random, state: &mut State, point: Point) {
    let count = state.spare_count as usize;
    if count < 2 {
        return;
    }
    let place = random.length(0, count - 2);
    if point == Point::EqualSpares {
        state.spares[place] = state.spares[place + 1];
    } else {
        state.spares.swap(place, place + 1);
    }
}

fn break_spare(random: &mut Random, state: &mut State, point: Point) {
    let count = state.table.guest_count;
    let Some(place) = some_spare(random, state) else {
        return;
    };
    let spare = &mut state.spares[place];
    let budget = state.table.entries[spare.owner as usize].budget;
    match point {
        Point::Owner => {
            spare.owner = random.pick(&[count, count, 16, 17, spare.owner + (1 << 32), u64::MAX])
        }
        Point::NoCapacity => spare.capacity = 0,
        _ => spare.capacity = random.pick(&[budget + 1, budget + 1, u64::MAX]),
    }
}

fn some_spare(random: &mut Random, state: &State) -> Option<usize> {
    let count = state.spare_count as usize;
    let place = random.length(0, 63) % count.max(1);
    (count > 0).then_some(random.pick(&[place, count.saturating_sub(1)]))
}

fn break_behind(random: &mut Random, state: &mut State, point: Point) {
    let bound = bound(state.now) as u64;
    let Some(place) = some_spare(random, state) else {
        return;
    };
    let Spare {
        owner, deadline, ..
    } = state.spares[place];
    let guest = &mut state.guests[owner as usize];
    match point {
        Point::SpareDeadline => {
            state.spares[place].deadline = bound + random.pick(&[1, 1, 1_000]);
            guest.deadline = random.pick(&[guest.deadline, bound + 1_001]);
        }
        Point::PastIdleOwner if random.one_in(2) => guest.deadline = deadline - 1,
        Point::PastIdleOwner => state.spares[place].deadline = guest.deadline + 1,
        _ if random.one_in(2) => guest.deadline = deadline,
        _ => state.spares[place].deadline = guest.deadline + random.pick(&[0, 0, 1]),
    }
}

fn break_unused(random: &mut Random, state: &mut State, point: Point) {
    let value = random.pick(&[1, 1, 2, 255, 1 << 32, u64::MAX]);
    let guest = &mut state.guests[random.length(state.table.guest_count.min(15) as usize, 15)];
    let spare = &mut state.spares[random.length(state.spare_count.min(63) as usize, 63)];
    match point {
        Point::UnusedJobs => guest.jobs = value,
        Point::UnusedLeft => guest.current_budget = value,
        Point::UnusedDeadline => guest.deadline = value,
        Point::UnusedOwn => guest.own_ticks = value,
        Point::UnusedLent => guest.spare_ticks = value,
        Point::UnusedSpareDeadline => spare.deadline = value,
        Point::UnusedSpareOwner => spare.owner = value,
        _ => spare.capacity = value,
    }
}

/// A tally of a place that is not used, taken from another, so that all places together add up.
pub fn tally_moved(random: &mut Random, pool: &Pool) -> State {
    let mut state = placed(random, &pool.any);
    let unused = state.table.guest_count.min(15) as usize;
    let guest = &mut state.guests[random.length(unused, 15)];
    let moved = state.nothing_ticks.min(random.pick(&[1, 1, 5]));
    state.nothing_ticks -= moved;
    let tally = if random.one_in(2) {
        &mut guest.own_ticks
    } else {
        &mut guest.spare_ticks
    };
    *tally += moved;
    state
}

/// Breaks a point that no refusal but 1 looks at.
pub fn unsettle(random: &mut Random, state: &mut State) {
    let spare = state.spare_count as usize;
    match random.length(0, 2) {
        0 if spare < 64 => state.spares[spare].capacity = 1,
        1 => state.burning_ticks = state.burning_ticks.wrapping_sub(1),
        _ => state.nothing_ticks += 1,
    }
}
