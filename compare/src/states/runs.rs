//! Sound states: those of random runs, with full lists of spares among them, and the same ones late in time or with far deadlines.

use second::state::{fresh, sound, State};
use second::steps::{advance, arrive, ask, done, Ask};
use second::table::{self, Table};

use super::points::{bound, FURTHEST, LAST_TICK};
use crate::draft::Entry;
use crate::random::Random;
use crate::tables;

const SMALL_FRAMES: [u32; 8] = [1, 2, 7, 12, 24, 60, 120, 360];
const LONG_FRAMES: [u32; 4] = [5_040, 720_720, 999_999, 1_000_000];
const RUNS: usize = 10;
/// How many of a hundred arrivals at an idle guest are not done at once, while a list is filled: the first one has spares alone.
const FULL_RUNS: [usize; 6] = [0, 0, 1, 1, 4, 10];
const MOST_GUESTS: usize = 16;

/// States to choose from: of any kind, and with spares plus active guests = 64.
pub struct Pool {
    pub any: Vec<State>,
    pub full: Vec<State>,
}

pub fn pool(random: &mut Random) -> Pool {
    let mut pool = Pool {
        any: Vec::new(),
        full: Vec::new(),
    };
    for _ in 0..RUNS {
        let table = any_table(random);
        run(random, &table, &mut pool.any);
    }
    for staying in FULL_RUNS {
        let table = any_table(random);
        fill(random, &table, staying, &mut pool);
    }
    pool
}

pub fn table_of(frame: u32, guests: &[Entry]) -> Table {
    let mut table = Table {
        frame: frame.into(),
        guest_count: guests.len() as u64,
        ..Table::default()
    };
    for (place, guest) in table.entries.iter_mut().zip(guests) {
        *place = table::Entry {
            budget: guest.budget.into(),
            period: guest.period.into(),
        };
    }
    table
}

/// A table that is accepted: often one whose guests have the same period, so that deadlines are equal.
pub fn any_table(random: &mut Random) -> Table {
    if random.one_in(3) {
        let frame = random.between(1, 40);
        let guest = Entry {
            budget: 1,
            period: frame,
        };
        let count = random.length(1, MOST_GUESTS.min(frame as usize));
        return table_of(frame, &vec![guest; count]);
    }
    let frame = if random.one_in(3) {
        random.pick(&LONG_FRAMES)
    } else {
        random.pick(&SMALL_FRAMES)
    };
    let most = random.pick(&[1, 2, 3, 5, 15, 16, 16]);
    table_of(frame, &tables::guests_within(random, frame, most))
}

pub fn any_guest(random: &mut Random, state: &State) -> u64 {
    random.next() % state.table.guest_count
}

fn run(random: &mut Random, table: &Table, states: &mut Vec<State>) {
    let mut state = fresh(table).value;
    for _ in 0..random.length(1, 70) {
        let guest = any_guest(random, &state);
        let ticks = some_ticks(random, &state);
        match random.length(0, 9) {
            0..=3 => arrive(&mut state, guest),
            4..=6 => done(&mut state, guest),
            _ => advance(&mut state, ticks),
        };
        if random.one_in(4) {
            states.push(state);
        }
    }
    states.push(state);
}

/// Often to the end of a portion.
fn some_ticks(random: &mut Random, state: &State) -> u64 {
    let few = random.length(1, 30) as u64;
    match ask(state).value {
        Ask::Run { span, .. } | Ask::Burn { span, .. } if span < 300 => {
            random.pick(&[span, span, few])
        }
        _ => few,
    }
}

/// Arrivals with their completions until there is no place left; some guests stay active.
fn fill(random: &mut Random, table: &Table, staying: usize, pool: &mut Pool) {
    let mut state = fresh(table).value;
    advance(&mut state, random.length(0, 9) as u64);
    for _ in 0..400 {
        let guest = any_guest(random, &state);
        let before = state;
        if arrive(&mut state, guest) == 5 {
            break;
        }
        if state.guests[guest as usize].jobs > 1 || random.length(0, 99) >= staying {
            done(&mut state, guest);
        }
        if random.one_in(30) {
            pool.any.push(before);
        }
    }
    pool.any.push(state);
    pool.full.push(state);
}

/// A state of the pool as it is, or with other numbers that keep it sound: more jobs, other budgets, late ticks, far deadlines.
pub fn placed(random: &mut Random, states: &[State]) -> State {
    let mut state = random.pick(states);
    if random.one_in(3) {
        vary(random, &mut state);
    }
    if random.one_in(2) {
        let left = LAST_TICK - state.now;
        let few = (random.length(0, 200) as u64).min(left);
        let any = random_below(random.next(), left);
        let further = random.pick(&[0, few, left, left - few, any]);
        shift_time(&mut state, further);
    }
    if random.one_in(3) {
        let guest = any_guest(random, &state) as usize;
        move_deadlines(random, &mut state, guest);
    }
    state
}

fn random_below(any: u64, most: u64) -> u64 {
    any % (most + 1)
}

fn vary(random: &mut Random, state: &mut State) {
    for (guest, entry) in state.guests.iter_mut().zip(&state.table.entries) {
        if guest.jobs > 0 {
            guest.jobs = random.pick(&[1, 1, 2, 254, 255]);
            guest.current_budget = random_below(random.next(), entry.budget);
        }
    }
}

/// Everything so many ticks later, the idle tally too.
pub fn shift_time(state: &mut State, ticks: u64) {
    state.now += ticks;
    state.nothing_ticks += ticks;
    shift_deadlines(state, ticks);
}

fn shift_deadlines(state: &mut State, ticks: u64) {
    let guests = state.guests.iter_mut().map(|guest| &mut guest.deadline);
    let spares = state.spares.iter_mut().map(|spare| &mut spare.deadline);
    // A guest that never woke has 0, and so has a place that is not used.
    guests
        .chain(spares)
        .filter(|deadline| **deadline > 0)
        .for_each(|deadline| *deadline += ticks);
}

/// All deadlines further, so that this guest would wake with one about 2^44, or the furthest comes about the bound.
fn move_deadlines(random: &mut Random, state: &mut State, guest: usize) {
    let furthest = state
        .guests
        .iter()
        .map(|guest| guest.deadline)
        .max()
        .unwrap_or(0);
    let bound = bound(state.now) as u64;
    let few = random.length(0, 40) as u64;
    let wakes_at = state.guests[guest].deadline + state.table.entries[guest].period;
    let about = FURTHEST + random.pick(&[0, 0, 1, 1, 2, 40]) - random.pick(&[0, 0, 0, 1, 30]);
    let aims = [
        about.saturating_sub(wakes_at),
        about.saturating_sub(wakes_at),
        bound.saturating_sub(furthest),
        bound.saturating_sub(furthest + few),
        (FURTHEST + few).saturating_sub(furthest),
    ];
    let further = random.pick(&aims);
    if furthest + further <= bound {
        shift_deadlines(state, further);
    }
}

/// So that this guest, which is idle and woke before, would wake with the given deadline; whether it could be done.
pub fn wake_at(state: &mut State, guest: usize, deadline: u64) -> bool {
    let wakes_at = state.guests[guest].deadline + state.table.entries[guest].period;
    if state.guests[guest].deadline == 0 || wakes_at > deadline {
        return false;
    }
    shift_deadlines(state, deadline - wakes_at);
    sound(state)
}
