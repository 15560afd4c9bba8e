//! The scheduler's state, the test whether it is sound, and the fresh state of a table.

use crate::refusal::{Answer, Refusal};
use crate::table::{self, Entry, Table, MOST_GUESTS};

pub const MOST_SPARES: usize = 64;
pub const MOST_JOBS: u64 = 255;
pub const END_OF_TIME: u64 = 1 << 40;
pub const FURTHEST_WAKE_DEADLINE: u64 = 1 << 44;

/// One tick may renew a guest once, and no period is longer than this.
const DEADLINE_GROWTH_PER_TICK: u128 = 1 << 20;

/// The changing numbers of one guest: its jobs, its c and d, and its two tallies.
#[derive(Clone, Copy, Debug, Default, PartialEq, Eq)]
pub struct Guest {
    pub jobs: u64,
    pub current_budget: u64,
    pub deadline: u64,
    pub own_ticks: u64,
    pub spare_ticks: u64,
}

/// Capacity that its owner left behind.
#[derive(Clone, Copy, Debug, Default, PartialEq, Eq)]
pub struct Spare {
    pub owner: u64,
    pub capacity: u64,
    pub deadline: u64,
}

/// Everything the scheduler knows; places from `guest_count` and `spare_count` on are unused.
#[derive(Clone, Copy, Debug, PartialEq, Eq)]
pub struct State {
    pub table: Table,
    pub now: u64,
    pub guests: [Guest; MOST_GUESTS],
    pub spare_count: u64,
    pub spares: [Spare; MOST_SPARES],
    pub burning_ticks: u64,
    pub nothing_ticks: u64,
}

impl Default for State {
    fn default() -> Self {
        State {
            table: Table::default(),
            now: 0,
            guests: [Guest::default(); MOST_GUESTS],
            spare_count: 0,
            spares: [Spare::default(); MOST_SPARES],
            burning_ticks: 0,
            nothing_ticks: 0,
        }
    }
}

/// Makes the state of a table at tick 0, or gives 10 or 12 to 14 and a state of zeros.
pub fn fresh(table: &Table) -> Answer<State> {
    Answer::from(try_fresh(table))
}

pub(crate) fn try_fresh(table: &Table) -> Result<State, Refusal> {
    table::accept(table)?;
    Ok(State {
        table: *table,
        ..State::default()
    })
}

/// Tells whether a state, with any numbers in it, keeps every rule.
pub fn sound(state: &State) -> bool {
    // The counts come first: the later points take them as bounds of the places in use.
    table::check(&state.table) == 0
        && state.spare_count <= MOST_SPARES as u64
        && state.now <= END_OF_TIME
        && guests_hold(state)
        && spares_hold(state)
        && spares_rise(state)
        && state.spare_count + active_count(state) <= MOST_SPARES as u64
        && tallies(state) == u128::from(state.now)
        && unused_are_zero(state)
}

pub(crate) fn active_count(state: &State) -> u64 {
    state.guests.iter().filter(|guest| guest.jobs > 0).count() as u64
}

pub(crate) fn used_spares(state: &State) -> &[Spare] {
    &state.spares[..state.spare_count as usize]
}

fn used_guests(state: &State) -> &[Guest] {
    &state.guests[..state.table.guest_count as usize]
}

fn guests_hold(state: &State) -> bool {
    used_guests(state)
        .iter()
        .zip(&state.table.entries)
        .all(|(guest, entry)| guest_holds(guest, entry, state.now))
}

fn guest_holds(guest: &Guest, entry: &Entry, now: u64) -> bool {
    guest.jobs <= MOST_JOBS
        && guest.current_budget <= entry.budget
        && (guest.jobs > 0 || guest.current_budget == 0)
        && deadline_holds(guest.deadline, now)
}

fn deadline_holds(deadline: u64, now: u64) -> bool {
    let furthest = u128::from(FURTHEST_WAKE_DEADLINE) + u128::from(now) * DEADLINE_GROWTH_PER_TICK;
    u128::from(deadline) <= furthest
}

fn spares_hold(state: &State) -> bool {
    used_spares(state)
        .iter()
        .all(|spare| spare_holds(spare, state))
}

fn spare_holds(spare: &Spare, state: &State) -> bool {
    if spare.owner >= state.table.guest_count {
        return false;
    }
    let owner = state.guests[spare.owner as usize];
    let budget = state.table.entries[spare.owner as usize].budget;
    let deadline_fits_owner = if owner.jobs > 0 {
        spare.deadline < owner.deadline
    } else {
        spare.deadline <= owner.deadline
    };
    1 <= spare.capacity
        && spare.capacity <= budget
        && deadline_fits_owner
        && deadline_holds(spare.deadline, state.now)
}

fn spares_rise(state: &State) -> bool {
    used_spares(state)
        .windows(2)
        .all(|pair| (pair[0].deadline, pair[0].owner) < (pair[1].deadline, pair[1].owner))
}

fn tallies(state: &State) -> u128 {
    let of_guests: u128 = state
        .guests
        .iter()
        .map(|guest| u128::from(guest.own_ticks) + u128::from(guest.spare_ticks))
        .sum();
    of_guests + u128::from(state.burning_ticks) + u128::from(state.nothing_ticks)
}

fn unused_are_zero(state: &State) -> bool {
    let unused_guests = &state.guests[state.table.guest_count as usize..];
    let unused_spares = &state.spares[state.spare_count as usize..];
    unused_guests.iter().all(|guest| *guest == Guest::default())
        && unused_spares.iter().all(|spare| *spare == Spare::default())
}
