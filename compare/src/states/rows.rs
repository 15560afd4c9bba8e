//! The refusals whose conditions hold for a call, each looked at by itself and written from the specification's "Numbers of refusal".

use second::state::State;
use second::table::{Entry, Table};

use super::points::{
    active_count, broken, is_good, shares, used, FURTHEST, LAST_TICK, LONGEST_FRAME,
};

/// In rising order.
pub type Rows = Vec<u32>;

fn holding(rows: &[(u32, bool)]) -> Rows {
    rows.iter()
        .filter(|(_, holds)| *holds)
        .map(|(number, _)| *number)
        .collect()
}

pub fn of_ask(state: &State) -> Rows {
    holding(&[(1, !broken(state).is_empty())])
}

pub fn of_margin(state: &State, guest: u64) -> Rows {
    holding(&[
        (1, !broken(state).is_empty()),
        (2, guest >= state.table.guest_count),
    ])
}

pub fn of_advance(state: &State, ticks: u64) -> Rows {
    let end = u128::from(state.now) + u128::from(ticks);
    holding(&[
        (1, !broken(state).is_empty()),
        (7, end > u128::from(LAST_TICK)),
    ])
}

pub fn of_done(state: &State, guest: u64) -> Rows {
    let mut rows = of_margin(state, guest);
    let idle = guest < used(&state.table) as u64 && state.guests[guest as usize].jobs == 0;
    rows.extend(idle.then_some(3));
    rows
}

pub fn of_arrive(state: &State, guest: u64) -> Rows {
    let mut rows = of_margin(state, guest);
    if guest >= used(&state.table) as u64 {
        return rows;
    }
    let place = guest as usize;
    let (woken, entry) = (state.guests[place], state.table.entries[place]);
    let idle = woken.jobs == 0;
    let occupied = u128::from(state.spare_count) + active_count(state) as u128;
    let deadline = u128::from(state.now.max(woken.deadline)) + u128::from(entry.period);
    rows.extend(holding(&[
        (4, woken.jobs == 255),
        (5, idle && occupied == 64),
        (6, idle && deadline > u128::from(FURTHEST)),
    ]));
    rows
}

pub fn of_table(table: &Table) -> Rows {
    let (entries, unused) = table.entries.split_at(used(table));
    let bad = entries.iter().any(|entry| !is_good(entry, table.frame));
    let left = unused.iter().any(|entry| *entry != Entry::default());
    holding(&[
        (10, table.guest_count == 0 || table.guest_count > 16),
        (12, table.frame == 0 || table.frame > LONGEST_FRAME),
        (13, bad || left),
        (14, shares(table) > u128::from(table.frame)),
    ])
}

pub fn of_write(table: &Table, length: usize) -> Rows {
    let mut rows = of_table(table);
    let short = (length as u128) < 8 * u128::from(table.guest_count) + 12;
    rows.extend(short.then_some(15));
    rows
}
