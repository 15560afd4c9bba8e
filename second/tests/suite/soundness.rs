//! Soundness, point by point: each point on both sides of its border.

use second::state::{sound, Guest, Spare, State};
use second::table::Entry;

use crate::support::{
    all_calls_give_1, fresh_state, put_now, put_spares, spare, END_OF_TIME, TWO_TO_44,
};

/// Guest 0 is active and guest 1 idle; each owns a spare.
fn base() -> State {
    let mut state = fresh_state(8, &[(3, 4), (2, 8)]);
    state.now = 10;
    state.guests[0] = Guest {
        jobs: 1,
        current_budget: 2,
        deadline: 12,
        own_ticks: 4,
        spare_ticks: 1,
    };
    state.guests[1] = Guest {
        jobs: 0,
        current_budget: 0,
        deadline: 16,
        own_ticks: 2,
        spare_ticks: 0,
    };
    put_spares(&mut state, &[spare(0, 3, 8), spare(1, 1, 16)]);
    state.burning_ticks = 1;
    state.nothing_ticks = 2;
    state
}

fn holds(change: impl Fn(&mut State)) {
    let mut state = base();
    change(&mut state);
    assert!(sound(&state), "{state:?}");
}

fn breaks(change: impl Fn(&mut State)) {
    let mut state = base();
    change(&mut state);
    assert!(!sound(&state), "{state:?}");
    all_calls_give_1(&state);
}

#[test]
fn base_and_zeros() {
    holds(|_| ());
    breaks(|state| *state = State::default());
}

#[test]
fn time() {
    holds(|state| put_now(state, END_OF_TIME));
    breaks(|state| put_now(state, END_OF_TIME + 1));
    breaks(|state| put_now(state, 1 << 50));
}

#[test]
fn every_rule_of_the_table() {
    breaks(|state| state.table.guest_count = 0);
    breaks(|state| state.table.guest_count = 17);
    breaks(|state| state.table.guest_count = u64::MAX);
    breaks(|state| state.table.frame = 0);
    breaks(|state| state.table.frame = 1_000_001);
    breaks(|state| state.table.frame = 12);
    breaks(|state| state.table.entries[1].budget = 0);
    breaks(|state| state.table.entries[1].budget = 9);
    breaks(|state| state.table.entries[1].budget = 3);
    breaks(|state| state.table.entries[1].period = 0);
    breaks(|state| state.table.entries[15].period = 8);
    breaks(|state| state.table.entries[2].budget = 1);
}

#[test]
fn jobs() {
    holds(|state| state.guests[0].jobs = 255);
    breaks(|state| state.guests[0].jobs = 256);
    breaks(|state| state.guests[0].jobs = u64::MAX);
}

#[test]
fn current_budget() {
    holds(|state| state.guests[0].current_budget = 0);
    holds(|state| state.guests[0].current_budget = 3);
    breaks(|state| state.guests[0].current_budget = 4);
    breaks(|state| state.guests[1].current_budget = 1);
    breaks(|state| state.guests[0].jobs = 0);
}

#[test]
fn owner_and_capacity() {
    breaks(|state| state.spares[1].owner = 2);
    breaks(|state| state.spares[1].owner = u64::MAX);
    breaks(|state| state.spares[1].capacity = 0);
    holds(|state| state.spares[1].capacity = 2);
    breaks(|state| state.spares[1].capacity = 3);
    breaks(|state| state.spares[0].capacity = 4);
}

#[test]
fn tallies() {
    let tally_changes: [fn(&mut State); 6] = [
        |state| state.guests[0].own_ticks += 1,
        |state| state.guests[0].spare_ticks += 1,
        |state| state.guests[1].own_ticks -= 1,
        |state| state.guests[1].spare_ticks += 1,
        |state| state.burning_ticks -= 1,
        |state| state.nothing_ticks += 1,
    ];
    for change in tally_changes {
        breaks(change);
    }
    holds(|state| {
        state.burning_ticks += 2;
        state.nothing_ticks -= 2;
    });
    breaks(|state| state.now = 11);
}

#[test]
fn tallies_never_wrap() {
    // Modulo 2^64 these add up to 10.
    breaks(|state| {
        state.guests[0].own_ticks = u64::MAX;
        state.guests[1].own_ticks = 7;
    });
    breaks(|state| {
        for guest in &mut state.guests[..2] {
            guest.own_ticks = 1 << 63;
            guest.spare_ticks = 0;
        }
        state.nothing_ticks = 9;
    });
}

#[test]
fn order_of_spares() {
    // Idle owners may have spares up to their own deadline.
    let idle = |spares: &[Spare]| {
        let mut state = base();
        for place in 0..2 {
            state.guests[place].jobs = 0;
            state.guests[place].current_budget = 0;
            state.guests[place].deadline = 40;
        }
        put_spares(&mut state, spares);
        sound(&state)
    };
    assert!(idle(&[spare(0, 1, 8), spare(1, 1, 8)]));
    assert!(!idle(&[spare(1, 1, 8), spare(0, 1, 8)]));
    assert!(idle(&[spare(1, 1, 7), spare(0, 1, 8)]));
    assert!(!idle(&[spare(0, 1, 8), spare(1, 1, 7)]));
    assert!(!idle(&[spare(0, 1, 8), spare(0, 2, 8)]));
    assert!(idle(&[spare(0, 1, 8), spare(0, 1, 9), spare(1, 1, 9)]));
    assert!(!idle(&[spare(0, 1, 8), spare(0, 1, 10), spare(1, 1, 9)]));
}

#[test]
fn spares_plus_active_guests() {
    let with_spares = |count: u64, active: bool| {
        let mut state = base();
        let spares: Vec<_> = (1..=count).map(|deadline| spare(1, 1, deadline)).collect();
        put_spares(&mut state, &spares);
        state.guests[1].deadline = 64;
        if !active {
            state.guests[0].jobs = 0;
            state.guests[0].current_budget = 0;
        }
        sound(&state)
    };
    assert!(with_spares(63, true));
    assert!(!with_spares(64, true));
    assert!(with_spares(64, false));
    breaks(|state| state.spare_count = 65);
    breaks(|state| state.spare_count = u64::MAX);
}

#[test]
fn furthest_deadline() {
    let furthest = TWO_TO_44 + 10 * 1_048_576;
    holds(|state| state.guests[0].deadline = furthest);
    breaks(|state| state.guests[0].deadline = furthest + 1);
    holds(|state| state.guests[1].deadline = furthest);
    breaks(|state| state.guests[1].deadline = furthest + 1);
    breaks(|state| state.guests[1].deadline = u64::MAX);
    holds(|state| {
        state.guests[1].deadline = furthest;
        state.spares[1].deadline = furthest;
    });
    breaks(|state| {
        state.guests[1].deadline = furthest + 1;
        state.spares[1].deadline = furthest + 1;
    });
}

#[test]
fn furthest_deadline_at_the_end_of_time() {
    let furthest = (1_u64 << 44) + (1_u64 << 60);
    holds(|state| {
        put_now(state, END_OF_TIME);
        state.guests[0].deadline = furthest;
    });
    breaks(|state| {
        put_now(state, END_OF_TIME);
        state.guests[0].deadline = furthest + 1;
    });
}

#[test]
fn spare_against_its_owner() {
    holds(|state| state.spares[0].deadline = 11);
    breaks(|state| state.spares[0].deadline = 12);
    breaks(|state| state.spares[0].deadline = 13);
    holds(|state| state.spares[1].deadline = 16);
    breaks(|state| state.spares[1].deadline = 17);
    breaks(|state| {
        state.guests[1].jobs = 1;
        state.spares[1].deadline = 16;
    });
    holds(|state| {
        state.guests[1].jobs = 1;
        state.spares[1].deadline = 15;
    });
}

#[test]
fn unused_places() {
    for place in [2, 15] {
        breaks(|state| state.guests[place].jobs = 1);
        breaks(|state| state.guests[place].current_budget = 1);
        breaks(|state| state.guests[place].deadline = 1);
        breaks(|state| {
            state.guests[place].own_ticks = 1;
            state.nothing_ticks -= 1;
        });
        breaks(|state| {
            state.guests[place].spare_ticks = 1;
            state.nothing_ticks -= 1;
        });
        let entry = Entry {
            budget: 1,
            period: 8,
        };
        breaks(|state| state.table.entries[place] = entry);
    }
    for place in [2, 63] {
        breaks(|state| state.spares[place].owner = 1);
        breaks(|state| state.spares[place].capacity = 1);
        breaks(|state| state.spares[place].deadline = 1);
    }
}

#[test]
fn fewer_spares_than_places_filled() {
    breaks(|state| state.spare_count = 1);
    breaks(|state| state.spare_count = 3);
}
