//! Every pair of 'Pairs at the borders', with the document's numbers; the listing has its own file.

use second::image::read;
use second::state::{fresh, State};
use second::steps::{advance, arrive, ask, done, Ask, Source};
use second::table::{check, Table};

use crate::support::{fresh_state, guest, spare, table, used_spares, END_OF_TIME};

/// One guest (3, 6): advance 3, arrive.
fn arrived_at_3() -> State {
    let mut state = fresh_state(6, &[(3, 6)]);
    assert_eq!(advance(&mut state, 3), 0);
    assert_eq!(arrive(&mut state, 0), 0);
    state
}

#[test]
fn budget_is_renewed_at_the_next_tick() {
    let mut state = arrived_at_3();
    assert_eq!(guest(&state, 0), (1, 3, 9));
    assert_eq!(advance(&mut state, 3), 0);
    assert_eq!((state.now, guest(&state, 0)), (6, (1, 0, 9)));
    assert_eq!(advance(&mut state, 1), 0);
    assert_eq!((state.now, guest(&state, 0)), (7, (1, 2, 15)));
}

#[test]
fn done_on_the_last_budgeted_tick() {
    let mut state = arrived_at_3();
    assert_eq!(advance(&mut state, 3), 0);
    assert_eq!((state.now, done(&mut state, 0)), (6, 0));
    assert_eq!(guest(&state, 0), (0, 0, 9));
    assert!(used_spares(&state).is_empty());
}

#[test]
fn shares_of_exactly_one_and_above() {
    assert_eq!(check(&table(8, &[(3, 4), (2, 8)])), 0);
    assert_eq!(check(&table(8, &[(3, 4), (3, 8)])), 14);
}

#[test]
fn smallest_table_and_bad_guests() {
    assert_eq!(check(&table(1, &[(1, 1)])), 0);
    assert_eq!(check(&table(8, &[(1, 3)])), 13);
    assert_eq!(check(&table(8, &[(0, 4)])), 13);
}

#[test]
fn fresh_states_of_the_same_tables() {
    for good in [table(8, &[(3, 4), (2, 8)]), table(1, &[(1, 1)])] {
        let expected = State {
            table: good,
            ..State::default()
        };
        assert_eq!((fresh(&good).refusal, fresh(&good).value), (0, expected));
    }
    let refused: [(u32, Table); 3] = [
        (14, table(8, &[(3, 4), (3, 8)])),
        (13, table(8, &[(1, 3)])),
        (13, table(8, &[(0, 4)])),
    ];
    for (number, bad) in refused {
        assert_eq!(fresh(&bad).refusal, number);
        assert_eq!(fresh(&bad).value, State::default());
    }
}

#[test]
fn sixty_four_spares_and_one_removed() {
    let mut state = fresh_state(1, &[(1, 1)]);
    for _ in 0..64 {
        assert_eq!((arrive(&mut state, 0), done(&mut state, 0)), (0, 0));
    }
    let expected: Vec<_> = (1..=64).map(|deadline| spare(0, 1, deadline)).collect();
    assert_eq!(used_spares(&state), expected);
    assert_eq!((state.now, arrive(&mut state, 0)), (0, 5));
    assert_eq!((advance(&mut state, 1), arrive(&mut state, 0)), (0, 0));
    assert_eq!(guest(&state, 0), (1, 1, 65));
    assert_eq!(done(&mut state, 0), 0);
    let expected: Vec<_> = (2..=65).map(|deadline| spare(0, 1, deadline)).collect();
    assert_eq!(used_spares(&state), expected);
}

#[test]
fn arrive_done_arrive_at_tick_0() {
    let mut state = fresh_state(4, &[(3, 4)]);
    assert_eq!((arrive(&mut state, 0), done(&mut state, 0)), (0, 0));
    assert_eq!(arrive(&mut state, 0), 0);
    assert_eq!(used_spares(&state), [spare(0, 3, 4)]);
    assert_eq!(guest(&state, 0), (1, 3, 8));
    let on_spare = Ask::Run {
        guest: 0,
        source: Source::Spare { owner: 0 },
        deadline: 4,
        span: 3,
    };
    assert_eq!(ask(&state).value, on_spare);
    assert_eq!(advance(&mut state, 1), 0);
    assert_eq!(used_spares(&state), [spare(0, 2, 4)]);
    assert_eq!(guest(&state, 0), (1, 3, 8));
}

#[test]
fn advance_at_the_end_of_time() {
    let mut state = fresh_state(4, &[(3, 4)]);
    assert_eq!(advance(&mut state, END_OF_TIME), 0);
    assert_eq!(state.now, 1 << 40);
    let before = state;
    assert_eq!((advance(&mut state, 0), state), (0, before));
    assert_eq!((advance(&mut state, 1), state), (7, before));
}

/// One guest (1, 1,000,000): arrive, advance, done.
fn done_after(ticks: u64) -> State {
    let mut state = fresh_state(1_000_000, &[(1, 1_000_000)]);
    assert_eq!(arrive(&mut state, 0), 0);
    assert_eq!((advance(&mut state, ticks), done(&mut state, 0)), (0, 0));
    state
}

#[test]
fn last_deadline_below_2_to_44() {
    let mut state = done_after(17_592_185);
    assert_eq!(guest(&state, 0), (0, 0, 17_592_185_000_000));
    assert_eq!(arrive(&mut state, 0), 0);
    assert_eq!(guest(&state, 0), (1, 1, 17_592_186_000_000));
}

#[test]
fn first_deadline_past_2_to_44() {
    let mut state = done_after(17_592_186);
    let before = state;
    assert_eq!((arrive(&mut state, 0), state), (6, before));
}

#[test]
fn short_image_and_unsound_state() {
    assert_eq!(read(&[0; 19]).refusal, 8);
    let mut state = fresh_state(4, &[(3, 4)]);
    state.guests[0].current_budget = 1;
    assert_eq!(arrive(&mut state, 16), 1);
}
