//! The calls one by one: what each does, and each of its refusals on both sides of the border.

use second::state::{Spare, State};
use second::steps::{
    active, advance, arrive, ask, done, margin, portions, tick, Active, Ask, Source,
};

use crate::support::{
    all_calls_give_1, fresh_state, guest, put_now, put_spares, refused, spare, used_spares,
    END_OF_TIME, TWO_TO_44,
};

fn own(guest: u64, deadline: u64, span: u64) -> Ask {
    Ask::Run {
        guest,
        source: Source::Own,
        deadline,
        span,
    }
}

fn on_spare(guest: u64, owner: u64, deadline: u64, span: u64) -> Ask {
    Ask::Run {
        guest,
        source: Source::Spare { owner },
        deadline,
        span,
    }
}

fn accepted(numbers: &[u32]) {
    assert!(numbers.iter().all(|number| *number == 0), "{numbers:?}");
}

#[test]
fn arrive_at_an_active_guest_adds_one_job_only() {
    let mut state = fresh_state(4, &[(3, 4)]);
    accepted(&[arrive(&mut state, 0), advance(&mut state, 2)]);
    let mut expected = state;
    expected.guests[0].jobs = 2;
    assert_eq!((arrive(&mut state, 0), state), (0, expected));
}

#[test]
fn arrive_takes_the_larger_of_now_and_the_old_deadline() {
    let mut state = fresh_state(4, &[(3, 4)]);
    accepted(&[advance(&mut state, 7), arrive(&mut state, 0)]);
    assert_eq!(guest(&state, 0), (1, 3, 11));
    accepted(&[advance(&mut state, 1), done(&mut state, 0)]);
    accepted(&[arrive(&mut state, 0)]);
    assert_eq!(guest(&state, 0), (1, 3, 15));
}

#[test]
fn arrive_of_a_guest_that_is_not_there() {
    let state = fresh_state(8, &[(3, 4), (2, 8)]);
    for number in [2, 3, 16, 1 << 32, u64::MAX] {
        refused(&state, 2, |state| arrive(state, number));
        refused(&state, 2, |state| done(state, number));
        assert_eq!(
            (margin(&state, number).refusal, margin(&state, number).value),
            (2, 0)
        );
    }
    let mut state = state;
    accepted(&[arrive(&mut state, 1), done(&mut state, 1)]);
}

#[test]
fn the_sixteenth_guest_is_there() {
    let mut state = fresh_state(16, &[(1, 16); 16]);
    accepted(&[arrive(&mut state, 15)]);
    assert_eq!(guest(&state, 15), (1, 1, 16));
    refused(&state, 2, |state| arrive(state, 16));
}

#[test]
fn arrive_at_full_jobs() {
    let mut state = fresh_state(4, &[(3, 4)]);
    for _ in 0..255 {
        accepted(&[arrive(&mut state, 0)]);
    }
    assert_eq!(guest(&state, 0), (255, 3, 4));
    refused(&state, 4, |state| arrive(state, 0));
    accepted(&[done(&mut state, 0), arrive(&mut state, 0)]);
}

#[test]
fn arrive_without_room_for_a_spare() {
    let mut state = fresh_state(2, &[(1, 2), (1, 2)]);
    for _ in 0..63 {
        accepted(&[arrive(&mut state, 0), done(&mut state, 0)]);
    }
    accepted(&[arrive(&mut state, 0)]);
    assert_eq!((state.spare_count, guest(&state, 0)), (63, (1, 1, 128)));
    refused(&state, 5, |state| arrive(state, 1));
    // Only an idle guest needs room.
    accepted(&[
        arrive(&mut state, 0),
        done(&mut state, 0),
        done(&mut state, 0),
    ]);
    assert_eq!(state.spare_count, 64);
    refused(&state, 5, |state| arrive(state, 0));
    refused(&state, 5, |state| arrive(state, 1));
}

#[test]
fn arrive_with_a_deadline_of_exactly_2_to_44() {
    let mut state = fresh_state(4, &[(3, 4)]);
    state.guests[0].deadline = TWO_TO_44 - 3;
    refused(&state, 6, |state| arrive(state, 0));
    state.guests[0].deadline = TWO_TO_44 - 4;
    accepted(&[arrive(&mut state, 0)]);
    assert_eq!(guest(&state, 0), (1, 3, TWO_TO_44));
    // An active guest gets no new deadline.
    accepted(&[arrive(&mut state, 0)]);
    accepted(&[done(&mut state, 0), done(&mut state, 0)]);
    refused(&state, 6, |state| arrive(state, 0));
}

#[test]
fn arrive_gives_5_before_6() {
    let mut state = fresh_state(4, &[(3, 4)]);
    state.guests[0].deadline = TWO_TO_44;
    let spares: Vec<Spare> = (1..=64).map(|deadline| spare(0, 1, deadline)).collect();
    put_spares(&mut state, &spares);
    refused(&state, 5, |state| arrive(state, 0));
    put_spares(&mut state, &spares[..63]);
    refused(&state, 6, |state| arrive(state, 0));
}

#[test]
fn done_while_jobs_remain() {
    let mut state = fresh_state(4, &[(3, 4)]);
    accepted(&[
        arrive(&mut state, 0),
        arrive(&mut state, 0),
        advance(&mut state, 1),
    ]);
    let mut expected = state;
    expected.guests[0].jobs = 1;
    assert_eq!((done(&mut state, 0), state), (0, expected));
}

#[test]
fn done_leaves_a_spare_in_its_order() {
    let mut state = fresh_state(8, &[(1, 8), (2, 4), (2, 8)]);
    accepted(&[arrive(&mut state, 2), done(&mut state, 2)]);
    accepted(&[arrive(&mut state, 0), done(&mut state, 0)]);
    accepted(&[arrive(&mut state, 1), done(&mut state, 1)]);
    let expected = [spare(1, 2, 4), spare(0, 1, 8), spare(2, 2, 8)];
    assert_eq!(used_spares(&state), expected);
    assert_eq!(guest(&state, 2), (0, 0, 8));
}

#[test]
fn done_of_a_guest_that_does_not_run() {
    let mut state = fresh_state(8, &[(3, 4), (2, 8)]);
    accepted(&[arrive(&mut state, 0), arrive(&mut state, 1)]);
    accepted(&[advance(&mut state, 1), done(&mut state, 1)]);
    assert_eq!(used_spares(&state), [spare(1, 2, 8)]);
    assert_eq!((guest(&state, 0), guest(&state, 1)), ((1, 2, 4), (0, 0, 8)));
}

#[test]
fn done_of_an_idle_guest() {
    let mut state = fresh_state(8, &[(3, 4), (2, 8)]);
    accepted(&[arrive(&mut state, 0)]);
    refused(&state, 3, |state| done(state, 1));
    accepted(&[done(&mut state, 0)]);
    refused(&state, 3, |state| done(state, 0));
    refused(&state, 2, |state| done(state, 2));
}

#[test]
fn every_active_guest_without_budget_is_renewed() {
    let mut state = fresh_state(8, &[(1, 4), (1, 8)]);
    for (place, deadline) in [(0, 4), (1, 8)] {
        state.guests[place].jobs = 1;
        state.guests[place].deadline = deadline;
    }
    assert_eq!(ask(&state).value, own(0, 8, 1));
    accepted(&[tick(&mut state)]);
    assert_eq!(
        (guest(&state, 0), guest(&state, 1)),
        ((1, 0, 8), (1, 1, 16))
    );
    assert_eq!((state.now, state.guests[0].own_ticks), (1, 1));
}

#[test]
fn a_renewal_adds_the_period_to_a_deadline_that_has_passed() {
    let mut state = fresh_state(4, &[(3, 4)]);
    put_now(&mut state, 10);
    state.guests[0].jobs = 1;
    state.guests[0].deadline = 4;
    assert_eq!(ask(&state).value, own(0, 8, 3));
    accepted(&[tick(&mut state)]);
    assert_eq!((state.now, guest(&state, 0)), (11, (1, 2, 8)));
}

#[test]
fn smallest_deadline_runs_and_then_the_lowest_number() {
    let mut state = fresh_state(8, &[(2, 8), (1, 4), (1, 4)]);
    accepted(&[
        arrive(&mut state, 0),
        arrive(&mut state, 2),
        arrive(&mut state, 1),
    ]);
    assert_eq!(ask(&state).value, own(1, 4, 1));
    // Guest 1 is renewed to deadline 8 and so stands behind guest 2, and then behind guest 0.
    accepted(&[tick(&mut state)]);
    assert_eq!(ask(&state).value, own(2, 4, 1));
    accepted(&[tick(&mut state)]);
    assert_eq!(ask(&state).value, own(0, 8, 2));
}

#[test]
fn a_spare_past_the_guests_deadline_is_not_taken() {
    let mut state = fresh_state(8, &[(1, 4), (4, 8)]);
    accepted(&[
        arrive(&mut state, 1),
        done(&mut state, 1),
        arrive(&mut state, 0),
    ]);
    assert_eq!(used_spares(&state), [spare(1, 4, 8)]);
    assert_eq!(ask(&state).value, own(0, 4, 1));
    accepted(&[tick(&mut state)]);
    // Renewed to deadline 8, the guest may take the spare with deadline 8.
    assert_eq!(ask(&state).value, on_spare(0, 1, 8, 4));
    accepted(&[advance(&mut state, 4)]);
    assert_eq!(state.spare_count, 0);
    assert_eq!(guest(&state, 0), (1, 1, 8));
    assert_eq!(
        (state.guests[0].own_ticks, state.guests[0].spare_ticks),
        (1, 4)
    );
    assert_eq!(ask(&state).value, own(0, 8, 1));
}

#[test]
fn idle_ticks_burn_the_first_spare() {
    let mut state = fresh_state(8, &[(3, 4), (2, 8)]);
    accepted(&[arrive(&mut state, 1), done(&mut state, 1)]);
    accepted(&[arrive(&mut state, 0), done(&mut state, 0)]);
    let burn = |owner, deadline, span| Ask::Burn {
        owner,
        deadline,
        span,
    };
    assert_eq!(ask(&state).value, burn(0, 4, 3));
    accepted(&[advance(&mut state, 2)]);
    assert_eq!(ask(&state).value, burn(0, 4, 1));
    accepted(&[tick(&mut state)]);
    assert_eq!(ask(&state).value, burn(1, 8, 2));
    accepted(&[advance(&mut state, 2)]);
    assert_eq!(ask(&state).value, Ask::Nothing);
    accepted(&[advance(&mut state, 4)]);
    assert_eq!(
        (state.now, state.burning_ticks, state.nothing_ticks),
        (9, 5, 4)
    );
    assert_eq!((guest(&state, 0), guest(&state, 1)), ((0, 0, 4), (0, 0, 8)));
}

#[test]
fn advance_to_the_end_of_time_and_past_it() {
    let mut state = fresh_state(4, &[(3, 4)]);
    put_now(&mut state, END_OF_TIME - 5);
    for ticks in [6, END_OF_TIME, u64::MAX] {
        refused(&state, 7, |state| advance(state, ticks));
        assert_eq!(
            (
                portions(&state, ticks).refusal,
                portions(&state, ticks).value
            ),
            (7, vec![])
        );
    }
    accepted(&[arrive(&mut state, 0), advance(&mut state, 5)]);
    assert_eq!(
        (state.now, guest(&state, 0)),
        (END_OF_TIME, (1, 1, END_OF_TIME + 3))
    );
    refused(&state, 7, tick);
    assert_eq!((advance(&mut state, 0), state.now), (0, END_OF_TIME));
}

#[test]
fn advance_by_0_changes_nothing() {
    let mut state = fresh_state(4, &[(1, 4)]);
    accepted(&[arrive(&mut state, 0), advance(&mut state, 1)]);
    let before = state;
    assert_eq!((advance(&mut state, 0), state), (0, before));
    assert_eq!(
        (portions(&state, 0).refusal, portions(&state, 0).value),
        (0, vec![])
    );
}

#[test]
fn ask_changes_nothing_and_answers_after_the_renewal() {
    let mut state = fresh_state(6, &[(3, 6)]);
    accepted(&[arrive(&mut state, 0), advance(&mut state, 3)]);
    assert_eq!(guest(&state, 0), (1, 0, 6));
    assert_eq!((ask(&state).refusal, ask(&state).value), (0, own(0, 12, 3)));
    assert_eq!(guest(&state, 0), (1, 0, 6));
}

#[test]
fn who_is_active() {
    let nobody = Active { mask: 0, count: 0 };
    let mut state = fresh_state(16, &[(1, 16); 16]);
    assert_eq!((active(&state).refusal, active(&state).value), (0, nobody));
    for number in [0, 3, 15] {
        accepted(&[arrive(&mut state, number)]);
    }
    let three = Active {
        mask: 0b1000_0000_0000_1001,
        count: 3,
    };
    assert_eq!(active(&state).value, three);
    for number in 0..16 {
        accepted(&[arrive(&mut state, number)]);
    }
    let everyone = Active {
        mask: 65_535,
        count: 16,
    };
    assert_eq!(active(&state).value, everyone);
    accepted(&[done(&mut state, 1)]);
    assert_eq!(active(&state).value.mask, 65_533);
}

#[test]
fn margin_around_zero() {
    let mut state = fresh_state(4, &[(3, 4)]);
    assert_eq!((margin(&state, 0).refusal, margin(&state, 0).value), (0, 0));
    accepted(&[arrive(&mut state, 0), done(&mut state, 0)]);
    for (ticks, expected) in [(0, 4), (3, 1), (1, 0), (1, -1), (5, -6)] {
        accepted(&[advance(&mut state, ticks)]);
        assert_eq!(margin(&state, 0).value, expected);
    }
}

#[test]
fn margin_at_its_ends() {
    let mut state = fresh_state(4, &[(3, 4)]);
    put_now(&mut state, END_OF_TIME);
    assert_eq!(margin(&state, 0).value, -(1 << 40));
    state.guests[0].deadline = (1 << 44) + (1 << 60);
    let expected: i64 = (1 << 44) + (1 << 60) - (1 << 40);
    assert_eq!(
        (margin(&state, 0).refusal, margin(&state, 0).value),
        (0, expected)
    );
}

#[test]
fn refusal_1_comes_first() {
    let mut state = fresh_state(4, &[(3, 4)]);
    put_now(&mut state, END_OF_TIME + 1);
    all_calls_give_1(&state);
    all_calls_give_1(&State::default());
}
