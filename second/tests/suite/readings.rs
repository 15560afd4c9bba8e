//! The settled readings, one test for each number.

use std::io::{Error, Read, Result};

use second::image::read;
use second::program::{listing, read_input};
use second::state::{sound, State};
use second::steps::{active, advance, arrive, ask, done, margin, Active, Ask, Source};

use crate::support::{
    all_calls_give_1, fresh_state, guest, prints, put_now, END_OF_TIME, TWO_TO_44,
};

#[test]
fn reading_1_a_line_includes_its_line_feed() {
    prints("F 8\nG 1 8", "! 10\n");
    prints("F 8\nG 3 4\nA 0\nR 1\nR 1", "0 1 0 0o\n! 16\n");
    prints("F 8\nG 3 4\nX", "! 16\n");
}

#[test]
fn reading_2_only_too_much_input_is_found_first() {
    let lines = "F 8\nG 3 4\nA 0\nR 1\n";
    prints(&format!("{lines}{}", "?\n".repeat(100)), "0 1 0 0o\n! 16\n");
    prints(&format!("{lines}{}", "?\n".repeat(40_000)), "! 16\n");
    prints(&"F 8\n".repeat(2), "! 10\n");
    prints(&"F 8\n".repeat(16_385), "! 16\n");
}

#[test]
fn reading_3_the_table_before_the_line() {
    for first in ["F 08\n", "F 8", "\n", "F\n", "F 08\nG 3 4\n"] {
        prints(first, "! 16\n");
    }
    for line in ["F 8\n", "\n", "G 3\n", "G 03 4\n", "A 0\n"] {
        prints(&format!("F 8\n{line}"), "! 10\n");
        prints(&format!("F 0\nG 3 4\n{line}"), "! 12\n");
        prints(&format!("F 8\nG 1 3\n{line}"), "! 13\n");
        prints(&format!("F 8\nG 3 4\nG 3 8\n{line}"), "! 14\n");
    }
    prints("F 0\n", "! 10\n");
    let sixteen = format!("F 16\n{}", "G 1 16\n".repeat(16));
    prints(&format!("{sixteen}G 1 016\n"), "! 16\n");
    prints(&format!("{sixteen}G 1 16"), "! 16\n");
    prints(&format!("{sixteen}A 15\nR 1\n"), "0 1 15 15o\nend 1\n");
}

#[test]
fn reading_4_form_before_range() {
    prints("F 10000000000000\nG 3 4\n", "! 16\n");
    prints("F 1000000000000\nG 3 4\n", "! 12\n");
    prints("F 8\nG 3 4\nG 10000000000000 8\n", "! 16\n");
    prints("F 8\nG 3 4\nG 1000000000000 8\n", "! 13\n");
    prints("F 8\nG 3 4\nA 10000000000000\n", "! 16\n");
    prints("F 8\nG 3 4\nA 1000000000000\n", "! 2\nend 0\n");
    prints("F 8\nG 3 4\nR 10000000000000\n", "! 16\n");
    prints("F 8\nG 3 4\nR 9000000000000\n", "! 7\nend 0\n");
    prints("F 0\nG 9999999999999 1\n", "! 12\n");
    let seventeen = "G 9999999999999 1\n".repeat(17);
    prints(&format!("F 8\n{seventeen}"), "! 10\n");
}

#[test]
fn reading_5_table_lines_after_the_table() {
    for line in ["G 1 8\n", "F 8\n", "\n"] {
        prints(&format!("F 8\nG 3 4\nR 1\n{line}"), "0 1 - -\n! 16\n");
        prints(&format!("F 8\nG 3 4\nR 0\n{line}"), "! 16\n");
    }
    prints("F 8\nG 3 4\nF 8\n", "! 16\n");
    prints("F 8\nG 3 4\n\n", "! 16\n");
}

#[test]
fn reading_6_a_table_alone_and_a_refused_advance() {
    prints("F 8\nG 3 4\n", "end 0\n");
    prints("F 8\nG 3 4\nA 0\nR 1099511627777\n", "! 7\nend 0\n");
}

#[test]
fn reading_7_idle_time_is_one_line() {
    prints(
        "F 8\nG 3 4\nR 1099511627775\nR 1\nR 1\n",
        "0 1099511627775 - -\n1099511627775 1099511627776 - -\n! 7\nend 1099511627776\n",
    );
}

/// Gives its bytes and then fails.
struct Failing(&'static [u8]);

impl Read for Failing {
    fn read(&mut self, buffer: &mut [u8]) -> Result<usize> {
        if self.0.is_empty() {
            return Err(Error::other("broken"));
        }
        self.0.read(buffer)
    }
}

#[test]
fn reading_8_a_failing_read_is_the_end() {
    let input = read_input(Failing(b"F 8\nG 3 4\nR 2\n"));
    assert_eq!(listing(&input), b"0 2 - -\nend 2\n");
    let input = read_input(Failing(b"F 8\nG 3 4\nR 2\nR 1"));
    assert_eq!(listing(&input), b"0 2 - -\n! 16\n");
    assert_eq!(listing(&read_input(Failing(b""))), b"! 16\n");
}

#[test]
fn reading_9_passing_is_strict() {
    let mut state = fresh_state(4, &[(3, 4)]);
    state.guests[0].deadline = TWO_TO_44 - 4;
    assert_eq!((arrive(&mut state, 0), guest(&state, 0).2), (0, TWO_TO_44));
    let mut state = fresh_state(4, &[(3, 4)]);
    state.guests[0].deadline = TWO_TO_44 - 3;
    assert_eq!(arrive(&mut state, 0), 6);
    assert_eq!(advance(&mut state, END_OF_TIME + 1), 7);
    assert_eq!(
        (advance(&mut state, END_OF_TIME), state.now),
        (0, END_OF_TIME)
    );
}

#[test]
fn reading_10_margin_reads_the_stored_deadline() {
    let mut state = fresh_state(6, &[(3, 6)]);
    assert_eq!((arrive(&mut state, 0), advance(&mut state, 3)), (0, 0));
    assert_eq!(margin(&state, 0).value, 3);
    let renewed = Ask::Run {
        guest: 0,
        source: Source::Own,
        deadline: 12,
        span: 3,
    };
    assert_eq!(ask(&state).value, renewed);
}

#[test]
fn reading_11_ask_at_the_end_of_time() {
    let mut state = fresh_state(4, &[(3, 4)]);
    put_now(&mut state, END_OF_TIME);
    assert_eq!((ask(&state).refusal, ask(&state).value), (0, Ask::Nothing));
    assert_eq!(arrive(&mut state, 0), 0);
    let own = Ask::Run {
        guest: 0,
        source: Source::Own,
        deadline: END_OF_TIME + 4,
        span: 3,
    };
    assert_eq!((ask(&state).refusal, ask(&state).value), (0, own));
    assert_eq!(done(&mut state, 0), 0);
    let burn = Ask::Burn {
        owner: 0,
        deadline: END_OF_TIME + 4,
        span: 3,
    };
    assert_eq!((ask(&state).refusal, ask(&state).value), (0, burn));
}

#[test]
fn reading_12_a_spare_that_the_guest_left_itself() {
    prints(
        "F 4\nG 3 4\nA 0\nD 0\nA 0\nR 4\n",
        "0 3 0 0s\n3 4 0 0o\nend 4\n",
    );
    let mut state = fresh_state(4, &[(3, 4)]);
    assert_eq!((arrive(&mut state, 0), done(&mut state, 0)), (0, 0));
    assert_eq!((arrive(&mut state, 0), advance(&mut state, 4)), (0, 0));
    assert_eq!(
        (state.guests[0].spare_ticks, state.guests[0].own_ticks),
        (3, 1)
    );
}

#[test]
fn reading_13_refused_answers_are_zero() {
    let mut state = fresh_state(4, &[(3, 4)]);
    assert_eq!(arrive(&mut state, 0), 0);
    assert_eq!((margin(&state, 0).refusal, margin(&state, 0).value), (0, 4));
    assert_eq!((margin(&state, 1).refusal, margin(&state, 1).value), (2, 0));
    state.nothing_ticks = 1;
    assert_eq!((margin(&state, 0).refusal, margin(&state, 0).value), (1, 0));
    assert_eq!((margin(&state, 1).refusal, margin(&state, 1).value), (1, 0));
    let nobody = Active { mask: 0, count: 0 };
    assert_eq!((active(&state).refusal, active(&state).value), (1, nobody));
    assert_eq!((ask(&state).refusal, ask(&state).value), (1, Ask::Nothing));
}

#[test]
fn reading_14_a_bad_table_in_a_state_is_1() {
    let changes: [fn(&mut State); 4] = [
        |state| state.table.guest_count = 0,
        |state| state.table.frame = 0,
        |state| state.table.entries[0].budget = 0,
        |state| state.table.frame = 1_000_001,
    ];
    for change in changes {
        let mut state = fresh_state(4, &[(3, 4)]);
        change(&mut state);
        all_calls_give_1(&state);
    }
    let mut shares = fresh_state(8, &[(3, 4), (2, 8)]);
    shares.table.entries[1].budget = 3;
    all_calls_give_1(&shares);
}

#[test]
fn reading_14_sums_are_exact() {
    let mut state = fresh_state(4, &[(3, 4)]);
    // Modulo 2^64 these add up to 0, the present tick.
    state.burning_ticks = u64::MAX;
    state.nothing_ticks = 1;
    all_calls_give_1(&state);
    let mut state = fresh_state(4, &[(3, 4)]);
    state.now = u64::MAX;
    state.nothing_ticks = u64::MAX;
    state.guests[0].deadline = u64::MAX;
    all_calls_give_1(&state);
}

#[test]
fn reading_15_unused_guest_places() {
    let changes: [fn(&mut State); 7] = [
        |state| state.table.entries[1].budget = 1,
        |state| state.table.entries[1].period = 4,
        |state| state.guests[1].jobs = 1,
        |state| state.guests[1].current_budget = 1,
        |state| state.guests[1].deadline = 1,
        |state| {
            state.guests[1].own_ticks = 1;
            state.now = 1;
        },
        |state| {
            state.guests[1].spare_ticks = 1;
            state.now = 1;
        },
    ];
    for change in changes {
        let mut state = fresh_state(4, &[(3, 4)]);
        change(&mut state);
        assert!(!sound(&state));
    }
}

#[test]
fn reading_16_the_offset_sum_is_exact() {
    // One guest (1, 1) with H = 1.
    let mut image = [1, 0, 0, 0, 1, 0, 0, 0, 1, 0, 0, 0, 0, 0, 0, 0, 1, 0, 1, 0];
    assert_eq!(read(&image).refusal, 0);
    // With offset 2^32 - 8 and n = 2, the sum 2^32 - 8 + 16 + 12 is 20 modulo 2^32.
    image[12..16].copy_from_slice(&[0xF8, 0xFF, 0xFF, 0xFF]);
    image[16] = 2;
    assert_eq!(read(&image).refusal, 11);
}

#[test]
fn reading_17_sound_with_capacity_past_its_deadline() {
    let mut state = fresh_state(4, &[(3, 4)]);
    put_now(&mut state, 10);
    state.guests[0].jobs = 1;
    state.guests[0].current_budget = 3;
    state.guests[0].deadline = 4;
    assert!(sound(&state));
}

#[test]
fn reading_18_a_spares_tick_counts_for_the_guest_that_ran() {
    let mut state = fresh_state(8, &[(1, 4), (4, 8)]);
    assert_eq!((arrive(&mut state, 0), done(&mut state, 0)), (0, 0));
    assert_eq!(arrive(&mut state, 1), 0);
    let on_spare = Ask::Run {
        guest: 1,
        source: Source::Spare { owner: 0 },
        deadline: 4,
        span: 1,
    };
    assert_eq!((guest(&state, 1).2, ask(&state).value), (8, on_spare));
    assert_eq!(advance(&mut state, 1), 0);
    assert_eq!(
        (state.guests[0].spare_ticks, state.guests[1].spare_ticks),
        (0, 1)
    );
    assert_eq!(
        (state.guests[0].own_ticks, state.guests[1].own_ticks),
        (0, 0)
    );
}
