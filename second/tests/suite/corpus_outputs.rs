//! Whole outputs of files of corpus/, worked out by hand from the rules.

use crate::corpus::script;
use crate::support::prints_bytes;

fn file_prints(name: &str, lines: &[&str]) {
    let output: String = lines.iter().map(|line| format!("{line}\n")).collect();
    prints_bytes(&script(name), &output);
}

#[test]
fn a_finished_guest_keeps_no_budget() {
    file_prints(
        "end_line_212",
        &[
            "0 1 0 0o",
            "1 3 0 0s",
            "3 6 0 0o",
            "6 8 1 1o",
            "8 10 0 0o",
            "end 10",
        ],
    );
    file_prints(
        "end_line_212_alone",
        &[
            "0 1 0 0o",
            "1 3 0 0s",
            "3 6 0 0o",
            "6 9 0 0o",
            "9 10 0 0o",
            "end 10",
        ],
    );
}

#[test]
fn a_finished_guests_spare_is_gone_once_used() {
    file_prints(
        "end_line_212_late_wake_up",
        &[
            "0 1 0 0o",
            "1 3 - 0s",
            "3 11 - -",
            "11 14 0 0o",
            "14 16 0 0o",
            "end 16",
        ],
    );
    file_prints(
        "end_line_212_spare_used_by_another",
        &[
            "0 1 0 0o", "1 3 1 0s", "3 6 0 0o", "6 8 1 1o", "8 9 0 0o", "end 9",
        ],
    );
}

#[test]
fn a_budget_is_renewed_at_the_next_tick() {
    file_prints(
        "end_tempt_renewed_at_0",
        &["0 3 0 0o", "3 4 - -", "4 7 0 0o", "7 8 - -", "end 8"],
    );
    file_prints(
        "end_tempt_renewed_at_0_loses_a_period",
        &["0 2 0 0o", "2 4 1 1o", "4 6 0 0o", "6 8 1 1o", "end 8"],
    );
    file_prints(
        "end_border_renewed_at_tick_6",
        &[
            "0 3 - -", "3 6 0 0o", "6 7 0 0o", "7 9 - 0s", "9 10 - -", "end 10",
        ],
    );
    file_prints(
        "end_done_just_after_a_renewal",
        &["0 2 0 0o", "2 3 0 0o", "3 4 - 0s", "4 5 - -", "end 5"],
    );
    file_prints(
        "end_two_jobs_keep_the_budget",
        &["0 1 0 0o", "1 3 0 0o", "3 5 - -", "end 5"],
    );
}

#[test]
fn a_deadline_counts_from_the_old_one_where_that_is_ahead() {
    file_prints(
        "end_tempt_now_plus_period",
        &["0 1 1 0s", "1 3 1 1o", "3 4 0 0o", "4 5 0 0o", "end 5"],
    );
    file_prints(
        "end_border_done_at_tick_6_deadline_9",
        &[
            "0 3 - -",
            "3 6 0 0o",
            "6 7 - -",
            "7 9 1 1o",
            "9 12 0 0o",
            "12 13 0 0o",
            "end 13",
        ],
    );
    file_prints(
        "end_border_arrive_done_arrive_later_deadline",
        &["0 3 1 0s", "3 7 1 1o", "7 9 0 0o", "end 9"],
    );
    file_prints(
        "end_runs_ahead_then_other_comes",
        &[
            "0 1 0 0o",
            "1 2 0 0o",
            "2 3 0 0o",
            "3 4 0 0o",
            "4 5 0 0o",
            "5 6 0 0o",
            "6 8 1 1o",
            "8 10 1 1o",
            "10 11 0 0o",
            "end 11",
        ],
    );
}

#[test]
fn a_spare_is_taken_up_to_the_guests_own_deadline() {
    file_prints(
        "end_tempt_spare_past_the_deadline",
        &["0 1 0 0o", "1 5 - 1s", "5 7 - -", "end 7"],
    );
    file_prints(
        "end_spare_past_taken_after_renewal",
        &["0 1 0 0o", "1 5 0 1s", "5 6 0 0o", "6 7 0 0o", "end 7"],
    );
    file_prints(
        "end_spare_put_in_the_middle",
        &[
            "0 1 0 0s", "1 3 0 1s", "3 4 0 0o", "4 7 0 2s", "7 8 0 0o", "end 8",
        ],
    );
    file_prints(
        "end_done_of_a_guest_that_does_not_run",
        &["0 1 0 0o", "1 3 0 0o", "3 5 0 1s", "end 5"],
    );
}

#[test]
fn an_idle_processor_burns_spares_in_their_order() {
    file_prints(
        "end_tempt_spare_not_burned",
        &["0 3 - 0s", "3 4 - -", "4 6 1 1o", "end 6"],
    );
    file_prints(
        "end_spares_of_three_owners_burn",
        &["0 1 - 0s", "1 3 - 1s", "3 6 - 2s", "6 8 - -", "end 8"],
    );
    file_prints(
        "end_spares_of_same_deadline_burn",
        &["0 2 - 0s", "2 4 - 1s", "4 6 - 2s", "6 7 - -", "end 7"],
    );
    file_prints(
        "end_burn_then_arrival_takes_the_rest",
        &["0 2 - 0s", "2 4 1 0s", "4 6 1 1o", "end 6"],
    );
}

#[test]
fn the_smallest_deadline_runs_and_then_the_lowest_number() {
    file_prints(
        "end_tie_lowest_number",
        &["0 1 0 0o", "1 2 1 1o", "2 3 2 2o", "3 4 0 0o", "end 4"],
    );
    file_prints(
        "end_smallest_deadline_not_first_come",
        &[
            "0 1 0 0o", "1 2 1 1o", "2 3 2 2o", "3 4 2 2o", "4 5 0 0o", "5 6 1 1o", "6 7 2 2o",
            "end 7",
        ],
    );
    file_prints(
        "end_preempted_then_goes_on",
        &["0 1 0 0o", "1 2 1 1o", "2 4 0 0o", "4 5 0 0o", "end 5"],
    );
}

#[test]
fn the_program_goes_on_after_refusals_2_to_7() {
    file_prints(
        "end_3_with_own_spare_left",
        &[
            "0 1 0 0o", "! 3", "1 2 - 0s", "! 3", "2 3 - 0s", "3 4 - -", "end 4",
        ],
    );
    file_prints(
        "end_4_then_done_then_arrive",
        &["! 4", "! 4", "0 1 0 0o", "end 1"],
    );
    file_prints(
        "end_5_other_guest",
        &[
            "! 5", "0 1 - 0s", "1 2 1 1o", "2 3 1 0s", "3 4 1 1o", "end 4",
        ],
    );
    file_prints(
        "end_5_done_without_spare_frees_a_place",
        &["0 1 1 1o", "! 5", "1 2 0 0s", "2 3 0 0s", "end 3"],
    );
    file_prints(
        "stop_16_after_refusals",
        &["! 2", "! 3", "! 7", "0 2 - -", "! 16"],
    );
}

#[test]
fn the_end_of_time_and_the_shortest_periods() {
    file_prints(
        "end_time_last_ticks_two_guests",
        &[
            "0 1099511627770 - -",
            "1099511627770 1099511627773 0 0o",
            "1099511627773 1099511627776 0 0o",
            "! 7",
            "end 1099511627776",
        ],
    );
    file_prints(
        "end_unit_guest_three_spares",
        &[
            "0 1 0 0s", "1 2 0 0s", "2 3 0 0s", "3 4 0 0o", "4 5 0 0o", "5 7 - -", "end 7",
        ],
    );
}
