//! The border pairs that are run and not proved, each computed by the library's own calls.

use crate::image::{read, SHORTEST_IMAGE};
use crate::state::{fresh, State};
use crate::steps::{advance, arrive, done};
use crate::table::{Entry, Table, LONGEST_FRAME, MOST_GUESTS};

/// The longest advance after which the guest's next deadline is still within 2^44.
const LAST_GOOD_ADVANCE: u64 = 17_592_185;

/// One line for each pair.
pub fn report() -> String {
    [
        wake_after(LAST_GOOD_ADVANCE),
        wake_after(LAST_GOOD_ADVANCE + 1),
        short_image(),
        unknown_guest_of_unsound_state(),
    ]
    .concat()
}

/// The answers of arrive, advance, done and arrive: each tick renews the budget of 1, and so moves the deadline by a period.
fn wake_after(ticks: u64) -> String {
    let mut state = one_guest();
    let answers = [
        arrive(&mut state, 0),
        advance(&mut state, ticks),
        done(&mut state, 0),
        arrive(&mut state, 0),
    ];
    format!(
        "{ticks} ticks: {}\n",
        answers.map(|answer| answer.to_string()).join(" ")
    )
}

fn short_image() -> String {
    let image = [0; SHORTEST_IMAGE - 1];
    format!("image of {} bytes: {}\n", image.len(), read(&image).refusal)
}

/// Both 1 and 2 apply, so the answer shows which comes first.
fn unknown_guest_of_unsound_state() -> String {
    let mut state = one_guest();
    // An idle guest has no budget.
    state.guests[0].current_budget = 1;
    let guest = MOST_GUESTS as u64;
    format!(
        "guest {guest}, state not sound: {}\n",
        arrive(&mut state, guest)
    )
}

fn one_guest() -> State {
    let mut table = Table {
        frame: LONGEST_FRAME,
        guest_count: 1,
        ..Table::default()
    };
    table.entries[0] = Entry {
        budget: 1,
        period: LONGEST_FRAME,
    };
    fresh(&table).value
}
