//! Cases whose answers are known from the specification, and not from either side. They come first.

use second::state::{Guest, Spare, State};
use second::table::{Entry, Table};

use super::request::Request;

pub struct Fixed {
    pub name: &'static str,
    pub request: Request,
    /// Numbers by their names, as `wire::Name` prints them: `arrive refusal = 1, done refusal = 1`.
    pub known: &'static str,
    /// Those that C is told, and the program does not tell.
    pub known_to_c: &'static str,
}

impl Fixed {
    fn and_to_c(self, known_to_c: &'static str) -> Fixed {
        Fixed { known_to_c, ..self }
    }
}

pub fn all() -> Vec<Fixed> {
    let cases = [
        refused(),
        margins(),
        far(),
        ends(),
        steps(),
        ties(),
        walks(),
        tables(),
        images(),
    ];
    cases.into_iter().flatten().collect()
}

fn case(name: &'static str, state: State, guest: u64, ticks: u64, known: &'static str) -> Fixed {
    Fixed {
        name,
        request: Request::state(state, guest, ticks),
        known,
        known_to_c: "",
    }
}

fn table(frame: u64, guests: &[(u64, u64)]) -> Table {
    let mut table = Table {
        frame,
        guest_count: guests.len() as u64,
        ..Table::default()
    };
    for (place, &(budget, period)) in table.entries.iter_mut().zip(guests) {
        *place = Entry { budget, period };
    }
    table
}

/// A state in which all ticks up to now were idle.
fn idle_until(now: u64, frame: u64, guests: &[(u64, u64)]) -> State {
    State {
        table: table(frame, guests),
        now,
        nothing_ticks: now,
        ..State::default()
    }
}

fn with_guest(mut state: State, place: usize, jobs: u64, left: u64, deadline: u64) -> State {
    state.guests[place] = Guest {
        jobs,
        current_budget: left,
        deadline,
        ..Guest::default()
    };
    state
}

fn with_spare(mut state: State, owner: u64, capacity: u64, deadline: u64) -> State {
    state.spares[state.spare_count as usize] = Spare {
        owner,
        capacity,
        deadline,
    };
    state.spare_count += 1;
    state
}

fn refused() -> Vec<Fixed> {
    let one = || idle_until(0, 6, &[(3, 6)]);
    // An idle guest has no budget.
    let unsound = with_guest(one(), 0, 0, 1, 0);
    let everywhere_1 = "arrive refusal = 1, done refusal = 1, advance refusal = 1, walk refusal = 1, ask refusal = 1, \
                        active refusal = 1, margin refusal = 1, arrive guest 0 current = 1, walk left = 0, ask kind = 0";
    let no_guest = "arrive refusal = 2, done refusal = 2, margin refusal = 2, ask refusal = 0";
    let idle = "done refusal = 3, arrive refusal = 0, arrive guest 0 deadline = 6, arrive guest 0 current = 3";
    let one_more = "arrive refusal = 0, arrive guest 0 jobs = 255, arrive guest 0 current = 3";
    let no_more = "arrive refusal = 4, arrive guest 0 jobs = 255, done guest 0 jobs = 254";
    let jobs = |jobs| with_guest(one(), 0, jobs, 3, 6);
    vec![
        case(
            "guest 16, state not sound",
            unsound,
            16,
            u64::MAX,
            everywhere_1,
        ),
        case("no guest 1", one(), 1, 0, no_guest),
        case("done while idle", one(), 0, 0, idle),
        case("254 jobs", jobs(254), 0, 0, one_more),
        case("255 jobs", jobs(255), 0, 0, no_more),
    ]
}

/// The last one is -3 in 64 bits.
fn margins() -> Vec<Fixed> {
    let at = |now| with_guest(idle_until(now, 6, &[(3, 6)]), 0, 0, 0, 9);
    let below = "margin refusal = 0, margin ticks = 18446744073709551613";
    vec![
        case("margin above zero", at(3), 0, 0, "margin ticks = 6"),
        case("margin at zero", at(9), 0, 0, "margin ticks = 0"),
        case("margin below zero", at(12), 0, 0, below),
    ]
}

/// The guest would wake with a deadline of 2^44, and of one more.
fn far() -> Vec<Fixed> {
    let slow = || idle_until(0, 1_000_000, &[(1, 1_000_000)]);
    let at = |deadline: u64| with_guest(slow(), 0, 0, 0, deadline - 1_000_000);
    let accepted = "arrive refusal = 0, arrive guest 0 deadline = 17592186044416";
    let refused =
        "arrive refusal = 6, arrive guest 0 jobs = 0, arrive guest 0 deadline = 17592185044417";
    vec![
        case("deadline of 2^44", at(1 << 44), 0, 0, accepted),
        case("deadline of 2^44 + 1", at((1 << 44) + 1), 0, 0, refused),
    ]
}

fn ends() -> Vec<Fixed> {
    let last = || idle_until(1 << 40, 6, &[(3, 6)]);
    let stays = "advance refusal = 0, walk refusal = 0, advance state now = 1099511627776";
    let past = "advance refusal = 7, walk refusal = 7, walk left = 0, walk shown = 0";
    let spares = |first: u64| {
        let start = with_guest(idle_until(0, 1, &[(1, 1)]), 0, 0, 0, 64);
        (first..=64).fold(start, |state, deadline| with_spare(state, 0, 1, deadline))
    };
    let mut one_burned = spares(2);
    one_burned.now = 1;
    one_burned.burning_ticks = 1;
    let full = "arrive refusal = 5, advance state listed = 63, advance state burned = 1";
    let room = "arrive refusal = 0, arrive guest 0 deadline = 65";
    vec![
        case("advance 0 at tick 2^40", last(), 0, 0, stays),
        case("advance 1 at tick 2^40", last(), 0, 1, past),
        case("64 spares", spares(1), 0, 1, full),
        case("63 spares", one_burned, 0, 0, room),
    ]
}

fn steps() -> Vec<Fixed> {
    let one = || idle_until(3, 6, &[(3, 6)]);
    let woken = with_guest(one(), 0, 1, 3, 9);
    let leaves = "done guest 0 current = 0, done guest 0 jobs = 0, done state listed = 1, done spare 0 capacity = 3, \
                  done spare 0 deadline = 9, done spare 0 owner = 0";
    let mut spent = with_guest(one(), 0, 1, 0, 9);
    spent.now = 6;
    spent.guests[0].own_ticks = 3;
    let renewed = "advance guest 0 deadline = 15, advance guest 0 current = 2, ask deadline = 15, ask span = 3, \
                   done guest 0 deadline = 9, done state listed = 0, margin ticks = 3";
    let waiting = with_guest(idle_until(0, 4, &[(3, 4)]), 0, 1, 3, 8);
    let borrowed = "advance spare 0 capacity = 2, advance guest 0 current = 3, advance guest 0 borrowed = 1, advance guest 0 own = 0, \
                ask kind = 2, ask guest = 0, ask owner = 0, ask deadline = 4, ask span = 3";
    vec![
        case("a leftover", woken, 0, 0, leaves),
        case("renewal at the next tick", spent, 0, 1, renewed),
        case(
            "a tick on its own spare",
            with_spare(waiting, 0, 3, 4),
            0,
            1,
            borrowed,
        ),
    ]
}

fn ties() -> Vec<Fixed> {
    let both = |first, second| {
        let one = with_guest(idle_until(0, 8, &[(2, 8), (2, 8)]), 0, 1, first, 6 + first);
        with_guest(one, 1, 1, second, 6 + second)
    };
    let lowest =
        "ask kind = 1, ask guest = 0, active mask = 3, active actives = 2, advance guest 0 own = 1";
    let sooner =
        "ask kind = 1, ask guest = 1, ask deadline = 7, ask span = 1, advance guest 1 own = 1";
    let own = "ask owner = 1, walk line 0 kind = 1, walk line 0 guest = 1, walk line 0 owner = 1";
    let second = with_guest(idle_until(0, 8, &[(2, 8), (2, 8)]), 1, 1, 2, 8);
    let one = "active mask = 2, active actives = 1, ask guest = 1, margin ticks = 8";
    vec![
        case("equal deadlines", both(2, 2), 1, 1, lowest),
        case("the sooner deadline", both(2, 1), 1, 1, sooner).and_to_c(own),
        case("guest 1 alone", second, 1, 1, one),
    ]
}

fn walks() -> Vec<Fixed> {
    let start = with_guest(idle_until(0, 8, &[(3, 4), (2, 8)]), 0, 1, 3, 4);
    // After three ticks guest 0 is renewed with deadline 8, as guest 1 has it: the lowest number.
    let own = "walk shown = 2, walk line 0 first = 0, walk line 0 end = 3, walk line 0 kind = 1, walk line 1 first = 3, \
               walk line 1 end = 4, walk line 1 kind = 1, walk line 1 guest = 0, walk line 2 end = 0, walk left = 0";
    let idle = with_guest(idle_until(0, 4, &[(3, 4)]), 0, 0, 0, 4);
    let burns = "walk shown = 2, walk line 0 end = 3, walk line 0 kind = 3, walk line 0 owner = 0, walk line 1 end = 5, \
                 walk line 1 kind = 0, walk state burned = 3, walk state empty = 2, ask kind = 3, ask span = 3, ask deadline = 4";
    let always = with_guest(idle_until(0, 1, &[(1, 1)]), 0, 1, 1, 1);
    let many = "walk shown = 64, walk left = 6, walk state now = 64, advance state now = 70";
    vec![
        case(
            "two portions of a guest",
            with_guest(start, 1, 1, 2, 8),
            0,
            4,
            own,
        ),
        case(
            "a spare burns, then nothing",
            with_spare(idle, 0, 3, 4),
            0,
            5,
            burns,
        ),
        case("64 portions", always, 0, 70, many),
    ]
}

fn tables() -> Vec<Fixed> {
    let of = |name, frame, guests: &[(u64, u64)], length, known| Fixed {
        name,
        request: Request::table(table(frame, guests), length, 0xA5),
        known,
        known_to_c: "",
    };
    let good = "check refusal = 0, fresh refusal = 0, write_image refusal = 0";
    let short =
        "check refusal = 0, fresh refusal = 0, write_image refusal = 15, bytes byte 0 = 165";
    let guest =
        "check refusal = 13, fresh refusal = 13, write_image refusal = 13, fresh table count = 0";
    let frame = "check refusal = 12, fresh refusal = 12, write_image refusal = 12";
    let share = "check refusal = 14, fresh refusal = 14, write_image refusal = 14";
    let count = "check refusal = 10, fresh refusal = 10, write_image refusal = 10";
    vec![
        of("shares of 8 in 8", 8, &[(3, 4), (2, 8)], 28, good),
        of("a buffer of 27 bytes", 8, &[(3, 4), (2, 8)], 27, short),
        of("shares of 9 in 8", 8, &[(3, 4), (3, 8)], 27, share),
        of("(1, 1)", 1, &[(1, 1)], 20, good),
        of("3 does not divide 8", 8, &[(1, 3)], 20, guest),
        of("no budget", 8, &[(0, 4)], 20, guest),
        of("no guest, no frame", 0, &[], 200, count),
        of("a frame of 1,000,001", 1_000_001, &[(1, 1)], 20, frame),
        of("a frame of 1,000,000", 1_000_000, &[(1, 1)], 20, good),
    ]
}

fn images() -> Vec<Fixed> {
    let whole = [3, 0, 0, 0, 4, 0, 0, 0, 8, 0, 0, 0, 0, 0, 0, 0, 1, 0, 1, 0];
    let of = |name, image: &[u8], known, known_to_c| Fixed {
        name,
        request: Request::Image(image.into()),
        known,
        known_to_c,
    };
    let refused = "read_image refusal = 8, check_image refusal = 8, entries length = 0, read_image table count = 0";
    let no_part = "entries refusal = 8, entries offset = 0, entries length = 0";
    let read = "read_image refusal = 0, read_image table frame = 8, read_image table count = 1, read_image entry 0 budget = 3, \
                read_image entry 0 period = 4, check_image refusal = 0, entries length = 8, bytes byte 0 = 3, bytes byte 4 = 4";
    let at_front = "entries refusal = 0, entries offset = 0, entries length = 8";
    let mut behind = vec![7; 3];
    behind.extend(whole);
    behind[3 + 12] = 3;
    let at_3 = "entries refusal = 0, entries offset = 3, entries length = 8";
    vec![
        of("an image of 19 bytes", &whole[1..], refused, no_part),
        of("an image of 20 bytes", &whole, read, at_front),
        of("three bytes in front", &behind, read, at_3),
    ]
}
