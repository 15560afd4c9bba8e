//! Properties over pseudo-random tables, states, calls, images and inputs.

use second::image::{read, write, Part};
use second::program::listing;
use second::state::{fresh, sound, State};
use second::steps::{
    active, advance, arrive, ask, done, margin, portions, tick, Ask, Portion, Source,
};

use crate::support::{all_calls_give_1, used_spares, Random, END_OF_TIME, TWO_TO_44};

fn expected_arrive(state: &State, number: u64) -> u32 {
    if number >= state.table.guest_count {
        return 2;
    }
    let guest = state.guests[number as usize];
    let active = state.guests.iter().filter(|guest| guest.jobs > 0).count();
    let deadline = state.now.max(guest.deadline) + state.table.entries[number as usize].period;
    match guest.jobs {
        255 => 4,
        0 if state.spare_count as usize + active == 64 => 5,
        0 if deadline > TWO_TO_44 => 6,
        _ => 0,
    }
}

fn expected_done(state: &State, number: u64) -> u32 {
    if number >= state.table.guest_count {
        return 2;
    }
    match state.guests[number as usize].jobs {
        0 => 3,
        _ => 0,
    }
}

fn expected_advance(state: &State, ticks: u64) -> u32 {
    if state.now + ticks > END_OF_TIME {
        return 7;
    }
    0
}

/// Makes one random call on a sound state, checks its refusal, which changes nothing, and gives it.
fn random_call(random: &mut Random, state: &mut State) -> u32 {
    let before = *state;
    let past_the_guests = u64::from(random.one_in(10));
    let number = random.below(state.table.guest_count + past_the_guests);
    let ticks = random.pick(&[0, 1, 1, 2, 3, 5, 9, 30]);
    let (given, expected) = match random.below(5) {
        0 | 1 => (arrive(state, number), expected_arrive(&before, number)),
        2 | 3 => (done(state, number), expected_done(&before, number)),
        _ => (advance(state, ticks), expected_advance(&before, ticks)),
    };
    assert_eq!(given, expected);
    assert!(sound(state));
    if given != 0 {
        assert_eq!(*state, before);
    }
    given
}

fn tally_sum(state: &State) -> u64 {
    let of_guests: u64 = state
        .guests
        .iter()
        .map(|guest| guest.own_ticks + guest.spare_ticks)
        .sum();
    of_guests + state.burning_ticks + state.nothing_ticks
}

fn no_capacity_is_late(state: &State) -> bool {
    let spares_in_time = used_spares(state)
        .iter()
        .all(|spare| spare.deadline > state.now);
    let guests_in_time = state
        .guests
        .iter()
        .all(|guest| guest.current_budget == 0 || guest.deadline > state.now);
    spares_in_time && guests_in_time
}

#[test]
fn calls_from_a_fresh_state() {
    for seed in 1..=400 {
        let mut random = Random::new(seed);
        let mut state = fresh(&random.table(16)).value;
        for _ in 0..150 {
            random_call(&mut random, &mut state);
            assert_eq!(tally_sum(&state), state.now);
            assert!(no_capacity_is_late(&state), "seed {seed}: {state:?}");
        }
    }
}

#[test]
fn no_capacity_is_late_after_any_single_tick() {
    for seed in 1..=200 {
        let mut random = Random::new(seed);
        let mut state = fresh(&random.table(5)).value;
        for _ in 0..300 {
            let number = random.below(state.table.guest_count);
            match random.below(3) {
                0 => arrive(&mut state, number),
                1 => done(&mut state, number),
                _ => tick(&mut state),
            };
            assert!(no_capacity_is_late(&state), "seed {seed}: {state:?}");
        }
    }
}

#[test]
fn calls_from_any_sound_state() {
    let mut seen = [0; 8];
    for seed in 1..=1_000 {
        let mut random = Random::new(seed);
        let mut state = random.sound_state();
        for _ in 0..20 {
            seen[random_call(&mut random, &mut state) as usize] += 1;
            assert_eq!(tally_sum(&state), state.now);
        }
    }
    assert_eq!(seen[1], 0);
    for number in [0, 2, 3, 4, 5, 6, 7] {
        assert!(seen[number] > 20, "refusal {number} was hardly met");
    }
}

#[test]
fn an_advance_is_its_parts() {
    for seed in 1..=500 {
        let mut random = Random::new(seed);
        let whole_from = random.sound_state();
        let (first, second) = (random.below(40), random.below(40));
        let mut whole = whole_from;
        let mut parts = whole_from;
        let mut ticks = whole_from;
        if advance(&mut whole, first + second) == 0 {
            assert_eq!(advance(&mut parts, first), 0);
            assert_eq!(advance(&mut parts, second), 0);
            for _ in 0..first + second {
                assert_eq!(tick(&mut ticks), 0);
            }
            assert_eq!((whole, whole), (parts, ticks));
        } else {
            assert!(whole_from.now + first + second > END_OF_TIME);
        }
    }
}

/// Takes the portions' ticks off the tallies.
fn take_off(state: &mut State, portions: &[Portion]) {
    for portion in portions {
        let ticks = portion.end - portion.first;
        match portion.answer {
            Ask::Run { guest, source, .. } => match source {
                Source::Own => state.guests[guest as usize].own_ticks -= ticks,
                Source::Spare { .. } => state.guests[guest as usize].spare_ticks -= ticks,
            },
            Ask::Burn { .. } => state.burning_ticks -= ticks,
            Ask::Nothing => state.nothing_ticks -= ticks,
        }
    }
}

#[test]
fn portions_tell_what_an_advance_does() {
    for seed in 1..=500 {
        let mut random = Random::new(seed);
        let before = random.sound_state();
        let ticks = random.below(60).min(END_OF_TIME - before.now);
        let seen = portions(&before, ticks).value;
        let mut after = before;
        assert_eq!(advance(&mut after, ticks), 0);
        let lengths: u64 = seen.iter().map(|portion| portion.end - portion.first).sum();
        assert_eq!(lengths, ticks);
        let mut reached = before;
        for portion in &seen {
            assert_eq!(portion.first, reached.now);
            assert_eq!(portion.answer, ask(&reached).value);
            assert_eq!(advance(&mut reached, portion.end - portion.first), 0);
        }
        assert_eq!(reached, after);
        take_off(&mut after, &seen);
        let tallies = |state: &State| {
            let guests = state
                .guests
                .map(|guest| (guest.own_ticks, guest.spare_ticks));
            (guests, state.burning_ticks, state.nothing_ticks)
        };
        assert_eq!(tallies(&after), tallies(&before));
    }
}

#[test]
fn a_span_is_the_longest_advance_on_its_portion() {
    let mut tried = 0;
    for seed in 1..=500 {
        let mut random = Random::new(seed);
        let state = random.sound_state();
        let (Ask::Run { span, .. } | Ask::Burn { span, .. }) = ask(&state).value else {
            continue;
        };
        // Budgets may be a million ticks; short spans are enough here.
        if span > 5_000 || state.now + span + 1 > END_OF_TIME {
            continue;
        }
        assert_eq!(portions(&state, span).value.len(), 1);
        assert_eq!(portions(&state, span + 1).value.len(), 2);
        tried += 1;
    }
    assert!(tried > 200);
}

#[test]
fn active_and_margin_read_the_state() {
    for seed in 1..=500 {
        let state = Random::new(seed).sound_state();
        let answer = active(&state).value;
        for place in 0..16 {
            let bit = answer.mask >> place & 1 == 1;
            assert_eq!(bit, state.guests[place].jobs > 0);
        }
        assert_eq!(
            (answer.mask >> 16, answer.count),
            (0, answer.mask.count_ones())
        );
        for number in 0..state.table.guest_count {
            let exact = i128::from(state.guests[number as usize].deadline) - i128::from(state.now);
            assert_eq!(i128::from(margin(&state, number).value), exact);
        }
    }
}

/// Puts any number into any one of the state's fields.
fn spoil(random: &mut Random, state: &mut State) {
    let exponent = random.below(64);
    let number = random.pick(&[0, 1, 1 << exponent, u64::MAX, END_OF_TIME, 64, 65, 16, 17]);
    let place = random.below(16) as usize;
    let spare_place = random.below(64) as usize;
    let field = match random.below(15) {
        0 => &mut state.table.frame,
        1 => &mut state.table.guest_count,
        2 => &mut state.table.entries[place].budget,
        3 => &mut state.table.entries[place].period,
        4 => &mut state.now,
        5 => &mut state.guests[place].jobs,
        6 => &mut state.guests[place].current_budget,
        7 => &mut state.guests[place].deadline,
        8 => &mut state.guests[place].own_ticks,
        9 => &mut state.guests[place].spare_ticks,
        10 => &mut state.spare_count,
        11 => &mut state.spares[spare_place].owner,
        12 => &mut state.spares[spare_place].capacity,
        13 => &mut state.spares[spare_place].deadline,
        _ => &mut state.nothing_ticks,
    };
    *field = number;
}

#[test]
fn every_state_has_an_answer() {
    let mut unsound = 0;
    for seed in 1..=3_000 {
        let mut random = Random::new(seed);
        let mut state = random.sound_state();
        for _ in 0..random.between(1, 4) {
            spoil(&mut random, &mut state);
        }
        if sound(&state) {
            random_call(&mut random, &mut state);
        } else {
            unsound += 1;
            all_calls_give_1(&state);
        }
    }
    assert!(unsound > 1_000);
}

#[test]
fn images_go_there_and_back() {
    for seed in 1..=300 {
        let mut random = Random::new(seed);
        let table = random.table(16);
        let length = 8 * table.guest_count as usize + 12;
        let mut buffer = vec![0xEE; length + 9];
        assert_eq!(write(&table, &mut buffer), 0);
        assert_eq!(buffer[length..], [0xEE; 9]);
        let answer = read(&buffer[..length]);
        assert_eq!((answer.refusal, answer.value.table), (0, table));
        let entries = Part {
            offset: 0,
            length: length - 12,
        };
        assert_eq!(answer.value.entries, entries);
        let mut again = vec![0; length];
        assert_eq!(write(&answer.value.table, &mut again), 0);
        assert_eq!(again, buffer[..length]);
    }
}

#[test]
fn spoiled_images_have_an_answer() {
    for seed in 1..=3_000 {
        let mut random = Random::new(seed);
        let table = random.table(4);
        let mut image = vec![0; 8 * table.guest_count as usize + 12];
        assert_eq!(write(&table, &mut image), 0);
        let place = random.below(image.len() as u64) as usize;
        image[place] = random.any() as u8;
        let answer = read(&image);
        if answer.refusal == 0 {
            let mut again = vec![0; image.len()];
            assert_eq!(write(&answer.value.table, &mut again), 0);
            assert_eq!(again, image);
        } else {
            assert!((9..=14).contains(&answer.refusal));
        }
    }
}

/// Lines of commands, some of them refused, and now and then a spoiled byte.
fn random_input(random: &mut Random) -> Vec<u8> {
    let table = random.table(4);
    let mut input = format!("F {}\n", table.frame);
    for entry in &table.entries[..table.guest_count as usize] {
        input += &format!("G {} {}\n", entry.budget, entry.period);
    }
    for _ in 0..random.below(40) {
        let letter = random.pick(&[b'A'.into(), b'D'.into(), b'R'.into()]) as u8;
        input += &format!("{} {}\n", char::from(letter), random.below(5));
    }
    let mut input = input.into_bytes();
    if random.one_in(2) {
        let place = random.below(input.len() as u64) as usize;
        input[place] =
            random.pick(&[b' '.into(), b'\n'.into(), b'0'.into(), b'G'.into(), 200]) as u8;
    }
    input
}

#[test]
fn every_input_has_a_listing_that_ends() {
    for seed in 1..=2_000 {
        let output = listing(&random_input(&mut Random::new(seed)));
        let text = String::from_utf8(output).unwrap();
        let last = text.lines().last().unwrap();
        let stops = ["! 10", "! 12", "! 13", "! 14", "! 16"];
        assert!(text.ends_with('\n'));
        assert!(last.starts_with("end ") != stops.contains(&last), "{text}");
        assert!(text.matches("end").count() <= 1);
    }
}

#[test]
fn listing_lines_follow_each_other() {
    for seed in 1..=500 {
        let text = String::from_utf8(listing(&random_input(&mut Random::new(seed)))).unwrap();
        let mut reached = 0;
        for line in text.lines().filter(|line| !line.starts_with('!')) {
            let words: Vec<&str> = line.split(' ').collect();
            if words[0] == "end" {
                assert_eq!(words, ["end", reached.to_string().as_str()]);
            } else {
                assert_eq!((words.len(), words[0]), (4, reached.to_string().as_str()));
                let end: u64 = words[1].parse().unwrap();
                assert!(end > reached);
                reached = end;
            }
        }
    }
}
