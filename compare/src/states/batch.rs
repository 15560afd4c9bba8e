//! The requests of one batch: states of random runs with none, one or two numbers changed, states for each point and for each pair of
//! refusals, tables and images.

use second::state::State;
use second::table::Table;

use super::points::{self, FURTHEST};
use super::request::{Request, LONGEST_BUFFER};
use super::rows;
use super::runs::{any_table, placed, pool, table_of, wake_at, Pool};
use super::{breaking, choices};
use crate::draft::{room_in_front, Draft};
use crate::faults::{Faults, SET_COUNT};
use crate::random::Random;
use crate::{kinds, purpose, tables};

const PLAIN_STATES: usize = 140;
const PLAIN_TABLES: usize = 30;
const BUILT_IMAGES: usize = 10;
const TRIES: usize = 1_000;

/// The same requests for the same seed and number.
pub fn requests(seed: u64, number: usize) -> Result<Vec<Request>, String> {
    // Mixed first, so that neighbouring seeds do not share their batches.
    let mut random = Random::new(Random::new(seed).next().wrapping_add(number as u64));
    let pool = pool(&mut random);
    let mut requests = Vec::new();
    for _ in 0..PLAIN_STATES {
        requests.push(plain(&mut random, &pool));
    }
    for point in points::ALL {
        let built = breaking::alone(&mut random, &pool, point);
        let state = built.ok_or_else(|| format!("no state that breaks {point:?} alone"))?;
        requests.push(any_call(&mut random, state));
    }
    let moved = breaking::tally_moved(&mut random, &pool);
    requests.push(any_call(&mut random, moved));
    add_refused(&mut random, &pool, &mut requests);
    add_tables(&mut random, &mut requests);
    add_images(&mut random, &mut requests);
    add_long(&mut random, &mut requests);
    Ok(requests)
}

fn any_call(random: &mut Random, state: State) -> Request {
    let guest = choices::guest(random, &state);
    let ticks = choices::ticks(random, &state);
    Request::state(state, guest, ticks)
}

fn plain(random: &mut Random, pool: &Pool) -> Request {
    let full = random.one_in(8) && !pool.full.is_empty();
    let mut state = placed(random, if full { &pool.full } else { &pool.any });
    for _ in 0..random.pick(&[0, 0, 1, 1, 2]) {
        state = choices::change(random, &state);
    }
    any_call(random, state)
}

/// What an arrival is to meet at its guest.
#[derive(Clone, Copy)]
enum Aim {
    ManyJobs(u64),
    Full,
    WakeAt(u64),
    FullAndFar,
    Idle,
}

fn add_refused(random: &mut Random, pool: &Pool, requests: &mut Vec<Request>) {
    let aims = [
        Aim::ManyJobs(254),
        Aim::ManyJobs(255),
        Aim::Full,
        Aim::WakeAt(FURTHEST),
        Aim::WakeAt(FURTHEST + 1),
        Aim::FullAndFar,
        Aim::Idle,
    ];
    for aim in aims {
        // Some pools have no such state: they are made again with each batch.
        let Some((mut state, guest)) = (0..TRIES).find_map(|_| aimed(random, pool, aim)) else {
            continue;
        };
        let ticks = choices::ticks(random, &state);
        requests.push(Request::state(state, guest, ticks));
        breaking::unsettle(random, &mut state);
        let few = choices::ticks(random, &state);
        let ticks = random.pick(&[few, u64::MAX]);
        let other = random.pick(&[guest, guest, state.table.guest_count]);
        requests.push(Request::state(state, guest, ticks));
        requests.push(Request::state(state, other, u64::MAX));
    }
}

fn aimed(random: &mut Random, pool: &Pool, aim: Aim) -> Option<(State, u64)> {
    let full = matches!(aim, Aim::Full | Aim::FullAndFar);
    let mut state = placed(random, if full { &pool.full } else { &pool.any });
    let guest = super::runs::any_guest(random, &state);
    let place = guest as usize;
    let idle = state.guests[place].jobs == 0;
    let occupied = state.spare_count as usize + points::active_count(&state) == 64;
    let fits = match aim {
        Aim::ManyJobs(jobs) => {
            let active = !idle;
            if active {
                state.guests[place].jobs = jobs;
            }
            active
        }
        Aim::Full => idle && occupied,
        Aim::WakeAt(deadline) => idle && wake_at(&mut state, place, deadline),
        Aim::FullAndFar => idle && occupied && wake_at(&mut state, place, FURTHEST + 1),
        Aim::Idle => idle,
    };
    fits.then_some((state, guest))
}

fn add_tables(random: &mut Random, requests: &mut Vec<Request>) {
    for _ in 0..PLAIN_TABLES {
        let mut table = any_table(random);
        for _ in 0..random.pick(&[0, 1, 1, 2]) {
            choices::change_table(random, &mut table);
        }
        requests.push(with_buffer(random, table));
    }
    for (one, other) in [(10, 12), (10, 13), (10, 14), (12, 13), (12, 14), (13, 14)] {
        let wanted = vec![one, other];
        let built = (0..TRIES)
            .map(|_| bad_table(random, &wanted))
            .find(|table| rows::of_table(table) == wanted);
        requests.extend(built.map(|table| with_buffer(random, table)));
    }
    for number in [10, 12, 13, 14] {
        let built = (0..TRIES)
            .map(|_| bad_table(random, &[number]))
            .find(|table| rows::of_table(table) == [number]);
        let length = random.length(0, 11);
        let fill = random.next() as u8;
        requests.extend(built.map(|table| Request::table(table, length, fill)));
    }
}

/// A buffer that is long enough by nothing, by some bytes, or too short.
fn with_buffer(random: &mut Random, table: Table) -> Request {
    let needed = 8 * table.guest_count.min(20) as usize + 12;
    let any = random.length(0, LONGEST_BUFFER);
    let length = random.pick(&[needed, needed, needed - 1, needed + 1, any]);
    let fill = random.next() as u8;
    Request::table(table, length.min(LONGEST_BUFFER), fill)
}

fn bad_table(random: &mut Random, wanted: &[u32]) -> Table {
    let wants = |number| wanted.contains(&number);
    let too_long = random.pick(&[1_000_001, 1_000_008, 2_000_000, u32::MAX]);
    let frame = if wants(12) {
        too_long
    } else {
        tables::good_frame(random, 1)
    };
    let most = if wants(10) { 16 } else { random.length(2, 16) };
    let guests = if wants(14) {
        tables::guests_beyond(random, frame, most)
    } else {
        tables::guests_within(random, frame, most)
    };
    let mut table = table_of(frame, &guests);
    if wants(12) && !wants(14) && random.one_in(2) {
        table.frame = 0;
    }
    if wants(13) {
        let bad = tables::bad_guest(random, table.frame as u32);
        table.entries[random.length(0, 15)] = second::table::Entry {
            budget: bad.budget.into(),
            period: bad.period.into(),
        };
    }
    if wants(10) {
        table.guest_count = random.pick(&[17, 17, 0, 18, 1 << 32, u64::MAX]);
    }
    table
}

fn add_images(random: &mut Random, requests: &mut Vec<Request>) {
    let shortest = Draft::new(Vec::new(), tables::guests_within(random, 8, 1), 8);
    requests.push(Request::Image(shortest.image()));
    let entries = tables::guests_within(random, 720, 16);
    let length = room_in_front(entries.len()) + random.length(0, 1);
    let front = random.bytes(length);
    requests.push(Request::Image(Draft::new(front, entries, 720).image()));
    for _ in 0..BUILT_IMAGES {
        let bits = random.between(1, u32::from(SET_COUNT) - 1) as u8;
        let built = purpose::build(random, Faults::from_bits(bits));
        let bit = 1 << random.between(0, 6);
        let alone = purpose::build(random, Faults::from_bits(bit));
        let images = [
            built,
            alone,
            kinds::good(random).image(),
            kinds::changed(random),
        ];
        requests.extend(images.into_iter().map(Request::Image));
    }
}

/// Lengths whose low 8 or 16 bits alone would be another answer; most of them are more than the program takes.
fn add_long(random: &mut Random, requests: &mut Vec<Request>) {
    requests.push(Request::Image(kinds::good_then_more(random)));
    let length = random.pick(&[256, 65_536, 65_792]) + random.length(0, 11);
    let table = any_table(random);
    requests.push(Request::table(table, length, random.next() as u8));
}
