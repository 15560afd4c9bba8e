//! What the tests share: short ways to make tables, states and inputs, and random ones.

use second::program::listing;
use second::refusal::Answer;
use second::state::{fresh, sound, Guest, Spare, State};
use second::steps::{active, advance, arrive, ask, done, margin, portions, tick, Active, Ask};
use second::table::{check, Entry, Table};

pub const END_OF_TIME: u64 = 1_099_511_627_776;
pub const TWO_TO_44: u64 = 17_592_186_044_416;

/// A table of a frame and (budget, period) pairs.
pub fn table(frame: u64, guests: &[(u64, u64)]) -> Table {
    let mut table = Table {
        frame,
        guest_count: guests.len() as u64,
        ..Table::default()
    };
    for (entry, &(budget, period)) in table.entries.iter_mut().zip(guests) {
        *entry = Entry { budget, period };
    }
    table
}

pub fn fresh_state(frame: u64, guests: &[(u64, u64)]) -> State {
    let answer = fresh(&table(frame, guests));
    assert_eq!(answer.refusal, 0);
    answer.value
}

pub fn spare(owner: u64, capacity: u64, deadline: u64) -> Spare {
    Spare {
        owner,
        capacity,
        deadline,
    }
}

/// Puts spares into the first places, in the given order.
pub fn put_spares(state: &mut State, spares: &[Spare]) {
    state.spares = [Spare::default(); 64];
    state.spare_count = spares.len() as u64;
    state.spares[..spares.len()].copy_from_slice(spares);
}

/// Sets the present tick and accounts for it as idle time with nothing to burn.
pub fn put_now(state: &mut State, now: u64) {
    state.nothing_ticks = state.nothing_ticks + now - state.now;
    state.now = now;
}

pub fn used_spares(state: &State) -> &[Spare] {
    &state.spares[..state.spare_count as usize]
}

/// (jobs, c, d) of a guest.
pub fn guest(state: &State, place: usize) -> (u64, u64, u64) {
    let Guest {
        jobs,
        current_budget,
        deadline,
        ..
    } = state.guests[place];
    (jobs, current_budget, deadline)
}

/// Checks that a call gives the refusal and leaves the state as it was.
pub fn refused(state: &State, number: u32, call: impl Fn(&mut State) -> u32) {
    let mut after = *state;
    assert_eq!(call(&mut after), number);
    assert_eq!(after, *state);
}

/// Checks that every call on the state gives refusal 1, whatever its numbers are.
pub fn all_calls_give_1(state: &State) {
    for number in [0, 1, 15, 16, u64::MAX] {
        refused(state, 1, |state| arrive(state, number));
        refused(state, 1, |state| done(state, number));
        refused(state, 1, |state| advance(state, number));
        assert_eq!(
            (margin(state, number).refusal, margin(state, number).value),
            (1, 0)
        );
        assert_eq!(portions(state, number).refusal, 1);
        assert!(portions(state, number).value.is_empty());
    }
    refused(state, 1, tick);
    let nothing = Answer {
        refusal: 1,
        value: Ask::Nothing,
    };
    assert_eq!(ask(state), nothing);
    let nobody = Answer {
        refusal: 1,
        value: Active { mask: 0, count: 0 },
    };
    assert_eq!(active(state), nobody);
}

/// Checks the listing of an input, both as text.
pub fn prints(input: &str, output: &str) {
    prints_bytes(input.as_bytes(), output);
}

pub fn prints_bytes(input: &[u8], output: &str) {
    assert_eq!(String::from_utf8(listing(input)).unwrap(), output);
}

/// A small generator of pseudo-random numbers (xorshift).
pub struct Random(u64);

impl Random {
    pub fn new(seed: u64) -> Self {
        Random(seed.wrapping_mul(0x9E37_79B9_7F4A_7C15) | 1)
    }

    pub fn any(&mut self) -> u64 {
        self.0 ^= self.0 << 13;
        self.0 ^= self.0 >> 7;
        self.0 ^= self.0 << 17;
        self.0
    }

    /// A number from 0 up to and without the bound.
    pub fn below(&mut self, bound: u64) -> u64 {
        (self.any() >> 11) % bound
    }

    /// A number from the least to the most, both included.
    pub fn between(&mut self, least: u64, most: u64) -> u64 {
        least + self.below(most - least + 1)
    }

    pub fn one_in(&mut self, times: u64) -> bool {
        self.below(times) == 0
    }

    pub fn pick(&mut self, numbers: &[u64]) -> u64 {
        numbers[self.below(numbers.len() as u64) as usize]
    }

    /// A good table of at most the given number of guests.
    pub fn table(&mut self, most_guests: u64) -> Table {
        let frame = self.pick(&[1, 2, 6, 8, 12, 24, 60, 720, 1_000_000]);
        let periods: Vec<u64> = (1..=frame.min(120))
            .filter(|period| frame.is_multiple_of(*period))
            .collect();
        let mut left = frame;
        let mut guests = Vec::new();
        for _ in 0..self.between(1, most_guests) {
            let period = if self.one_in(8) {
                frame
            } else {
                self.pick(&periods)
            };
            let most = period.min(left / (frame / period));
            if most > 0 {
                let wanted = self.pick(&[most, 3]).min(most);
                let budget = self.between(1, wanted);
                left -= budget * (frame / period);
                guests.push((budget, period));
            }
        }
        let made = table(frame, &guests);
        assert_eq!(check(&made), 0);
        made
    }

    /// A sound state that need not be reached from a fresh one.
    pub fn sound_state(&mut self) -> State {
        let mut state = fresh(&self.table(16)).value;
        let now = match self.below(4) {
            0 => self.below(100),
            1 => END_OF_TIME - self.below(100),
            _ => self.below(END_OF_TIME + 1),
        };
        state.now = now;
        self.fill_guests(&mut state);
        self.fill_spares(&mut state);
        self.fill_tallies(&mut state);
        assert!(sound(&state));
        state
    }

    fn fill_guests(&mut self, state: &mut State) {
        let furthest = TWO_TO_44 + state.now * 1_048_576;
        for place in 0..state.table.guest_count as usize {
            let entry = state.table.entries[place];
            let deadline = match self.below(4) {
                0 => self.below(furthest + 1),
                1 => TWO_TO_44.saturating_sub(self.below(2 * entry.period + 2)),
                _ => state.now + self.below(3 * entry.period + 3),
            };
            let guest = &mut state.guests[place];
            guest.deadline = deadline.min(furthest);
            if self.one_in(2) {
                guest.jobs = self.pick(&[1, 2, 254, 255]);
                guest.current_budget = self.between(0, entry.budget);
            }
        }
    }

    fn fill_spares(&mut self, state: &mut State) {
        let mut spares = Vec::new();
        let wanted = self.pick(&[0, 1, 3, 20, 90]);
        for _ in 0..wanted {
            let owner = self.below(state.table.guest_count);
            let guest = state.guests[owner as usize];
            let past = guest.deadline + u64::from(guest.jobs == 0);
            if past > 0 {
                let back = self.below(past.min(40)) + 1;
                let budget = state.table.entries[owner as usize].budget;
                spares.push(spare(owner, self.between(1, budget), past - back));
            }
        }
        spares.sort_by_key(|spare| (spare.deadline, spare.owner));
        spares.dedup_by_key(|spare| (spare.deadline, spare.owner));
        let active = state.guests.iter().filter(|guest| guest.jobs > 0).count();
        spares.truncate(64 - active);
        put_spares(state, &spares);
    }

    fn fill_tallies(&mut self, state: &mut State) {
        let mut left = state.now;
        for guest in &mut state.guests[..state.table.guest_count as usize] {
            guest.own_ticks = self.below(left + 1);
            left -= guest.own_ticks;
            guest.spare_ticks = self.below(left + 1);
            left -= guest.spare_ticks;
        }
        state.burning_ticks = self.below(left + 1);
        state.nothing_ticks = left - state.burning_ticks;
    }
}
