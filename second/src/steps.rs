//! The calls on a state: arrive, done, advance tick by tick, ask, who is active, margin.

use crate::refusal::{number_of, Answer, Refusal};
use crate::state::{
    active_count, sound, used_spares, Spare, State, END_OF_TIME, FURTHEST_WAKE_DEADLINE, MOST_JOBS,
    MOST_SPARES,
};

/// Where the capacity for a guest's tick comes from.
#[derive(Clone, Copy, Debug, PartialEq, Eq)]
pub enum Source {
    Own,
    Spare { owner: u64 },
}

/// What the next tick would do.
#[derive(Clone, Copy, Debug, Default, PartialEq, Eq)]
pub enum Ask {
    Run {
        guest: u64,
        source: Source,
        deadline: u64,
        span: u64,
    },
    Burn {
        owner: u64,
        deadline: u64,
        span: u64,
    },
    #[default]
    Nothing,
}

/// Consecutive ticks of one advance that stay on one portion, with the answer of its first tick.
#[derive(Clone, Copy, Debug, PartialEq, Eq)]
pub struct Portion {
    pub first: u64,
    pub end: u64,
    pub answer: Ask,
}

/// The active guests, bit i for guest i, and how many they are.
#[derive(Clone, Copy, Debug, Default, PartialEq, Eq)]
pub struct Active {
    pub mask: u32,
    pub count: u32,
}

/// Gives the guest one more job; refusals 1, 2, 4, 5 and 6.
pub fn arrive(state: &mut State, guest: u64) -> u32 {
    number_of(try_arrive(state, guest))
}

/// Takes one job from the guest; refusals 1, 2 and 3.
pub fn done(state: &mut State, guest: u64) -> u32 {
    number_of(try_done(state, guest))
}

/// One tick; refusals 1 and 7.
pub fn tick(state: &mut State) -> u32 {
    advance(state, 1)
}

/// As many single ticks as are given; refusals 1 and 7.
pub fn advance(state: &mut State, ticks: u64) -> u32 {
    advance_in_portions(state, ticks, |_| ())
}

/// Advances and shows each portion as soon as it has ended; refusals 1 and 7.
pub fn advance_in_portions(state: &mut State, ticks: u64, show: impl FnMut(Portion)) -> u32 {
    let outcome = may_advance(state, ticks);
    if outcome.is_ok() {
        run_ticks(state, ticks, show);
    }
    number_of(outcome)
}

/// The portions that an advance would go through; refusals 1 and 7.
pub fn portions(state: &State, ticks: u64) -> Answer<Vec<Portion>> {
    let mut trial = *state;
    let mut value = Vec::new();
    let refusal = advance_in_portions(&mut trial, ticks, |portion| value.push(portion));
    Answer { refusal, value }
}

/// What the next tick would do, after its renewals; refusal 1.
pub fn ask(state: &State) -> Answer<Ask> {
    Answer::from(expect_sound(state).map(|()| {
        let mut trial = *state;
        renew(&mut trial);
        choose(&trial)
    }))
}

/// Who is active; refusal 1.
pub fn active(state: &State) -> Answer<Active> {
    Answer::from(expect_sound(state).map(|()| {
        let mask = state
            .guests
            .iter()
            .enumerate()
            .filter(|(_, guest)| guest.jobs > 0)
            .fold(0_u32, |mask, (place, _)| mask | 1 << place);
        Active {
            mask,
            count: mask.count_ones(),
        }
    }))
}

/// The guest's stored deadline less the present tick; refusals 1 and 2.
pub fn margin(state: &State, guest: u64) -> Answer<i64> {
    // A sound state's deadline is at most 2^44 + 2^60, so both numbers fit.
    Answer::from(
        guest_place(state, guest)
            .map(|place| state.guests[place].deadline as i64 - state.now as i64),
    )
}

fn expect_sound(state: &State) -> Result<(), Refusal> {
    if sound(state) {
        Ok(())
    } else {
        Err(Refusal::StateNotSound)
    }
}

fn guest_place(state: &State, guest: u64) -> Result<usize, Refusal> {
    expect_sound(state)?;
    if guest >= state.table.guest_count {
        return Err(Refusal::NoSuchGuest);
    }
    Ok(guest as usize)
}

fn may_advance(state: &State, ticks: u64) -> Result<(), Refusal> {
    expect_sound(state)?;
    // Subtracted, because the sum with a great number of ticks has no room.
    if ticks > END_OF_TIME - state.now {
        return Err(Refusal::PastEndOfTime);
    }
    Ok(())
}

fn try_arrive(state: &mut State, guest: u64) -> Result<(), Refusal> {
    let place = guest_place(state, guest)?;
    match state.guests[place].jobs {
        0 => wake(state, place),
        MOST_JOBS => Err(Refusal::JobsFull),
        jobs => {
            state.guests[place].jobs = jobs + 1;
            Ok(())
        }
    }
}

fn wake(state: &mut State, place: usize) -> Result<(), Refusal> {
    // Room is asked for now, so that the later completion finds a place for its spare.
    if state.spare_count + active_count(state) == MOST_SPARES as u64 {
        return Err(Refusal::NoRoomForSpare);
    }
    let entry = state.table.entries[place];
    let guest = &mut state.guests[place];
    let deadline = state.now.max(guest.deadline) + entry.period;
    if deadline > FURTHEST_WAKE_DEADLINE {
        return Err(Refusal::DeadlineTooFar);
    }
    guest.jobs = 1;
    guest.current_budget = entry.budget;
    guest.deadline = deadline;
    Ok(())
}

fn try_done(state: &mut State, guest: u64) -> Result<(), Refusal> {
    let place = guest_place(state, guest)?;
    let guest = &mut state.guests[place];
    if guest.jobs == 0 {
        return Err(Refusal::DoneWhileIdle);
    }
    guest.jobs -= 1;
    if guest.jobs == 0 && guest.current_budget > 0 {
        leave_spare(state, place);
    }
    Ok(())
}

fn leave_spare(state: &mut State, place: usize) {
    let guest = &mut state.guests[place];
    let spare = Spare {
        owner: place as u64,
        capacity: guest.current_budget,
        deadline: guest.deadline,
    };
    guest.current_budget = 0;
    let used = state.spare_count as usize;
    let before = used_spares(state)
        .iter()
        .filter(|other| (other.deadline, other.owner) < (spare.deadline, spare.owner))
        .count();
    state.spares.copy_within(before..used, before + 1);
    state.spares[before] = spare;
    state.spare_count += 1;
}

fn run_ticks(state: &mut State, ticks: u64, mut show: impl FnMut(Portion)) {
    let end = state.now + ticks;
    let mut open: Option<Portion> = None;
    while state.now < end {
        let next = next_piece(state, end);
        open = match open {
            Some(portion) if same_portion(portion.answer, next.answer) => Some(Portion {
                end: next.end,
                ..portion
            }),
            Some(portion) => {
                show(portion);
                Some(next)
            }
            None => Some(next),
        };
    }
    open.into_iter().for_each(&mut show);
}

fn next_piece(state: &mut State, end: u64) -> Portion {
    let first = state.now;
    let answer = one_tick(state);
    if answer == Ask::Nothing {
        // Nobody can start to run and nothing can start to burn before the next call, and the
        // advance may be 2^40 ticks long.
        state.nothing_ticks += end - state.now;
        state.now = end;
    }
    Portion {
        first,
        end: state.now,
        answer,
    }
}

/// A renewed budget and a next spare have another deadline, so the deadline tells portions apart.
fn same_portion(one: Ask, other: Ask) -> bool {
    without_span(one) == without_span(other)
}

fn without_span(mut answer: Ask) -> Ask {
    if let Ask::Run { span, .. } | Ask::Burn { span, .. } = &mut answer {
        *span = 0;
    }
    answer
}

fn one_tick(state: &mut State) -> Ask {
    renew(state);
    let answer = choose(state);
    charge(state, answer);
    state.now += 1;
    answer
}

fn renew(state: &mut State) {
    for (guest, entry) in state.guests.iter_mut().zip(&state.table.entries) {
        if guest.jobs > 0 && guest.current_budget == 0 {
            guest.current_budget = entry.budget;
            guest.deadline += entry.period;
        }
    }
}

/// The portion that a tick takes from, once its renewals are made.
fn choose(state: &State) -> Ask {
    let first = used_spares(state).first();
    let Some(place) = earliest_active(state) else {
        return first.map_or(Ask::Nothing, burn);
    };
    let guest = &state.guests[place];
    match first {
        Some(spare) if spare.deadline <= guest.deadline => Ask::Run {
            guest: place as u64,
            source: Source::Spare { owner: spare.owner },
            deadline: spare.deadline,
            span: spare.capacity,
        },
        _ => Ask::Run {
            guest: place as u64,
            source: Source::Own,
            deadline: guest.deadline,
            span: guest.current_budget,
        },
    }
}

fn burn(spare: &Spare) -> Ask {
    Ask::Burn {
        owner: spare.owner,
        deadline: spare.deadline,
        span: spare.capacity,
    }
}

fn earliest_active(state: &State) -> Option<usize> {
    (0..state.table.guest_count as usize)
        .filter(|&place| state.guests[place].jobs > 0)
        .min_by_key(|&place| (state.guests[place].deadline, place))
}

fn charge(state: &mut State, answer: Ask) {
    match answer {
        Ask::Run { guest, source, .. } => match source {
            Source::Own => {
                state.guests[guest as usize].current_budget -= 1;
                state.guests[guest as usize].own_ticks += 1;
            }
            Source::Spare { .. } => {
                take_from_first_spare(state);
                state.guests[guest as usize].spare_ticks += 1;
            }
        },
        Ask::Burn { .. } => {
            take_from_first_spare(state);
            state.burning_ticks += 1;
        }
        Ask::Nothing => state.nothing_ticks += 1,
    }
}

fn take_from_first_spare(state: &mut State) {
    state.spares[0].capacity -= 1;
    if state.spares[0].capacity == 0 {
        let used = state.spare_count as usize;
        state.spares.copy_within(1..used, 0);
        state.spares[used - 1] = Spare::default();
        state.spare_count -= 1;
    }
}
