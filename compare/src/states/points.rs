//! Which points of a sound state a state breaks, each looked at by itself and written from the specification's "Quantities and bounds".
//! Places behind a count that is too large are all in use.

use second::state::{Guest, Spare, State};
use second::table::{Entry, Table};

const PLACES: usize = 16;
const MOST_SPARES: usize = 64;
pub const LONGEST_FRAME: u64 = 1_000_000;
pub const LAST_TICK: u64 = 1 << 40;
pub const FURTHEST: u64 = 1 << 44;

#[derive(Clone, Copy, Debug, PartialEq, Eq, PartialOrd, Ord)]
pub enum Point {
    GuestCount,
    Frame,
    NoBudget,
    BudgetPastPeriod,
    PeriodNoDivisor,
    UnusedEntry,
    Shares,
    SpareCount,
    Time,
    Jobs,
    LeftPastBudget,
    IdleWithBudget,
    Owner,
    NoCapacity,
    CapacityPastBudget,
    Tallies,
    DeadlineOrder,
    OwnerOrder,
    EqualSpares,
    Room,
    GuestDeadline,
    SpareDeadline,
    PastIdleOwner,
    AtActiveOwner,
    UnusedJobs,
    UnusedLeft,
    UnusedDeadline,
    UnusedOwn,
    UnusedLent,
    UnusedSpareDeadline,
    UnusedSpareOwner,
    UnusedSpareCapacity,
}

pub const ALL: [Point; 32] = {
    use Point::*;
    [
        GuestCount,
        Frame,
        NoBudget,
        BudgetPastPeriod,
        PeriodNoDivisor,
        UnusedEntry,
        Shares,
        SpareCount,
        Time,
        Jobs,
        LeftPastBudget,
        IdleWithBudget,
        Owner,
        NoCapacity,
        CapacityPastBudget,
        Tallies,
        DeadlineOrder,
        OwnerOrder,
        EqualSpares,
        Room,
        GuestDeadline,
        SpareDeadline,
        PastIdleOwner,
        AtActiveOwner,
        UnusedJobs,
        UnusedLeft,
        UnusedDeadline,
        UnusedOwn,
        UnusedLent,
        UnusedSpareDeadline,
        UnusedSpareOwner,
        UnusedSpareCapacity,
    ]
};

/// A set of points.
#[derive(Clone, Copy, Debug, Default, PartialEq, Eq)]
pub struct Points(u32);

impl Points {
    pub fn of(points: &[Point]) -> Points {
        Points(
            points
                .iter()
                .fold(0, |bits, &point| bits | 1 << point as u32),
        )
    }

    pub fn is_empty(self) -> bool {
        self.0 == 0
    }

    fn set(&mut self, point: Point, broken: bool) {
        self.0 |= u32::from(broken) << point as u32;
    }

    /// The point that is broken alone. A spare is behind its owner's deadline, so one past the bound never stands alone: there
    /// nothing else may be broken but that the owner's is past it too, or that the spare is past the owner's.
    pub fn alone(self) -> Option<Point> {
        let besides = |other| self == Points::of(&[Point::SpareDeadline, other]);
        if besides(Point::GuestDeadline)
            || besides(Point::PastIdleOwner)
            || besides(Point::AtActiveOwner)
        {
            return Some(Point::SpareDeadline);
        }
        ALL.into_iter().find(|&point| self == Points::of(&[point]))
    }
}

/// The guests' places in use.
pub fn used(table: &Table) -> usize {
    table.guest_count.min(PLACES as u64) as usize
}

pub fn broken(state: &State) -> Points {
    let mut points = Points::default();
    table_points(&state.table, &mut points);
    points.set(Point::Time, state.now > LAST_TICK);
    points.set(Point::Tallies, tallies(state) != u128::from(state.now));
    let in_use = used(&state.table);
    for (guest, entry) in state.guests.iter().zip(&state.table.entries).take(in_use) {
        guest_points(guest, entry, state.now, &mut points);
    }
    state.guests[in_use..]
        .iter()
        .for_each(|guest| unused_guest(guest, &mut points));
    spares_points(state, &mut points);
    points
}

fn table_points(table: &Table, points: &mut Points) {
    points.set(
        Point::GuestCount,
        table.guest_count == 0 || table.guest_count > PLACES as u64,
    );
    points.set(
        Point::Frame,
        table.frame == 0 || table.frame > LONGEST_FRAME,
    );
    let (entries, unused) = table.entries.split_at(used(table));
    for entry in entries {
        points.set(Point::NoBudget, entry.budget == 0);
        points.set(Point::BudgetPastPeriod, entry.budget > entry.period);
        points.set(Point::PeriodNoDivisor, !divides(entry.period, table.frame));
    }
    points.set(
        Point::UnusedEntry,
        unused.iter().any(|entry| *entry != Entry::default()),
    );
    // A guest that is bad by itself has no share: a budget past the period alone would be more than the whole frame.
    let good = entries.iter().all(|entry| is_good(entry, table.frame));
    points.set(
        Point::Shares,
        good && shares(table) > u128::from(table.frame),
    );
}

fn divides(period: u64, frame: u64) -> bool {
    period != 0 && frame.is_multiple_of(period)
}

pub fn is_good(entry: &Entry, frame: u64) -> bool {
    1 <= entry.budget && entry.budget <= entry.period && divides(entry.period, frame)
}

/// The sum of Q x (H / T); a guest with a period of 0 adds nothing.
pub fn shares(table: &Table) -> u128 {
    table.entries[..used(table)]
        .iter()
        .map(|entry| {
            u128::from(entry.budget)
                * u128::from(table.frame.checked_div(entry.period).unwrap_or(0))
        })
        .fold(0, u128::saturating_add)
}

fn guest_points(guest: &Guest, entry: &Entry, now: u64, points: &mut Points) {
    points.set(Point::Jobs, guest.jobs > 255);
    points.set(Point::LeftPastBudget, guest.current_budget > entry.budget);
    points.set(
        Point::IdleWithBudget,
        guest.jobs == 0 && guest.current_budget > 0,
    );
    points.set(
        Point::GuestDeadline,
        u128::from(guest.deadline) > bound(now),
    );
}

/// The greatest deadline at a tick.
pub fn bound(now: u64) -> u128 {
    u128::from(FURTHEST) + u128::from(now) * (1 << 20)
}

fn tallies(state: &State) -> u128 {
    let of_guests: u128 = state.guests[..used(&state.table)]
        .iter()
        .map(|guest| u128::from(guest.own_ticks) + u128::from(guest.spare_ticks))
        .sum();
    of_guests + u128::from(state.burning_ticks) + u128::from(state.nothing_ticks)
}

fn unused_guest(guest: &Guest, points: &mut Points) {
    points.set(Point::UnusedJobs, guest.jobs != 0);
    points.set(Point::UnusedLeft, guest.current_budget != 0);
    points.set(Point::UnusedDeadline, guest.deadline != 0);
    points.set(Point::UnusedOwn, guest.own_ticks != 0);
    points.set(Point::UnusedLent, guest.spare_ticks != 0);
}

fn spares_points(state: &State, points: &mut Points) {
    let count = state.spare_count.min(MOST_SPARES as u64) as usize;
    points.set(Point::SpareCount, state.spare_count > MOST_SPARES as u64);
    // More spares than places pass the room by themselves.
    points.set(
        Point::Room,
        count + active_count(state) > MOST_SPARES && state.spare_count <= MOST_SPARES as u64,
    );
    let (spares, unused) = state.spares.split_at(count);
    spares
        .iter()
        .for_each(|spare| spare_points(spare, state, points));
    for pair in spares.windows(2) {
        let (one, other) = (pair[0], pair[1]);
        points.set(Point::DeadlineOrder, one.deadline > other.deadline);
        let equal = one.deadline == other.deadline;
        points.set(Point::OwnerOrder, equal && one.owner > other.owner);
        points.set(Point::EqualSpares, equal && one.owner == other.owner);
    }
    for spare in unused {
        points.set(Point::UnusedSpareDeadline, spare.deadline != 0);
        points.set(Point::UnusedSpareOwner, spare.owner != 0);
        points.set(Point::UnusedSpareCapacity, spare.capacity != 0);
    }
}

fn spare_points(spare: &Spare, state: &State, points: &mut Points) {
    points.set(Point::NoCapacity, spare.capacity == 0);
    points.set(
        Point::SpareDeadline,
        u128::from(spare.deadline) > bound(state.now),
    );
    points.set(Point::Owner, spare.owner >= state.table.guest_count);
    if spare.owner >= used(&state.table) as u64 {
        return;
    }
    let owner = state.guests[spare.owner as usize];
    points.set(
        Point::CapacityPastBudget,
        spare.capacity > state.table.entries[spare.owner as usize].budget,
    );
    points.set(
        Point::PastIdleOwner,
        owner.jobs == 0 && spare.deadline > owner.deadline,
    );
    points.set(
        Point::AtActiveOwner,
        owner.jobs > 0 && spare.deadline >= owner.deadline,
    );
}

pub fn active_count(state: &State) -> usize {
    state.guests[..used(&state.table)]
        .iter()
        .filter(|guest| guest.jobs > 0)
        .count()
}
