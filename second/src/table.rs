//! The table of guests, and the check that gives refusals 10 and 12 to 14.

use crate::refusal::{number_of, Refusal};

pub const MOST_GUESTS: usize = 16;
pub const LONGEST_FRAME: u64 = 1_000_000;

/// One guest's budget Q and period T.
#[derive(Clone, Copy, Debug, Default, PartialEq, Eq)]
pub struct Entry {
    pub budget: u64,
    pub period: u64,
}

/// A frame H and the guests' entries; places from `guest_count` on are unused.
#[derive(Clone, Copy, Debug, Default, PartialEq, Eq)]
pub struct Table {
    pub frame: u64,
    pub guest_count: u64,
    pub entries: [Entry; MOST_GUESTS],
}

/// Gives 0 for a good table, or the smallest refusal number that applies.
pub fn check(table: &Table) -> u32 {
    number_of(accept(table))
}

pub(crate) fn accept(table: &Table) -> Result<(), Refusal> {
    if table.guest_count == 0 || table.guest_count > MOST_GUESTS as u64 {
        return Err(Refusal::GuestCount);
    }
    if table.frame == 0 || table.frame > LONGEST_FRAME {
        return Err(Refusal::Frame);
    }
    let (used, unused) = table.entries.split_at(table.guest_count as usize);
    let used_hold = used.iter().all(|entry| holds(entry, table.frame));
    let unused_are_zero = unused.iter().all(|entry| *entry == Entry::default());
    if !(used_hold && unused_are_zero) {
        return Err(Refusal::Guest);
    }
    if shares(used, table.frame) > u128::from(table.frame) {
        return Err(Refusal::Shares);
    }
    Ok(())
}

fn holds(entry: &Entry, frame: u64) -> bool {
    1 <= entry.budget && entry.budget <= entry.period && frame.is_multiple_of(entry.period)
}

fn shares(used: &[Entry], frame: u64) -> u128 {
    used.iter()
        .map(|entry| u128::from(entry.budget) * u128::from(frame / entry.period))
        .sum()
}
