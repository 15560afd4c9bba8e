//! Sets of refusals 8 to 14, and which of their conditions hold in an image, each looked at by itself.

use crate::draft::{ENTRY_LENGTH, LONGEST, SHORTEST, TRAILER_LENGTH};

pub const FIRST: u32 = 8;
pub const LAST: u32 = 14;
/// Every set of refusals has its number below this.
pub const SET_COUNT: u8 = 1 << (LAST - FIRST + 1);

/// A set of refusals; bit 0 is refusal 8.
#[derive(Clone, Copy)]
pub struct Faults(u8);

impl Faults {
    pub fn from_bits(bits: u8) -> Faults {
        Faults(bits)
    }

    pub fn has(self, number: u32) -> bool {
        self.0 & (1 << (number - FIRST)) != 0
    }

    pub fn has_all_of(self, other: Faults) -> bool {
        self.0 & other.0 == other.0
    }

    pub fn is_pair(self, pair: (u32, u32)) -> bool {
        self.count() == 2 && self.has(pair.0) && self.has(pair.1)
    }

    pub fn count(self) -> u32 {
        self.0.count_ones()
    }

    /// The number to be given: the smallest that applies, or 0.
    pub fn smallest(self) -> u32 {
        (FIRST..=LAST).find(|&number| self.has(number)).unwrap_or(0)
    }

    fn set(&mut self, number: u32, holds: bool) {
        self.0 |= u8::from(holds) << (number - FIRST);
    }
}

/// The conditions that hold. An image without a whole trailer has no other fault than its length.
pub fn faults_of(image: &[u8]) -> Faults {
    let mut faults = Faults(0);
    faults.set(8, image.len() < SHORTEST || image.len() > LONGEST);
    let Some(trailer_start) = image.len().checked_sub(TRAILER_LENGTH) else {
        return faults;
    };
    let (body, trailer) = image.split_at(trailer_start);
    let (frame, offset) = (number_in(&trailer[..4]), number_in(&trailer[4..8]));
    let (count, edition) = (number_in(&trailer[8..10]), number_in(&trailer[10..]));
    faults.set(9, edition != 1);
    faults.set(10, count == 0 || count > 16);
    faults.set(11, offset + 8 * count + 12 != image.len() as u64);
    faults.set(12, frame == 0 || frame > 1_000_000);
    let places = entry_places(body, offset as usize, count as usize * ENTRY_LENGTH);
    let everywhere = |wrong: fn(u64, &[u8]) -> bool| {
        !places.is_empty() && places.iter().all(|entries| wrong(frame, entries))
    };
    faults.set(13, everywhere(some_guest_is_bad));
    faults.set(14, everywhere(shares_are_too_large));
    faults
}

/// With a wrong offset the entries may be meant to stand where it points or right before the trailer:
/// a fault of theirs counts only where it is found in both.
fn entry_places(body: &[u8], offset: usize, length: usize) -> Vec<&[u8]> {
    let before_trailer = body.len().checked_sub(length).map(|start| &body[start..]);
    let pointed_at = body.get(offset..offset + length);
    before_trailer.into_iter().chain(pointed_at).collect()
}

fn some_guest_is_bad(frame: u64, entries: &[u8]) -> bool {
    guests(entries).any(|(budget, period)| {
        budget < 1 || budget > period || period == 0 || !frame.is_multiple_of(period)
    })
}

/// A period of 0 has no share; its guest is bad, and adds nothing here.
fn shares_are_too_large(frame: u64, entries: &[u8]) -> bool {
    let share = |(budget, period): (u64, u64)| budget * frame.checked_div(period).unwrap_or(0);
    guests(entries)
        .map(|guest| u128::from(share(guest)))
        .sum::<u128>()
        > u128::from(frame)
}

fn guests(entries: &[u8]) -> impl Iterator<Item = (u64, u64)> + '_ {
    let pair = |entry: &[u8]| (number_in(&entry[..4]), number_in(&entry[4..]));
    entries.chunks_exact(ENTRY_LENGTH).map(pair)
}

/// Little-endian: the last byte weighs most.
fn number_in(bytes: &[u8]) -> u64 {
    bytes
        .iter()
        .rev()
        .fold(0, |sum, byte| sum * 256 + u64::from(*byte))
}
