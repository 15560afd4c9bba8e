//! Images built on purpose: given a set of refusals, one in which the conditions of all of them hold.
//! What else may be wrong with it never comes before the smallest of the set.

use crate::draft::{
    entry_bytes, room_in_front, Draft, Entry, ENTRY_LENGTH, LONGEST, TRAILER_LENGTH,
};
use crate::faults::Faults;
use crate::random::Random;
use crate::tables;

pub fn build(random: &mut Random, wanted: Faults) -> Box<[u8]> {
    let entries_matter = wanted.has(13) || wanted.has(14);
    let may_be_short = wanted.has(8) && (wanted.has(10) || wanted.has(11)) && !entries_matter;
    let mut draft = if may_be_short && random.one_in(2) {
        too_short(random, wanted)
    } else {
        with_entries(random, wanted)
    };
    if wanted.has(9) {
        draft.edition = wrong_edition(random);
    }
    if wanted.has(11) {
        draft.offset = if entries_matter {
            offset_of_others(random, &draft)
        } else {
            wrong_offset(random, draft.offset)
        };
    }
    draft.image()
}

/// A trailer with fewer bytes in front than one entry has, so that the count or the offset is wrong too.
fn too_short(random: &mut Random, wanted: Faults) -> Draft {
    let length = random.length(0, ENTRY_LENGTH - 1);
    let mut draft = Draft::new(random.bytes(length), Vec::new(), frame_for(random, wanted));
    if !wanted.has(10) {
        draft.guest_count = random.between(1, 16) as u16;
    }
    draft
}

fn with_entries(random: &mut Random, wanted: Faults) -> Draft {
    let frame = frame_for(random, wanted);
    let entries = entries_for(random, wanted, frame);
    let front = front_for(random, wanted, &entries);
    Draft::new(front, entries, frame)
}

fn frame_for(random: &mut Random, wanted: Faults) -> u32 {
    const TOO_LONG: [u32; 5] = [1_000_001, 1_000_008, 0x8000_0000, 0xFFFF_0000, u32::MAX];
    if !wanted.has(12) {
        return good_frame(random, wanted);
    }
    // No share is more than a frame of 0, so refusal 14 needs the other way.
    if !wanted.has(14) && random.one_in(2) {
        return 0;
    }
    let near_a_good_one = good_frame(random, wanted) + (1 << random.between(20, 31));
    let any = random.between(1_000_001, u32::MAX);
    let chosen = random.pick(&TOO_LONG);
    random.pick(&[chosen, near_a_good_one, any])
}

fn entries_for(random: &mut Random, wanted: Faults, frame: u32) -> Vec<Entry> {
    // A table for another frame serves for 0, which every period divides.
    let table_frame = if frame == 0 {
        good_frame(random, wanted)
    } else {
        frame
    };
    let count = if wanted.has(10) {
        wrong_count(random, wanted)
    } else {
        legal_count(random, wanted)
    };
    let mut entries = match count {
        0 => Vec::new(),
        _ if wanted.has(14) => tables::guests_beyond(random, table_frame, count),
        _ => tables::guests_within(random, table_frame, count),
    };
    if wanted.has(13) {
        let place = random.length(0, entries.len());
        entries.insert(place, tables::bad_guest(random, frame));
    }
    entries
}

/// For too many guests, a frame in which each of them finds a part.
fn good_frame(random: &mut Random, wanted: Faults) -> u32 {
    tables::good_frame(random, if wanted.has(10) { 10_000 } else { 1 })
}

/// How many good guests there are in a legal number: two pass the frame, and a bad guest may stand alone.
fn legal_count(random: &mut Random, wanted: Faults) -> usize {
    let bad_guests = usize::from(wanted.has(13));
    let least = if wanted.has(14) { 2 } else { 1 - bad_guests };
    random.length(least, 16 - bad_guests)
}

/// 0, or 17 and more; some with a low byte that would do. 8,189 leave room for one bad guest more.
fn wrong_count(random: &mut Random, wanted: Faults) -> usize {
    let none_will_do = !wanted.has(13) && !wanted.has(14);
    if none_will_do && random.one_in(2) {
        return 0;
    }
    let near = random.length(17, 40);
    let low_byte_will_do = 256 * random.length(1, 4) + random.length(1, 16);
    let many = random.pick(&[4_096, 8_189]);
    random.pick(&[17, 17, near, near, low_byte_will_do, low_byte_will_do, many])
}

fn front_for(random: &mut Random, wanted: Faults, entries: &[Entry]) -> Vec<u8> {
    let room = room_in_front(entries.len());
    // For a wrong offset to point at: the same entries, as they stand before the trailer.
    let copy = entry_bytes(entries);
    let copies = if wanted.has(11) && copy.len() * 2 <= room {
        2
    } else {
        0
    };
    let length = if wanted.has(8) {
        let beyond = random.pick(&[1, 1, 2, 9, 1_000, LONGEST, 2 * LONGEST - 1]);
        room + beyond - copies * copy.len()
    } else {
        front_length(random, room - copies * copy.len())
    };
    // Without any entry, a trailer alone would be too short.
    let least = if entries.is_empty() { ENTRY_LENGTH } else { 0 };
    let mut front = random.bytes(length.max(least));
    front.extend(copy.repeat(copies));
    front
}

/// Nothing in front, a little, as much as there is room for, or anything up to that.
pub fn front_length(random: &mut Random, room: usize) -> usize {
    match random.length(0, 31) {
        0 => room,
        1 => random.length(0, room),
        2..=12 => 0,
        _ => random.length(0, room.min(40)),
    }
}

/// Not 1; some have a byte that is.
fn wrong_edition(random: &mut Random) -> u16 {
    let any = random.between(2, 0xFFFF) as u16;
    random.pick(&[0, 2, 0x0101, 0x0100, 0xFF01, 0xFFFF, any])
}

/// An offset that is not the right one: near it, with the same low bytes, or anything.
fn wrong_offset(random: &mut Random, right: u32) -> u32 {
    let tried = [
        0,
        right + 1,
        right.wrapping_sub(1),
        right + ENTRY_LENGTH as u32,
        right.wrapping_sub(ENTRY_LENGTH as u32),
        right + TRAILER_LENGTH as u32,
        right + (1 << random.between(16, 31)),
        u32::MAX,
        random.between(0, u32::MAX),
    ];
    let offset = random.pick(&tried);
    if offset == right {
        wrong_offset(random, right)
    } else {
        offset
    }
}

/// A wrong offset that leaves no doubt about the entries: at a copy of them, or far behind the image.
fn offset_of_others(random: &mut Random, draft: &Draft) -> u32 {
    let length = (draft.entries.len() * ENTRY_LENGTH) as u32;
    let has_copies = draft.front.ends_with(&entry_bytes(&draft.entries));
    if has_copies && random.one_in(2) {
        draft.offset - length * random.between(1, 2)
    } else {
        draft.offset + (1 << random.between(20, 31))
    }
}
