//! Images that are not built for a set of refusals: good ones, changed ones, and ones that tempt a sum or a length to wrap.

use crate::draft::{room_in_front, Draft, ENTRY_LENGTH, LONGEST, SHORTEST, TRAILER_LENGTH};
use crate::purpose::front_length;
use crate::random::Random;
use crate::tables;

/// An image that is accepted.
pub fn good(random: &mut Random) -> Draft {
    let frame = tables::good_frame(random, 1);
    let most = random.length(1, 16);
    let entries = tables::guests_within(random, frame, most);
    let length = front_length(random, room_in_front(entries.len()));
    Draft::new(random.bytes(length), entries, frame)
}

/// A good image with 1 to 4 changes, most of them where a field stands.
pub fn changed(random: &mut Random) -> Box<[u8]> {
    let draft = good(random);
    let field_bytes = draft.entries.len() * ENTRY_LENGTH + TRAILER_LENGTH;
    let mut image = draft.image().into_vec();
    for _ in 0..random.length(1, 4) {
        let first = if random.one_in(4) {
            0
        } else {
            image.len().saturating_sub(field_bytes)
        };
        change(random, &mut image, first);
    }
    image.into_boxed_slice()
}

/// One byte, from the place `first` on, set, raised, lowered, flipped in a bit, put in or taken out.
fn change(random: &mut Random, image: &mut Vec<u8>, first: usize) {
    let place = random.length(first, image.len() - 1);
    let byte = image[place];
    match random.length(0, 9) {
        0..=2 => image[place] = random.next() as u8,
        3 | 4 => image[place] = byte.wrapping_add(1),
        5 | 6 => image[place] = byte.wrapping_sub(1),
        7 => image[place] = byte ^ (1 << random.length(0, 7)),
        8 => image.insert(place, byte),
        _ => {
            image.remove(place);
        }
    }
}

/// An offset so large that offset + 8n + 12, taken modulo 2^32, is the image's length: refusal 11.
/// The image is shorter than its entries would be; its frame may be bad, so that a check that
/// lets the offset pass mostly says 12.
pub fn wrapping(random: &mut Random) -> Box<[u8]> {
    let count = random.length(2, 16);
    let end_of_entries = count * ENTRY_LENGTH + TRAILER_LENGTH;
    let length = random.length(SHORTEST, end_of_entries - 1);
    let good_frame = tables::good_frame(random, 1);
    let frame = random.pick(&[good_frame, 0, 1_000_001]);
    let mut draft = Draft::new(random.bytes(length - TRAILER_LENGTH), Vec::new(), frame);
    draft.guest_count = count as u16;
    draft.offset = (length as u32).wrapping_sub(end_of_entries as u32);
    draft.image()
}

/// A good image followed by so many bytes that its length, taken modulo 2^16, is the good image's: refusal 8.
pub fn good_then_more(random: &mut Random) -> Box<[u8]> {
    let mut image = good(random).image().into_vec();
    let more = LONGEST * random.length(1, 2);
    image.extend(random.bytes(more));
    image.into_boxed_slice()
}

/// The same modulo 2^32: zeros that no one touches take no memory. None where there is no room for it.
pub fn good_then_four_gigabytes(random: &mut Random) -> Option<Box<[u8]>> {
    let image = good(random).image();
    let length = (1 << 32) + image.len();
    Vec::<u8>::new().try_reserve_exact(length).ok()?;
    let mut longer = vec![0; length].into_boxed_slice();
    longer[..image.len()].copy_from_slice(&image);
    Some(longer)
}
