//! The table image: reading it from bytes and writing it into a lent buffer.

use crate::refusal::{number_of, Answer, Refusal};
use crate::table::{self, Entry, Table, MOST_GUESTS};

pub const SHORTEST_IMAGE: usize = 20;
pub const LONGEST_IMAGE: usize = 65_536;
pub const EDITION: u16 = 1;

const ENTRY_LENGTH: usize = 8;
const TRAILER_LENGTH: usize = 12;

/// A part of the caller's image.
#[derive(Clone, Copy, Debug, Default, PartialEq, Eq)]
pub struct Part {
    pub offset: usize,
    pub length: usize,
}

/// What was read: the table, and where its entries stand in the image.
#[derive(Clone, Copy, Debug, Default, PartialEq, Eq)]
pub struct Reading {
    pub table: Table,
    pub entries: Part,
}

struct Trailer {
    frame: u32,
    offset: u32,
    guest_count: u16,
    edition: u16,
}

/// Reads an image; refusals 8 to 14, with a table of zeros and the empty part at the front.
pub fn read(image: &[u8]) -> Answer<Reading> {
    Answer::from(try_read(image))
}

/// Writes 8n + 12 bytes at the buffer's front; refusals 10 and 12 to 15 change no byte.
pub fn write(table: &Table, buffer: &mut [u8]) -> u32 {
    number_of(try_write(table, buffer))
}

fn try_read(image: &[u8]) -> Result<Reading, Refusal> {
    if image.len() < SHORTEST_IMAGE || image.len() > LONGEST_IMAGE {
        return Err(Refusal::ImageLength);
    }
    let trailer = read_trailer(&image[image.len() - TRAILER_LENGTH..]);
    let entries = place_entries(&trailer, image.len())?;
    let bytes = &image[entries.offset..entries.offset + entries.length];
    let table = read_table(&trailer, bytes);
    table::accept(&table)?;
    Ok(Reading { table, entries })
}

fn read_trailer(bytes: &[u8]) -> Trailer {
    Trailer {
        frame: four_bytes(bytes, 0),
        offset: four_bytes(bytes, 4),
        guest_count: two_bytes(bytes, 8),
        edition: two_bytes(bytes, 10),
    }
}

fn place_entries(trailer: &Trailer, image_length: usize) -> Result<Part, Refusal> {
    if trailer.edition != EDITION {
        return Err(Refusal::Edition);
    }
    let guest_count = usize::from(trailer.guest_count);
    if guest_count == 0 || guest_count > MOST_GUESTS {
        return Err(Refusal::GuestCount);
    }
    let length = ENTRY_LENGTH * guest_count;
    // Added in 64 bits: the offset alone may be just below 2^32.
    let end = u64::from(trailer.offset) + (length + TRAILER_LENGTH) as u64;
    if end != image_length as u64 {
        return Err(Refusal::Offset);
    }
    let offset = trailer.offset as usize;
    Ok(Part { offset, length })
}

fn read_table(trailer: &Trailer, bytes: &[u8]) -> Table {
    let mut table = Table {
        frame: u64::from(trailer.frame),
        guest_count: u64::from(trailer.guest_count),
        ..Table::default()
    };
    for (entry, bytes) in table.entries.iter_mut().zip(bytes.chunks(ENTRY_LENGTH)) {
        *entry = Entry {
            budget: u64::from(four_bytes(bytes, 0)),
            period: u64::from(four_bytes(bytes, 4)),
        };
    }
    table
}

fn two_bytes(bytes: &[u8], at: usize) -> u16 {
    u16::from_le_bytes([bytes[at], bytes[at + 1]])
}

fn four_bytes(bytes: &[u8], at: usize) -> u32 {
    u32::from_le_bytes([bytes[at], bytes[at + 1], bytes[at + 2], bytes[at + 3]])
}

fn try_write(table: &Table, buffer: &mut [u8]) -> Result<(), Refusal> {
    table::accept(table)?;
    let image = image_of(table);
    let front = buffer
        .get_mut(..image.len())
        .ok_or(Refusal::BufferTooShort)?;
    front.copy_from_slice(&image);
    Ok(())
}

/// An accepted table's numbers are at most 1,000,000, so none is cut short here.
fn image_of(table: &Table) -> Vec<u8> {
    let mut image = Vec::new();
    for entry in &table.entries[..table.guest_count as usize] {
        image.extend((entry.budget as u32).to_le_bytes());
        image.extend((entry.period as u32).to_le_bytes());
    }
    let offset: u32 = 0;
    image.extend((table.frame as u32).to_le_bytes());
    image.extend(offset.to_le_bytes());
    image.extend((table.guest_count as u16).to_le_bytes());
    image.extend(EDITION.to_le_bytes());
    image
}
