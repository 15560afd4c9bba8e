//! An image by its fields, right or wrong, and the bytes that they make.

pub const TRAILER_LENGTH: usize = 12;
pub const ENTRY_LENGTH: usize = 8;
pub const SHORTEST: usize = 20;
pub const LONGEST: usize = 65_536;

/// One guest's Q and T.
#[derive(Clone, Copy)]
pub struct Entry {
    pub budget: u32,
    pub period: u32,
}

/// The fields in the order in which they stand in the image.
pub struct Draft {
    pub front: Vec<u8>,
    pub entries: Vec<Entry>,
    pub frame: u32,
    pub offset: u32,
    pub guest_count: u16,
    pub edition: u16,
}

impl Draft {
    /// A draft whose offset, count and edition are right for these entries.
    pub fn new(front: Vec<u8>, entries: Vec<Entry>, frame: u32) -> Draft {
        Draft {
            offset: front.len() as u32,
            guest_count: entries.len() as u16,
            edition: 1,
            front,
            entries,
            frame,
        }
    }

    /// The bytes in a place of exactly their size, so that valgrind sees a read past either end.
    pub fn image(&self) -> Box<[u8]> {
        let mut bytes = self.front.clone();
        bytes.extend(entry_bytes(&self.entries));
        bytes.extend(self.frame.to_le_bytes());
        bytes.extend(self.offset.to_le_bytes());
        bytes.extend(self.guest_count.to_le_bytes());
        bytes.extend(self.edition.to_le_bytes());
        bytes.into_boxed_slice()
    }
}

pub fn entry_bytes(entries: &[Entry]) -> Vec<u8> {
    let mut bytes = Vec::with_capacity(entries.len() * ENTRY_LENGTH);
    for entry in entries {
        bytes.extend(entry.budget.to_le_bytes());
        bytes.extend(entry.period.to_le_bytes());
    }
    bytes
}

/// How many bytes may stand in front of this many entries in an image of legal length.
pub fn room_in_front(entry_count: usize) -> usize {
    LONGEST - TRAILER_LENGTH - entry_count * ENTRY_LENGTH
}
