//! The table image: its bytes, each refusal of reading and writing, and the way there and back.

use second::image::{read, write, Part, Reading};
use second::table::{Entry, Table};

use crate::support::table;

/// (3, 4) and (2, 8) with H = 8, byte by byte.
const IMAGE: [u8; 28] = [
    3, 0, 0, 0, 4, 0, 0, 0, 2, 0, 0, 0, 8, 0, 0, 0, 8, 0, 0, 0, 0, 0, 0, 0, 2, 0, 1, 0,
];

struct Trailer {
    frame: u32,
    offset: u32,
    guest_count: u16,
    edition: u16,
}

fn image(front: usize, entries: &[(u32, u32)], trailer: Trailer) -> Vec<u8> {
    let mut image = vec![0xA5; front];
    for (budget, period) in entries {
        image.extend(budget.to_le_bytes());
        image.extend(period.to_le_bytes());
    }
    image.extend(trailer.frame.to_le_bytes());
    image.extend(trailer.offset.to_le_bytes());
    image.extend(trailer.guest_count.to_le_bytes());
    image.extend(trailer.edition.to_le_bytes());
    image
}

/// An image whose trailer fits its front and its entries.
fn fitting(front: usize, frame: u32, entries: &[(u32, u32)]) -> Vec<u8> {
    let trailer = Trailer {
        frame,
        offset: front as u32,
        guest_count: entries.len() as u16,
        edition: 1,
    };
    image(front, entries, trailer)
}

fn reading_is_refused(image: &[u8], number: u32) {
    let answer = read(image);
    assert_eq!((answer.refusal, answer.value), (number, Reading::default()));
}

#[test]
fn reads_the_bytes() {
    let answer = read(&IMAGE);
    assert_eq!(answer.refusal, 0);
    assert_eq!(answer.value.table, table(8, &[(3, 4), (2, 8)]));
    let entries = Part {
        offset: 0,
        length: 16,
    };
    assert_eq!(answer.value.entries, entries);
}

#[test]
fn anything_may_come_first() {
    for front in [1, 5, 8, 1000] {
        let answer = read(&fitting(front, 8, &[(3, 4), (2, 8)]));
        let entries = Part {
            offset: front,
            length: 16,
        };
        assert_eq!((answer.refusal, answer.value.entries), (0, entries));
        assert_eq!(answer.value.table, table(8, &[(3, 4), (2, 8)]));
    }
}

#[test]
fn image_length() {
    for length in [0, 1, 11, 12, 19, 65_537, 70_000] {
        reading_is_refused(&vec![0; length], 8);
    }
    assert_eq!(read(&fitting(0, 8, &[(3, 4)])).refusal, 0);
    let longest = fitting(65_516, 8, &[(3, 4)]);
    assert_eq!((longest.len(), read(&longest).refusal), (65_536, 0));
    reading_is_refused(&fitting(65_517, 8, &[(3, 4)]), 8);
    reading_is_refused(&[0; 20], 9);
    reading_is_refused(&vec![0; 65_536], 9);
}

#[test]
fn edition() {
    for edition in [0, 2, 256, 257, 65_535] {
        let trailer = Trailer {
            frame: 8,
            offset: 0,
            guest_count: 1,
            edition,
        };
        reading_is_refused(&image(0, &[(3, 4)], trailer), 9);
    }
}

#[test]
fn number_of_guests() {
    reading_is_refused(&fitting(8, 16, &[]), 10);
    reading_is_refused(&fitting(0, 17, &[(1, 17); 17]), 10);
    assert_eq!(read(&fitting(0, 16, &[(1, 16); 16])).refusal, 0);
    for guest_count in [0, 17, 256, 65_535] {
        let trailer = Trailer {
            frame: 8,
            offset: 0,
            guest_count,
            edition: 1,
        };
        reading_is_refused(&image(0, &[(3, 4)], trailer), 10);
    }
}

#[test]
fn offset() {
    for (front, offset) in [(0, 1), (1, 0), (5, 4), (5, 6), (0, u32::MAX), (8, 0)] {
        let trailer = Trailer {
            frame: 8,
            offset,
            guest_count: 1,
            edition: 1,
        };
        reading_is_refused(&image(front, &[(3, 4)], trailer), 11);
    }
}

#[test]
fn offset_is_not_taken_modulo_2_to_32() {
    // 2^32 - 120 + 8 x 16 + 12 is 20 modulo 2^32, and the image has 20 bytes.
    let trailer = Trailer {
        frame: 8,
        offset: u32::MAX - 119,
        guest_count: 16,
        edition: 1,
    };
    reading_is_refused(&image(0, &[(3, 4)], trailer), 11);
}

#[test]
fn bad_tables() {
    reading_is_refused(&fitting(0, 0, &[(3, 4)]), 12);
    reading_is_refused(&fitting(0, 1_000_001, &[(1, 1)]), 12);
    assert_eq!(read(&fitting(0, 1_000_000, &[(1, 1)])).refusal, 0);
    reading_is_refused(&fitting(0, 8, &[(1, 3)]), 13);
    reading_is_refused(&fitting(0, 8, &[(0, 4)]), 13);
    reading_is_refused(&fitting(0, 8, &[(5, 4)]), 13);
    reading_is_refused(&fitting(0, 8, &[(1, 0)]), 13);
    reading_is_refused(&fitting(0, 8, &[(1, 8), (u32::MAX, u32::MAX)]), 13);
    reading_is_refused(&fitting(7, 8, &[(3, 4), (3, 8)]), 14);
}

#[test]
fn reading_gives_the_smallest_number() {
    let read_with = |edition, guest_count, offset, frame, entry| {
        let trailer = Trailer {
            frame,
            offset,
            guest_count,
            edition,
        };
        read(&image(0, &[entry, entry], trailer)).refusal
    };
    assert_eq!(read(&[0; 19]).refusal, 8);
    assert_eq!(read_with(2, 0, 9, 0, (0, 4)), 9);
    assert_eq!(read_with(1, 0, 9, 0, (0, 4)), 10);
    assert_eq!(read_with(1, 2, 9, 0, (0, 4)), 11);
    assert_eq!(read_with(1, 2, 0, 0, (0, 4)), 12);
    assert_eq!(read_with(1, 2, 0, 8, (0, 4)), 13);
    assert_eq!(read_with(1, 2, 0, 8, (3, 4)), 14);
    assert_eq!(read_with(1, 2, 0, 8, (2, 4)), 0);
}

#[test]
fn writes_the_bytes_and_leaves_those_behind() {
    let mut buffer = [0x5A; 33];
    assert_eq!(write(&table(8, &[(3, 4), (2, 8)]), &mut buffer), 0);
    assert_eq!(buffer[..28], IMAGE);
    assert_eq!(buffer[28..], [0x5A; 5]);
}

#[test]
fn writes_every_byte_of_great_numbers() {
    // 1,000,000 is 0x0F4240 and 999,999 is 0x0F423F.
    let mut buffer = [0; 20];
    assert_eq!(
        write(&table(1_000_000, &[(999_999, 1_000_000)]), &mut buffer),
        0
    );
    let expected = [
        0x3F, 0x42, 0x0F, 0, 0x40, 0x42, 0x0F, 0, 0x40, 0x42, 0x0F, 0, 0, 0, 0, 0, 1, 0, 1, 0,
    ];
    assert_eq!(buffer, expected);
}

fn writing_is_refused(table: &Table, length: usize, number: u32) {
    let mut buffer = vec![0x5A; length];
    assert_eq!(write(table, &mut buffer), number);
    assert_eq!(buffer, vec![0x5A; length]);
}

#[test]
fn writing_refusals() {
    let mut unused = table(8, &[(3, 4)]);
    unused.entries[15] = Entry {
        budget: 1,
        period: 8,
    };
    for length in [0, 19, 200] {
        writing_is_refused(&table(8, &[]), length, 10);
        writing_is_refused(&table(0, &[(3, 4)]), length, 12);
        writing_is_refused(&table(1_000_001, &[(1, 1)]), length, 12);
        writing_is_refused(&table(8, &[(1, 3)]), length, 13);
        writing_is_refused(&table(8, &[(1 << 32 | 3, 4)]), length, 13);
        writing_is_refused(&unused, length, 13);
        writing_is_refused(&table(8, &[(3, 4), (3, 8)]), length, 14);
    }
}

#[test]
fn write_buffer_too_short() {
    for length in [0, 1, 27] {
        writing_is_refused(&table(8, &[(3, 4), (2, 8)]), length, 15);
    }
    writing_is_refused(&table(16, &[(1, 16); 16]), 139, 15);
    assert_eq!(write(&table(16, &[(1, 16); 16]), &mut [0; 140]), 0);
    assert_eq!(write(&table(8, &[(3, 4), (2, 8)]), &mut [0; 28]), 0);
}

#[test]
fn there_and_back() {
    let mut again = [0xFF; 28];
    assert_eq!(write(&read(&IMAGE).value.table, &mut again), 0);
    assert_eq!(again, IMAGE);
}
