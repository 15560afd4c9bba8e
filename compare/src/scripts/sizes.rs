//! Scripts about the size limit: some bytes below it and above it, with good and bad content, in short lines and in a very long one.

use super::case::{Case, Known};

const MOST_INPUT: usize = 65_536;
const TABLE: &str = "F 8\nG 3 4\nG 2 8\n";
const LENGTHS: std::ops::RangeInclusive<usize> = MOST_INPUT - 1..=MOST_INPUT + 2;

pub fn all() -> Vec<Case> {
    let mut cases: Vec<Case> = LENGTHS.flat_map(of_length).collect();
    cases.extend(far_too_long());
    cases.extend(bad_and_almost_full());
    cases
}

/// Too much input is refused before anything is printed, and whatever it has in it.
fn case(name: String, script: Vec<u8>, known: Known) -> Case {
    let known = if script.len() > MOST_INPUT {
        Known::Whole(b"! 16\n".to_vec())
    } else {
        known
    };
    Case {
        name,
        script,
        known,
    }
}

fn of_length(length: usize) -> Vec<Case> {
    let still = filled(TABLE, "R 0\n", length);
    let running = filled(&format!("{TABLE}A 0\nA 1\n"), "R 1\n", length);
    let (mut bad_end, mut bad_start) = (running.clone(), running.clone());
    bad_end[length - 1] = b'?';
    bad_start[0] = b'f';
    let bad_table = filled("F 8\nG 3 4\nG 3 8\n", "R 0\n", length);
    let long_line = [b"F 8\nG 3 4\nR ".to_vec(), vec![b'1'; length - 12]].concat();
    let named = |kind: &str, script, known| case(format!("size_{length}_{kind}"), script, known);
    vec![
        named("still", still, Known::End),
        named("running", running, Known::End),
        named("bad_end", bad_end, Known::Stop(16)),
        named("bad_start", bad_start, Known::Stop(16)),
        named("bad_table", bad_table, Known::Stop(14)),
        named("long_line", long_line, Known::Stop(16)),
        named(
            "no_guest",
            filled("F 8\n", "R 0\n", length),
            Known::Stop(10),
        ),
        named("line_feeds", vec![b'\n'; length], Known::Stop(16)),
        named("zero_bytes", vec![0; length], Known::Stop(16)),
    ]
}

/// The front and as many lines of 4 bytes as there is room for; up to three of them have a digit more, to get the length right.
fn filled(front: &str, line: &str, length: usize) -> Vec<u8> {
    let room = length - front.len();
    let longer = room % line.len();
    let lines = room / line.len() - longer;
    [front, &line.repeat(lines), &"R 10\n".repeat(longer)]
        .concat()
        .into_bytes()
}

/// More than a pipe holds, so that a program that stops reading leaves bytes behind.
fn far_too_long() -> Vec<Case> {
    let kinds = [("good", TABLE, "R 1\n"), ("bad", "?\n", "????")];
    let scripts = kinds.map(|(kind, front, line)| {
        let script = filled(front, line, 1_000_000);
        case(format!("size_1000000_{kind}"), script, Known::Nothing)
    });
    scripts.into()
}

/// Much input that is refused at its first or at its last line.
fn bad_and_almost_full() -> Vec<Case> {
    let named = |kind: &str, script: String, known| {
        let name = format!("size_almost_full_{kind}");
        case(name, script.into_bytes(), known)
    };
    let running = format!("{TABLE}A 1\n{}", "R 1\n".repeat(16_000));
    let guests = format!("F 8\n{}", "G 1 8\n".repeat(10_000));
    let first_number = format!("F {}\nG 3 4\n", "8".repeat(65_000));
    let many_numbers = format!("{TABLE}R 1\nR{}\n", " 1".repeat(32_000));
    vec![
        named("malformed_end", format!("{running}R 01\n"), Known::Stop(16)),
        named("no_line_feed", format!("{running}R 1"), Known::Stop(16)),
        named("guests", guests, Known::Stop(10)),
        named("first_number", first_number, Known::Stop(16)),
        named("many_numbers", many_numbers, Known::Stop(16)),
        named("spaces", " ".repeat(65_000), Known::Stop(16)),
    ]
}
