//! The program: from the bytes of its input to the bytes of its listing.

use std::io::Read;
use std::iter::Peekable;

use crate::refusal::Refusal;
use crate::state::{try_fresh, State};
use crate::steps::{advance_in_portions, arrive, done, Ask, Portion, Source};
use crate::table::{Entry, Table};

pub const MOST_INPUT: usize = 65_536;

const MOST_DIGITS: usize = 13;

/// A well-formed line.
enum Line {
    Frame(u64),
    Guest(Entry),
    Arrive(u64),
    Done(u64),
    Advance(u64),
}

/// Reads the input up to its end, up to a failing read, or up to one byte more than is allowed:
/// that byte is enough to tell that there is too much.
pub fn read_input(source: impl Read) -> Vec<u8> {
    let mut input = Vec::new();
    // The bytes that came before a failing read stay, and the failure counts as the end.
    let _ = source.take(MOST_INPUT as u64 + 1).read_to_end(&mut input);
    input
}

/// The whole output for an input.
pub fn listing(input: &[u8]) -> Vec<u8> {
    let mut output = Vec::new();
    run(input, &mut |line| output.extend_from_slice(line));
    output
}

/// Carries out an input and prints each line of the output as soon as it is known, because a
/// listing may be longer than memory has room for.
pub fn run(input: &[u8], print: &mut dyn FnMut(&[u8])) {
    if let Err(refusal) = carry_out(input, print) {
        print_refusal(refusal.number(), print);
    }
}

/// An error stops the program.
fn carry_out(input: &[u8], print: &mut dyn FnMut(&[u8])) -> Result<(), Refusal> {
    if input.len() > MOST_INPUT {
        return Err(Refusal::MalformedInput);
    }
    let mut lines = input.split_inclusive(|&byte| byte == b'\n').peekable();
    let table = take_table(&mut lines)?;
    let mut state = try_fresh(&table)?;
    for line in lines {
        let refusal = carry_out_line(line, &mut state, print)?;
        if refusal != 0 {
            print_refusal(refusal, print);
        }
    }
    print(format!("end {}\n", state.now).as_bytes());
    Ok(())
}

fn print_refusal(number: u32, print: &mut dyn FnMut(&[u8])) {
    print(format!("! {number}\n").as_bytes());
}

/// Takes the first line and the well-formed guest lines; the line behind them is not looked at
/// before the table is checked.
fn take_table<'input>(
    lines: &mut Peekable<impl Iterator<Item = &'input [u8]>>,
) -> Result<Table, Refusal> {
    let Some(Line::Frame(frame)) = lines.next().and_then(well_formed) else {
        return Err(Refusal::MalformedInput);
    };
    let mut table = Table {
        frame,
        ..Table::default()
    };
    while let Some(Line::Guest(entry)) = lines.peek().copied().and_then(well_formed) {
        lines.next();
        // A guest too many has no place; the count alone has the table refused.
        if let Some(place) = table.entries.get_mut(table.guest_count as usize) {
            *place = entry;
        }
        table.guest_count += 1;
    }
    Ok(table)
}

/// Gives the call's refusal number or 0; an error is a line that stops the program.
fn carry_out_line(
    line: &[u8],
    state: &mut State,
    print: &mut dyn FnMut(&[u8]),
) -> Result<u32, Refusal> {
    match well_formed(line) {
        Some(Line::Arrive(guest)) => Ok(arrive(state, guest)),
        Some(Line::Done(guest)) => Ok(done(state, guest)),
        Some(Line::Advance(ticks)) => Ok(advance_in_portions(state, ticks, |portion| {
            print(portion_line(&portion).as_bytes());
        })),
        Some(Line::Frame(_) | Line::Guest(_)) | None => Err(Refusal::MalformedInput),
    }
}

fn portion_line(portion: &Portion) -> String {
    let Portion { first, end, answer } = portion;
    match answer {
        Ask::Run { guest, source, .. } => match source {
            Source::Own => format!("{first} {end} {guest} {guest}o\n"),
            Source::Spare { owner } => format!("{first} {end} {guest} {owner}s\n"),
        },
        Ask::Burn { owner, .. } => format!("{first} {end} - {owner}s\n"),
        Ask::Nothing => format!("{first} {end} - -\n"),
    }
}

fn well_formed(line: &[u8]) -> Option<Line> {
    let (letter, rest) = line.strip_suffix(b"\n")?.split_first()?;
    match (letter, numbers(rest)?.as_slice()) {
        (b'F', &[frame]) => Some(Line::Frame(frame)),
        (b'G', &[budget, period]) => Some(Line::Guest(Entry { budget, period })),
        (b'A', &[guest]) => Some(Line::Arrive(guest)),
        (b'D', &[guest]) => Some(Line::Done(guest)),
        (b'R', &[ticks]) => Some(Line::Advance(ticks)),
        _ => None,
    }
}

/// Every letter has at least one number, so the rest starts with a space.
fn numbers(rest: &[u8]) -> Option<Vec<u64>> {
    rest.strip_prefix(b" ")?
        .split(|&byte| byte == b' ')
        .map(number)
        .collect()
}

fn number(digits: &[u8]) -> Option<u64> {
    let length_fits = (1..=MOST_DIGITS).contains(&digits.len());
    let leading_zero = digits.len() > 1 && digits[0] == b'0';
    if !length_fits || leading_zero || !digits.iter().all(u8::is_ascii_digit) {
        return None;
    }
    let value = digits
        .iter()
        .fold(0, |value, digit| value * 10 + u64::from(digit - b'0'));
    Some(value)
}
