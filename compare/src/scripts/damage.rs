//! Damages a script in one place: one byte changed, taken out, put in, or all behind it cut off.

use second::state::END_OF_TIME;

use crate::random::Random;

/// What is taken for a letter, a digit, a space or a line feed by mistake, and these themselves.
const LIKELY_BYTES: &[u8] = b" \n\r\t\x000123456789FGADRfgadr+-./:x\xa0";
/// Beside a space or a line feed these make a form that tempts: two spaces, a line end of two bytes, a zero in front, a sign.
const BYTES_AT_SEPARATORS: &[u8] = b" \n\r\t\x000+-";
const MOST_TICKS: u64 = 20_000;

/// A digit more or less can make an advance that a tick-by-tick program does not finish; then another place is tried.
pub fn damaged(random: &mut Random, script: &[u8]) -> Vec<u8> {
    loop {
        let tried = change(random, script.to_vec());
        if ticks(&tried) <= MOST_TICKS {
            return tried;
        }
    }
}

fn change(random: &mut Random, mut script: Vec<u8>) -> Vec<u8> {
    let (place, byte) = if random.one_in(2) {
        let byte = random.pick(BYTES_AT_SEPARATORS);
        (separator(random, &script), byte)
    } else {
        let byte = random.pick(LIKELY_BYTES);
        (random.length(0, script.len() - 1), byte)
    };
    let byte = if random.one_in(8) {
        random.next() as u8
    } else {
        byte
    };
    match random.length(0, 7) {
        0..=2 => script[place] = byte,
        3..=5 => script.insert(place + random.length(0, 1), byte),
        6 => {
            script.remove(place);
        }
        _ => script.truncate(place),
    }
    script
}

/// The place of some space or line feed; each script has some.
fn separator(random: &mut Random, script: &[u8]) -> usize {
    let is_separator = |place: &usize| matches!(script[*place], b' ' | b'\n');
    let places: Vec<usize> = (0..script.len()).filter(is_separator).collect();
    random.pick(&places)
}

/// The ticks of all advances that are not past the end of time by themselves.
fn ticks(script: &[u8]) -> u64 {
    let numbers = script.split(|&byte| byte == b'\n').filter_map(|line| {
        std::str::from_utf8(line.strip_prefix(b"R ")?)
            .ok()?
            .parse()
            .ok()
    });
    numbers.filter(|&number: &u64| number <= END_OF_TIME).sum()
}
