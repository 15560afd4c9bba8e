//! Holds the program's output for one script to the second implementation's, and tells where they differ first.

use std::fs;
use std::path::Path;

use super::case::Case;
use super::child::{self, Words};

/// Where a script is kept that the two programs differ on.
const FOLDER: &str = "target";
/// Enough of a wrong output that is too long to show its first line too many.
pub const MORE_OUTPUT: usize = 4_096;
const MOST_SHOWN: usize = 200;

/// The output that both give, or what is wrong.
pub fn output(program: Words, case: &Case) -> Result<Vec<u8>, String> {
    let expected = second::program::listing(&case.script);
    match agree(program, case, &expected) {
        Ok(()) => Ok(expected),
        Err(reason) => Err(format!(
            "script {}: {reason}\n{}",
            case.name,
            keep(&case.name, &case.script)
        )),
    }
}

/// A read that fails counts as the end of the input, and no input is refusal 16.
pub fn unreadable_input(program: Words) -> Result<(), String> {
    let expected = b"! 16\n";
    child::run_on_unreadable_input(program, expected.len() + MORE_OUTPUT)
        .and_then(|ending| same(&ending, expected))
        .map_err(|reason| format!("input that cannot be read: {reason}"))
}

fn agree(program: Words, case: &Case, expected: &[u8]) -> Result<(), String> {
    let ending = child::run(program, &case.script, expected.len() + MORE_OUTPUT)?;
    same(&ending, expected)?;
    if !case.known.holds_for(expected) {
        return Err("both print the same, but not what is known of this script".to_string());
    }
    Ok(())
}

/// That the program printed what is expected and ended well.
pub fn same(ending: &child::Ending, expected: &[u8]) -> Result<(), String> {
    let child::Ending { output, status } = ending;
    if output != expected {
        let place = first_difference(output, expected);
        return Err(format!("{place}\n  the program ended with {status}"));
    }
    if !status.success() {
        return Err(format!(
            "the output agrees, but the program ended with {status}"
        ));
    }
    Ok(())
}

fn first_difference(given: &[u8], expected: &[u8]) -> String {
    let (given, expected) = (lines(given), lines(expected));
    let is_same = |&place: &usize| given.get(place) == expected.get(place);
    let place = (0..).take_while(is_same).count();
    format!(
        "the outputs differ from line {} on\n  the program: {}\n  the second implementation: {}",
        place + 1,
        shown(given.get(place)),
        shown(expected.get(place))
    )
}

fn lines(output: &[u8]) -> Vec<&[u8]> {
    output.split_inclusive(|&byte| byte == b'\n').collect()
}

/// With its line feed and other bytes that one does not see made visible.
fn shown(line: Option<&&[u8]>) -> String {
    let Some(line) = line else {
        return "no line".to_string();
    };
    format!("\"{}\"", line[..line.len().min(MOST_SHOWN)].escape_ascii())
}

fn keep(name: &str, script: &[u8]) -> String {
    let path = Path::new(FOLDER).join(format!("differs_{name}.txt"));
    match fs::create_dir_all(FOLDER).and_then(|()| fs::write(&path, script)) {
        Ok(()) => format!("  the script is in {}", path.display()),
        Err(error) => format!(
            "  the script could not be written to {}: {error}",
            path.display()
        ),
    }
}
