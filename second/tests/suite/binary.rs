//! The program as it is started: its arguments, standard input, standard output, too much input, failing reads.

use std::fs::File;
use std::io::Write;
use std::process::{Command, Output, Stdio};

fn program() -> Command {
    Command::new(env!("CARGO_BIN_EXE_second"))
}

fn start(input: &[u8]) -> Output {
    let mut child = program()
        .stdin(Stdio::piped())
        .stdout(Stdio::piped())
        .stderr(Stdio::piped())
        .spawn()
        .unwrap();
    // The program reads no further than it needs, so a long input may find its pipe closed.
    let _ = child.stdin.take().unwrap().write_all(input);
    child.wait_with_output().unwrap()
}

fn prints(input: &[u8], output: &str) {
    let outcome = start(input);
    assert_eq!(String::from_utf8(outcome.stdout).unwrap(), output);
    assert!(outcome.stderr.is_empty());
}

#[test]
fn listing() {
    prints(
        b"F 8\nG 3 4\nG 2 8\nA 0\nA 1\nR 2\nD 0\nR 2\nA 0\nR 4\nD 1\nD 0\nR 5\n",
        "0 2 0 0o\n2 3 1 0s\n3 4 1 1o\n4 7 0 0o\n7 8 1 1o\n8 11 - 0s\n11 13 - -\nend 13\n",
    );
}

#[test]
fn empty_input() {
    prints(b"", "! 16\n");
}

#[test]
fn most_input_and_one_byte_more() {
    let mut input = b"F 8\nG 3 4\nG 2 8\n".to_vec();
    input.extend(b"R 0\n".repeat(16_380));
    assert_eq!(input.len(), 65_536);
    prints(&input, "end 0\n");
    input.push(b'\n');
    prints(&input, "! 16\n");
    input.extend(vec![b'?'; 200_000]);
    prints(&input, "! 16\n");
}

#[test]
fn refusals_that_go_on_and_that_stop() {
    prints(b"F 8\nG 3 4\nA 1\nR 1\n?\n", "! 2\n0 1 - -\n! 16\n");
    prints(b"F 8\nG 1 3\nA 1\n", "! 13\n");
}

#[test]
fn standard_input_that_cannot_be_read() {
    // A folder can be opened, but reading from it fails.
    let folder = File::open(env!("CARGO_MANIFEST_DIR")).unwrap();
    let outcome = program().stdin(folder).output().unwrap();
    assert_eq!(outcome.stdout, b"! 16\n");
}

#[test]
fn border_pairs() {
    let outcome = program().arg("borders").output().unwrap();
    let expected = "17592185 ticks: 0 0 0 0\n17592186 ticks: 0 0 0 6\n\
                    image of 19 bytes: 8\nguest 16, state not sound: 1\n";
    assert_eq!(String::from_utf8(outcome.stdout).unwrap(), expected);
    assert_eq!(outcome.status.code(), Some(0));
}

#[test]
fn wrong_arguments() {
    for words in [vec!["border"], vec![""], vec!["borders", "borders"]] {
        let outcome = program().args(words).output().unwrap();
        assert_eq!(outcome.status.code(), Some(2));
        assert_eq!(outcome.stderr, b"usage: second [borders]\n");
        assert!(outcome.stdout.is_empty());
    }
}
