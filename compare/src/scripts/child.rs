//! Runs the program as a child process: bytes to its standard input, bytes from its standard output, and no longer than a time limit.

use std::fs::File;
use std::io::{Read, Write};
use std::process::{Child, ChildStdin, ChildStdout, Command, ExitStatus, Stdio};
use std::sync::mpsc::{channel, Receiver};
use std::thread;
use std::time::{Duration, Instant};

const TIME_LIMIT: Duration = Duration::from_secs(20);
/// From the end of its output to its own end a program needs some microseconds.
const BETWEEN_LOOKS: Duration = Duration::from_micros(100);

/// What starts a program: its name, or an emulator's words and then its name. There is one at least.
pub type Words<'a> = &'a [&'a str];

pub struct Ending {
    pub output: Vec<u8>,
    pub status: ExitStatus,
}

/// Output behind the given number of bytes is not taken, so that a program that never stops printing fills no memory.
pub fn run(program: Words, script: &[u8], most_output: usize) -> Result<Ending, String> {
    let mut child = start(program, Stdio::piped())?;
    if let Some(input) = child.stdin.take() {
        feed(input, script.to_vec());
    }
    finish(child, most_output)
}

/// A folder can be opened, but reading from it fails.
pub fn run_on_unreadable_input(program: Words, most_output: usize) -> Result<Ending, String> {
    let folder = File::open(".").map_err(|error| format!("no folder to read from: {error}"))?;
    finish(start(program, folder.into())?, most_output)
}

fn start(program: Words, input: Stdio) -> Result<Child, String> {
    Command::new(program[0])
        .args(&program[1..])
        .stdin(input)
        .stdout(Stdio::piped())
        .spawn()
        .map_err(|error| format!("{} could not be started: {error}", program.join(" ")))
}

/// In a thread of its own: with both pipes full, the program and this one would wait for each other.
fn feed(mut input: ChildStdin, script: Vec<u8>) {
    thread::spawn(move || {
        // The program need not read all of an input that is too long, so a closed pipe is no failure.
        let _ = input.write_all(&script);
    });
}

fn collect(output: ChildStdout, most: usize) -> Receiver<Vec<u8>> {
    let (sender, receiver) = channel();
    thread::spawn(move || {
        let mut bytes = Vec::new();
        // What came before a failing read is compared, and differs; without a receiver the time is up.
        let _ = output.take(most as u64).read_to_end(&mut bytes);
        let _ = sender.send(bytes);
    });
    receiver
}

fn finish(mut child: Child, most_output: usize) -> Result<Ending, String> {
    let end = Instant::now() + TIME_LIMIT;
    let Some(output) = child.stdout.take().map(|pipe| collect(pipe, most_output)) else {
        return Err("the program has no output pipe".to_string());
    };
    let ending = ending_before(end, &mut child, &output);
    if ending.is_none() {
        // Both fail only where the child has just ended by itself.
        let _ = child.kill();
        let _ = child.wait();
    }
    ending.ok_or_else(|| format!("the program took longer than {} s", TIME_LIMIT.as_secs()))
}

fn ending_before(end: Instant, child: &mut Child, output: &Receiver<Vec<u8>>) -> Option<Ending> {
    let left = end.saturating_duration_since(Instant::now());
    let output = output.recv_timeout(left).ok()?;
    while Instant::now() < end {
        if let Some(status) = child.try_wait().ok()? {
            return Some(Ending { output, status });
        }
        thread::sleep(BETWEEN_LOOKS);
    }
    None
}
