//! The functions under test on a machine that the archive can't be linked on: a program for x86-64 that is linked with it, `archive.c`,
//! is asked. Its words are the lines of LOMVADRIC_ARCHIVE_PROGRAM.

use std::cell::RefCell;
use std::env;
use std::io::{self, Read, Write};
use std::process::{Child, Command, Stdio};

use crate::scripts::child;
use crate::states::request::Request;
use crate::states::Told;

const WORDS: &str = "LOMVADRIC_ARCHIVE_PROGRAM";
/// The request for the check of an image alone.
const CHECK: u64 = 4;

thread_local! {
    /// Each thread asks a program of its own for image after image.
    static ASKED: RefCell<Option<Child>> = const { RefCell::new(None) };
}

/// What the archive's functions answer to the requests, by a program for them alone.
pub fn told(requests: &[Request], most: usize) -> Result<Told, String> {
    let named = env::var(WORDS).map_err(|error| format!("{WORDS}: {error}"))?;
    let words: Vec<&str> = named.lines().collect();
    let mut input = Vec::new();
    requests
        .iter()
        .for_each(|request| request.write(&mut input));
    Ok(child::run(&words, &input, most)?.into())
}

/// 0, or the refusal number that the archive gives. It stops this program where it says nothing.
pub fn check_image(image: &[u8]) -> u32 {
    let answer = ASKED.with_borrow_mut(|asked| ask(running(asked)?, image));
    answer.unwrap_or_else(|error| panic!("the archive does not answer: {error}"))
}

fn running(asked: &mut Option<Child>) -> io::Result<&mut Child> {
    if asked.is_none() {
        *asked = Some(start()?);
    }
    asked.as_mut().ok_or(io::ErrorKind::NotFound.into())
}

fn start() -> io::Result<Child> {
    let named = env::var(WORDS).unwrap_or_default();
    let mut words = named.lines();
    Command::new(words.next().unwrap_or_default())
        .args(words)
        .stdin(Stdio::piped())
        .stdout(Stdio::piped())
        .spawn()
}

fn ask(asked: &mut Child, image: &[u8]) -> io::Result<u32> {
    let (Some(input), Some(output)) = (&mut asked.stdin, &mut asked.stdout) else {
        return Err(io::ErrorKind::BrokenPipe.into());
    };
    input.write_all(&CHECK.to_le_bytes())?;
    input.write_all(&(image.len() as u64).to_le_bytes())?;
    input.write_all(image)?;
    let mut number = [0; 8];
    output.read_exact(&mut number)?;
    u32::try_from(u64::from_le_bytes(number)).map_err(io::Error::other)
}
