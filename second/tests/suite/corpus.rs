//! The files of corpus/: their names, their sizes, and the last line of each, which the name's start tells.

use std::collections::HashSet;
use std::fs::{read, read_dir};
use std::path::PathBuf;

use second::program::listing;

const FOLDER: &str = concat!(env!("CARGO_MANIFEST_DIR"), "/../corpus");
const LEAST_FILES: usize = 320;
const MOST_BYTES: usize = 3_000;

/// Name without its ending, and content.
fn files() -> Vec<(String, Vec<u8>)> {
    read_dir(FOLDER)
        .unwrap()
        .map(|entry| {
            let path: PathBuf = entry.unwrap().path();
            assert_eq!(path.extension().unwrap(), "txt");
            let name = path.file_stem().unwrap().to_str().unwrap().to_string();
            (name, read(&path).unwrap())
        })
        .collect()
}

/// The content of one file.
pub fn script(name: &str) -> Vec<u8> {
    read(format!("{FOLDER}/{name}.txt")).unwrap()
}

#[test]
fn names_and_sizes() {
    let files = files();
    assert!(files.len() >= LEAST_FILES);
    for (name, content) in files {
        let plain = |byte: u8| byte.is_ascii_lowercase() || byte.is_ascii_digit() || byte == b'_';
        assert!(name.bytes().all(plain), "{name}");
        assert!(content.len() <= MOST_BYTES, "{name}");
    }
}

#[test]
fn no_file_twice() {
    let mut seen = HashSet::new();
    for (name, content) in files() {
        assert!(seen.insert(content), "{name}");
    }
}

#[test]
fn last_line_is_the_one_that_the_name_tells() {
    for (name, content) in files() {
        let output = String::from_utf8(listing(&content)).unwrap();
        let last = output.lines().last().unwrap();
        let told = match name.strip_prefix("stop_") {
            Some(rest) => last == format!("! {}", rest.split('_').next().unwrap()),
            None => name.starts_with("end_") && last.starts_with("end "),
        };
        assert!(told, "{name}: {last}");
    }
}
