//! The inputs that are kept as files: the worked listing with its output, the corpus, whose names tell the last line, and others.

use std::fs;
use std::path::{Path, PathBuf};

use super::case::{Case, Known};

const LISTING: &str = "examples/listing.txt";
const LISTING_OUTPUT: &str = "examples/listing.expected";
const CORPUS: &str = "corpus";
/// So that a corpus that was not found, or only in part, is seen.
const LEAST_FILES: usize = 320;

pub fn listing() -> Result<Case, String> {
    Ok(Case {
        name: "listing".to_string(),
        script: read(Path::new(LISTING))?,
        known: Known::Whole(read(Path::new(LISTING_OUTPUT))?),
    })
}

pub fn corpus() -> Result<Vec<Case>, String> {
    let paths = all_in(Path::new(CORPUS))?;
    if paths.len() < LEAST_FILES {
        return Err(format!("{CORPUS} has only {} files", paths.len()));
    }
    paths.iter().map(|path| case(path)).collect()
}

/// In the order of their names, whatever order the folder has; without what is in folders below it.
pub fn all_in(folder: &Path) -> Result<Vec<PathBuf>, String> {
    let mut paths = paths(folder).map_err(|error| format!("{}: {error}", folder.display()))?;
    paths.retain(|path| path.is_file());
    paths.sort();
    Ok(paths)
}

fn paths(folder: &Path) -> std::io::Result<Vec<PathBuf>> {
    fs::read_dir(folder)?
        .map(|entry| entry.map(|entry| entry.path()))
        .collect()
}

fn case(path: &Path) -> Result<Case, String> {
    let name = path.file_stem().unwrap_or_default().to_string_lossy();
    let known =
        known(&name).ok_or_else(|| format!("{}: the name tells no last line", path.display()))?;
    Ok(Case {
        name: name.to_string(),
        script: read(path)?,
        known,
    })
}

fn known(name: &str) -> Option<Known> {
    match name.split('_').collect::<Vec<_>>()[..] {
        ["end", _, ..] => Some(Known::End),
        ["stop", number, _, ..] => number.parse().ok().map(Known::Stop),
        _ => None,
    }
}

pub fn read(path: &Path) -> Result<Vec<u8>, String> {
    fs::read(path).map_err(|error| format!("{}: {error}", path.display()))
}
