//! The files that this program writes into the crates, and whether the stored ones are the same.

use std::fs;
use std::io;
use std::path::Path;

use crate::programs::{self, lessons};
use crate::vectors;

/// A file by its path below `crates/`.
pub struct Stored {
    pub path: String,
    pub bytes: Vec<u8>,
}

impl Stored {
    pub fn new(path: String, bytes: Vec<u8>) -> Stored {
        Stored { path, bytes }
    }
}

fn files() -> Vec<Stored> {
    let mut files = vectors::files();
    files.extend(programs::files());
    files
}

/// Writes every file, and removes those that are no longer written.
pub fn write(crates: &Path) -> io::Result<String> {
    let files = files();
    for file in &files {
        let path = crates.join(&file.path);
        if let Some(folder) = path.parent() {
            fs::create_dir_all(folder)?;
        }
        fs::write(path, &file.bytes)?;
    }
    for path in stale(crates, &files)? {
        fs::remove_file(crates.join(path))?;
    }
    Ok(format!("{} files written", files.len()))
}

/// Fails with the first file that is not, byte for byte, what would be written.
pub fn check(crates: &Path) -> Result<String, String> {
    let files = files();
    for Stored { path, bytes } in &files {
        let stored = fs::read(crates.join(path)).map_err(|error| format!("{path}: {error}"))?;
        if stored != *bytes {
            return Err(format!("{path}: not what this program writes"));
        }
    }
    if let Some(path) = lessons::without_trace(&files) {
        return Err(format!("{path}: has no trace beside it"));
    }
    let stale = stale(crates, &files).map_err(|error| error.to_string())?;
    match stale.first() {
        Some(path) => Err(format!("{path}: not one of the files of this program")),
        None => Ok(format!(
            "{} files are what this program writes",
            files.len()
        )),
    }
}

/// The vector files that this program wrote, and that are not among these files.
fn stale(crates: &Path, files: &[Stored]) -> io::Result<Vec<String>> {
    let mut found = Vec::new();
    for entry in fs::read_dir(crates.join(vectors::FOLDER))? {
        let entry = entry?;
        let path = format!(
            "{}/{}",
            vectors::FOLDER,
            entry.file_name().to_string_lossy()
        );
        let among = files.iter().any(|file| file.path == path);
        if !among && vectors::is_written(&fs::read(entry.path())?) {
            found.push(path);
        }
    }
    found.sort();
    Ok(found)
}
