//! What the commands share: the files that a path stands for, their bytes, and how far they are.
use std::fs;
use std::io::{IsTerminal, Read, Write};
use std::path::{Path, PathBuf};

/// One byte more than a file may have tells that it is too long.
pub const MOST_BYTES: u64 = 65_537;

/// The files that a path stands for: itself, or those of a folder and of the folders in it whose names end so, in their order.
pub fn files_under(path: &Path, only: &str, found: &mut Vec<PathBuf>) {
    let Ok(entries) = fs::read_dir(path) else {
        found.push(path.to_path_buf());
        return;
    };
    let mut paths: Vec<PathBuf> = entries.flatten().map(|entry| entry.path()).collect();
    paths.retain(|path| path.is_dir() || path.to_string_lossy().ends_with(only));
    paths.sort();
    for path in paths {
        files_under(&path, only, found);
    }
}

/// A file's bytes, up to the one that tells that it is too long.
pub fn read(path: &Path) -> std::io::Result<Vec<u8>> {
    let mut bytes = Vec::new();
    fs::File::open(path)?
        .take(MOST_BYTES)
        .read_to_end(&mut bytes)?;
    Ok(bytes)
}

/// How many files are done, for whoever looks on.
pub fn progress(done: usize, all: usize) {
    if std::io::stderr().is_terminal() && (done % 100 == 0 || done == all) {
        eprint!("\r{done} of {all} files");
        if done == all {
            eprintln!();
        }
        let _ = std::io::stderr().flush();
    }
}
