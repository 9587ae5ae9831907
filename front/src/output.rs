//! Writing: to standard output, or to a file that is there whole or not at all.

use crate::files;
use crate::messages::Trouble;
use std::ffi::OsStr;
use std::fs;
use std::io::{ErrorKind, Write};
use std::path::{Path, PathBuf};

pub fn print(bytes: &[u8]) -> Result<(), Trouble> {
    let mut out = std::io::stdout().lock();
    let done = out.write_all(bytes).and_then(|()| out.flush());
    done.map_err(|error| match error.kind() {
        ErrorKind::BrokenPipe => Trouble::Closed,
        _ => Trouble::CannotWrite("standard output".to_string(), plain(&error)),
    })
}

/// On standard error. Where that cannot be written nobody is left to be told.
pub fn say(words: &str) {
    let _ = std::io::stderr().lock().write_all(words.as_bytes());
}

/// Writes beside the file first, so that a full disk leaves what was there before. What is no plain file is written as it is.
pub fn save(file: &OsStr, bytes: &[u8]) -> Result<(), Trouble> {
    let trouble = |error: std::io::Error| Trouble::CannotWrite(files::shown(file), plain(&error));
    let path = place_of(Path::new(file));
    let before = fs::metadata(&path).ok();
    if before.as_ref().is_some_and(|about| !about.is_file()) {
        return fs::write(&path, bytes).map_err(trouble);
    }
    let beside = beside(&path);
    let mut done = write_whole(&beside, bytes);
    if let (Ok(()), Some(before)) = (&done, before) {
        done = fs::set_permissions(&beside, before.permissions());
    }
    let done = done.and_then(|()| fs::rename(&beside, &path));
    if done.is_err() {
        // the first error is the one to tell
        let _ = fs::remove_file(&beside);
    }
    done.map_err(trouble)
}

/// What a name stands for, through links, also through one that leads to nothing yet.
fn place_of(path: &Path) -> PathBuf {
    match (fs::canonicalize(path), fs::read_link(path)) {
        (Ok(whole), _) => whole,
        (Err(_), Ok(target)) => path.with_file_name(target),
        _ => path.to_path_buf(),
    }
}

fn beside(path: &Path) -> PathBuf {
    let mut name = path.file_name().unwrap_or_default().to_os_string();
    name.push(format!(".{}.part", std::process::id()));
    path.with_file_name(name)
}

fn write_whole(path: &Path, bytes: &[u8]) -> std::io::Result<()> {
    let mut file = fs::File::create(path)?;
    file.write_all(bytes)?;
    file.sync_all()
}

/// An error in the system's words, without its number.
pub fn plain(error: &std::io::Error) -> String {
    let words = error.to_string();
    match words.split_once(" (os error") {
        Some((front, _)) => front.to_string(),
        None => words,
    }
}
