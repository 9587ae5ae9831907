//! The folder of written cases: NNNN.bytes, NNNN.plain and NNNN.txt for each, and the frames made of it.

use super::cases;
use super::mistakes;
use super::written::Written;
use crate::judge::ask::RECORD;
use crate::judge::case::MOST_STEPS;
use crate::streams::machine::frame::{Job, Trial};
use crate::streams::question::frame::Query;
use std::fs;
use std::io;
use std::path::{Path, PathBuf};

/// Writes so many cases, numbered from 0, into a folder that is empty or not there yet.
pub fn generate(seed: u64, count: u64, folder: &Path) -> io::Result<()> {
    make(folder)?;
    // Names of one length, so that their order is that of the numbers.
    let width = count.saturating_sub(1).to_string().len().max(4);
    let mut numbers = 0..count;
    cases::all(seed, count, &mut |part| {
        let mut pairs = part.iter().zip(numbers.by_ref());
        pairs.try_for_each(|(one, number)| put(&folder.join(format!("{number:0width$}")), one))
    })
}

fn make(folder: &Path) -> io::Result<()> {
    fs::create_dir_all(folder)?;
    if fs::read_dir(folder)?.next().is_some() {
        let what = format!("{} is not empty", folder.display());
        return Err(io::Error::new(io::ErrorKind::AlreadyExists, what));
    }
    Ok(())
}

/// Writes texts with a mistake each into such a folder; their names, each with the mistake's line.
pub fn mistaken(seed: u64, count: u64, folder: &Path) -> io::Result<String> {
    make(folder)?;
    let mut places = String::new();
    for (number, one) in mistakes::draw(seed, count as usize).iter().enumerate() {
        let name = format!("{number:04}.txt");
        fs::write(folder.join(&name), &one.text)?;
        places += &format!("{name}:{}\n", one.line);
    }
    Ok(places)
}

fn put(stem: &Path, one: &Written) -> io::Result<()> {
    fs::write(stem.with_extension("bytes"), &one.bytes)?;
    fs::write(stem.with_extension("plain"), &one.plain)?;
    fs::write(stem.with_extension("txt"), &one.free)
}

/// The files of records, in the order of their names.
fn records(folder: &Path) -> io::Result<Vec<PathBuf>> {
    let entries = fs::read_dir(folder)?.collect::<io::Result<Vec<_>>>()?;
    let mut paths: Vec<PathBuf> = entries.iter().map(|entry| entry.path()).collect();
    paths.retain(|path| path.extension().map_or(false, |end| end == "bytes"));
    paths.sort();
    Ok(paths)
}

/// The records of every case of the folder.
pub fn each_bytes(
    folder: &Path,
    mut take: impl FnMut(Vec<u8>) -> io::Result<()>,
) -> io::Result<()> {
    let mut paths = records(folder)?.into_iter();
    paths.try_for_each(|path| take(fs::read(path)?))
}

/// Every case of the folder, with its texts.
pub fn each(folder: &Path, mut take: impl FnMut(Written)) -> io::Result<()> {
    for path in records(folder)? {
        take(Written {
            bytes: fs::read(&path)?,
            plain: fs::read_to_string(path.with_extension("plain"))?,
            free: fs::read_to_string(path.with_extension("txt"))?,
        });
    }
    Ok(())
}

/// Asks the case's question, with room for the longest run.
pub fn question(bytes: Vec<u8>, budget: u32) -> Query {
    Query {
        input: bytes,
        room: (RECORD * MOST_STEPS) as u32,
        budget,
    }
}

/// Judges the case's run.
pub fn judge(bytes: Vec<u8>) -> Trial {
    Trial {
        job: Job::Bytes,
        input: bytes,
        field: 0,
        value: 0,
    }
}
