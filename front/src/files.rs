//! The files that a command line names, and their names as messages show them.

use std::ffi::{OsStr, OsString};

/// Where a case is read from.
#[derive(Clone, Debug, PartialEq, Eq)]
pub enum File {
    Input,
    Named(OsString),
}

impl File {
    /// As messages show it.
    pub fn shown(&self) -> String {
        match self {
            File::Input => "standard input".to_string(),
            File::Named(name) => shown(name),
        }
    }
}

/// A name as messages show it.
pub fn shown(name: &OsStr) -> String {
    let plain = |c: char| if c.is_control() { '?' } else { c };
    name.to_string_lossy().chars().map(plain).collect()
}
