//! What ends the program early: one line and an exit status.

use std::fmt;
use std::io;
use std::path::Path;

/// One line for the reader, and the exit status.
#[derive(Debug, Clone, PartialEq, Eq)]
pub struct Failure {
    line: String,
    status: u8,
}

impl Failure {
    /// Work that cannot be done: status 1.
    pub fn new(line: impl Into<String>) -> Self {
        Self {
            line: line.into(),
            status: 1,
        }
    }

    /// A command line that cannot be read: status 2.
    pub fn usage(line: impl Into<String>) -> Self {
        Self {
            line: line.into(),
            status: 2,
        }
    }

    /// Stopped by a signal: the shell's 128 and its number.
    pub fn signal(number: u8) -> Self {
        Self {
            line: "stopped; nothing was written".into(),
            status: 128 + number,
        }
    }

    /// Something wrong with the file at `path`.
    pub fn at(path: &Path, what: impl fmt::Display) -> Self {
        Self::new(format!("{}: {what}", path.display()))
    }

    /// What the system said, about the file at `path`.
    pub fn system(path: &Path, doing: &str, error: &io::Error) -> Self {
        Self::at(path, format!("{doing}: {}", plain(error)))
    }

    /// The exit status.
    #[must_use]
    pub fn status(&self) -> u8 {
        self.status
    }
}

impl fmt::Display for Failure {
    /// One line, whatever the parts hold.
    fn fmt(&self, f: &mut fmt::Formatter<'_>) -> fmt::Result {
        write!(f, "{}", self.line.replace(['\n', '\r'], " "))
    }
}

impl std::error::Error for Failure {}

/// The system's words without its number.
fn plain(error: &io::Error) -> String {
    let text = error.to_string();
    match text.find(" (os error") {
        Some(end) => text[..end].into(),
        None => text,
    }
}
