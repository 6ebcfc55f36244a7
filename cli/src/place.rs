//! Files that appear whole or not at all: written under another name beside
//! their place, brought to the disk, then renamed.

use std::ffi::OsString;
use std::fs::{self, File, OpenOptions};
use std::io::{self, Write};
use std::os::unix::fs::MetadataExt;
use std::path::{Path, PathBuf};
use std::process;

use crate::failure::Failure;

/// What the name of an unfinished file ends with. One that a killed run left
/// may be deleted.
pub const UNFINISHED: &str = ".daggeryuzu-unfinished";

/// A file on its way to its place. Dropped before `publish`, it is removed.
#[derive(Debug)]
pub struct Pending {
    place: PathBuf,
    unfinished: PathBuf,
    file: File,
    published: bool,
}

impl Pending {
    /// Starts a file for `place`, whose folder must be there.
    ///
    /// # Errors
    /// A place that is no file, or that cannot be written.
    pub fn start(place: &Path) -> Result<Self, Failure> {
        let place = resolved(place)?;
        let (unfinished, file) = create(&place)?;
        Ok(Self {
            place,
            unfinished,
            file,
            published: false,
        })
    }

    /// The file, for a library that wants one of its own.
    ///
    /// # Errors
    /// The system's.
    pub fn file(&self) -> Result<File, Failure> {
        self.file.try_clone().map_err(|e| self.unwritable(&e))
    }

    /// Where its bytes are until it is published.
    #[must_use]
    pub fn unfinished(&self) -> &Path {
        &self.unfinished
    }

    /// Writes text.
    ///
    /// # Errors
    /// The system's.
    pub fn write(&mut self, text: &str) -> Result<(), Failure> {
        let done = self.file.write_all(text.as_bytes());
        done.map_err(|e| self.unwritable(&e))
    }

    /// Waits until the disk has its bytes.
    ///
    /// # Errors
    /// The system's.
    pub fn sync(&self) -> Result<(), Failure> {
        self.file.sync_all().map_err(|e| self.unwritable(&e))
    }

    /// Puts it in its place, after `sync`.
    ///
    /// # Errors
    /// The system's.
    pub fn publish(mut self) -> Result<(), Failure> {
        fs::rename(&self.unfinished, &self.place).map_err(|e| self.unwritable(&e))?;
        self.published = true;
        // The name is there; that the folder is on the disk too is not always to be had.
        let _ = File::open(folder(&self.place)).and_then(|f| f.sync_all());
        Ok(())
    }

    fn unwritable(&self, error: &io::Error) -> Failure {
        Failure::system(&self.place, "cannot be written", error)
    }
}

impl Drop for Pending {
    fn drop(&mut self) {
        if !self.published {
            let _ = fs::remove_file(&self.unfinished);
        }
    }
}

/// Whether two paths lead to the same file, there or still to be made.
#[must_use]
pub fn same(a: &Path, b: &Path) -> bool {
    let numbers = |p: &Path| fs::metadata(p).ok().map(|m| (m.dev(), m.ino()));
    match (numbers(a), numbers(b)) {
        (Some(a), Some(b)) => a == b,
        (None, None) => match (fs::canonicalize(folder(a)), fs::canonicalize(folder(b))) {
            (Ok(x), Ok(y)) => x == y && a.file_name() == b.file_name(),
            _ => false,
        },
        _ => false,
    }
}

/// The place itself, links followed; refused where something else is there.
fn resolved(place: &Path) -> Result<PathBuf, Failure> {
    let unwritable = |e| Failure::system(place, "cannot be written", &e);
    match fs::symlink_metadata(place) {
        Ok(m) if m.is_file() => Ok(place.into()),
        Ok(m) if m.is_symlink() => {
            let end = fs::canonicalize(place).map_err(unwritable)?;
            if end.is_file() {
                Ok(end)
            } else {
                Err(Failure::at(place, "cannot be written: not a file"))
            }
        }
        Ok(_) => Err(Failure::at(place, "cannot be written: not a file")),
        Err(e) if e.kind() == io::ErrorKind::NotFound => Ok(place.into()),
        Err(e) => Err(unwritable(e)),
    }
}

fn folder(place: &Path) -> &Path {
    match place.parent() {
        Some(p) if !p.as_os_str().is_empty() => p,
        _ => Path::new("."),
    }
}

/// Makes a file beside `place`: `chapter.wav` is unfinished as
/// `chapter.wav.PID.daggeryuzu-unfinished`, or with one more number where a
/// killed run left that name.
fn create(place: &Path) -> Result<(PathBuf, File), Failure> {
    let name = place.file_name();
    let name = name.ok_or_else(|| Failure::at(place, "cannot be written: not a file"))?;
    let mut tries = 0;
    loop {
        let number = match tries {
            0 => format!(".{}", process::id()),
            n => format!(".{}-{n}", process::id()),
        };
        let mut unfinished = OsString::from(name);
        unfinished.push(number + UNFINISHED);
        let path = folder(place).join(unfinished);
        let mut options = OpenOptions::new();
        match options.read(true).write(true).create_new(true).open(&path) {
            Ok(file) => return Ok((path, file)),
            Err(e) if e.kind() == io::ErrorKind::AlreadyExists && tries < 100 => tries += 1,
            Err(e) => return Err(Failure::system(place, "cannot be written", &e)),
        }
    }
}

#[cfg(test)]
mod tests {
    use super::*;

    #[test]
    fn a_name_that_a_killed_run_left_is_passed_over() {
        let name = format!("daggeryuzu-place-{}", process::id());
        let place = std::env::temp_dir().join(name);
        let (first, second) = (Pending::start(&place), Pending::start(&place));
        let (first, mut second) = (first.expect("one"), second.expect("another"));
        assert_ne!(first.unfinished(), second.unfinished());
        drop(first);
        second.write("whole").expect("written");
        second.sync().expect("on the disk");
        assert!(!place.exists());
        second.publish().expect("in its place");
        assert_eq!(fs::read_to_string(&place).expect("read"), "whole");
        fs::remove_file(&place).expect("removed");
    }
}
