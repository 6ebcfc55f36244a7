//! A folder for temporary files.

use std::fs;
use std::io::ErrorKind;
use std::path::{Path, PathBuf};

/// A folder of our own, which goes when this goes, also on an error.
#[derive(Debug)]
pub struct Folder(PathBuf);

impl Folder {
    pub fn new() -> Result<Self, String> {
        let base = std::env::temp_dir();
        let mut number = 0_u32;
        loop {
            let path = base.join(format!("bench-{}-{number}", std::process::id()));
            match fs::create_dir(&path) {
                Ok(()) => return Ok(Self(path)),
                Err(e) if e.kind() == ErrorKind::AlreadyExists => number += 1,
                Err(e) => return Err(format!("{}: {e}", path.display())),
            }
        }
    }

    pub fn path(&self) -> &Path {
        &self.0
    }
}

impl Drop for Folder {
    fn drop(&mut self) {
        // Nothing is left to do where this fails.
        let _ = fs::remove_dir_all(&self.0);
    }
}

#[cfg(test)]
mod tests {
    use super::*;

    #[test]
    fn two_folders_are_not_one() {
        let (a, b) = (Folder::new().expect("a"), Folder::new().expect("b"));
        assert_ne!(a.path(), b.path());
        assert!(a.path().is_dir() && b.path().is_dir());
    }

    #[test]
    fn a_folder_goes_with_what_is_in_it_also_on_an_error() {
        let mut path = PathBuf::new();
        let mut work = || -> Result<(), String> {
            let folder = Folder::new()?;
            path = folder.path().to_path_buf();
            fs::write(path.join("file"), "x").map_err(|e| e.to_string())?;
            Err("an error".into())
        };
        assert_eq!(work(), Err("an error".into()));
        assert!(path.is_absolute() && !path.exists());
    }
}
