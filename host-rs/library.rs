//! Links a library of the proved code. The build script of the oracle shares it.

use std::fs;
use std::path::{Path, PathBuf};

use crate::setting::{from_here, setting};

/// A library of the proved code, made by `.ci/staticlib NAME`.
pub struct Library {
    pub name: &'static str,
    /// The variable that tells where it lies.
    pub variable: &'static str,
    /// What the names of its functions start with.
    pub prefix: &'static str,
    /// The file, or the folder of files, that declares them.
    pub declared: &'static str,
}

/// Link it; one line where it is missing or old.
pub fn link(library: &Library) -> Result<(), String> {
    let Library { name, variable, .. } = library;
    let dir = setting(variable, "../target/staticlib");
    let lib = dir.join(format!("lib{name}.a"));
    println!("cargo::rerun-if-changed={}", lib.display());
    if !lib.is_file() {
        return Err(format!(
            "no lib{name}.a in {}: run `.ci/staticlib {name}`, or set {variable}",
            dir.display()
        ));
    }
    println!("cargo::rustc-link-search=native={}", dir.display());
    println!("cargo::rustc-link-lib=static={name}");
    let archive = read(&lib)?;
    match declared(library)?.iter().find(|f| !defines(&archive, f)) {
        Some(function) => Err(format!(
            "{} has no {function}: run `.ci/staticlib {name}` again",
            lib.display()
        )),
        None => Ok(()),
    }
}

/// The C functions that we declare. A library that lacks one is an old one, which
/// is said here in one line; the linker would fill a screen.
fn declared(library: &Library) -> Result<Vec<String>, String> {
    let place = from_here(library.declared.into());
    println!("cargo::rerun-if-changed={}", place.display());
    let start = format!("fn {}", library.prefix);
    let mut names = Vec::new();
    for file in files(place)? {
        let bytes = read(&file)?;
        let text = String::from_utf8_lossy(&bytes);
        names.extend(text.split(&start).skip(1).filter_map(|rest| {
            let (name, _) = rest.split_once('(')?;
            Some(format!("{}{name}", library.prefix))
        }));
    }
    Ok(names)
}

/// The file itself, or a folder's.
fn files(place: PathBuf) -> Result<Vec<PathBuf>, String> {
    if !place.is_dir() {
        return Ok(vec![place]);
    }
    let cannot = |e| format!("cannot read {}: {e}", place.display());
    let entries = fs::read_dir(&place).map_err(cannot)?;
    let paths = entries.map(|entry| entry.map(|e| e.path()));
    paths.collect::<Result<_, _>>().map_err(cannot)
}

fn read(file: &Path) -> Result<Vec<u8>, String> {
    fs::read(file).map_err(|e| format!("cannot read {}: {e}", file.display()))
}

/// Whether the archive's table of names has this one.
fn defines(archive: &[u8], name: &str) -> bool {
    let symbol = format!("{name}\0");
    archive
        .windows(symbol.len())
        .any(|w| w == symbol.as_bytes())
}
