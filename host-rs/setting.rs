//! Paths that a build script reads. Those of the oracle and of `bench` share it.

use std::env;
use std::path::PathBuf;

/// The absolute path of `path`, taken from the package's folder.
pub fn from_here(path: PathBuf) -> PathBuf {
    PathBuf::from(env::var_os("CARGO_MANIFEST_DIR").unwrap_or_default()).join(path)
}

/// The value of an environment variable, or its default.
pub fn setting(name: &str, default: &str) -> PathBuf {
    println!("cargo::rerun-if-env-changed={name}");
    from_here(env::var_os(name).map_or_else(|| default.into(), PathBuf::from))
}
