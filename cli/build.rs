//! Links the C libraries: libsndfile reads and writes sound files, libFLAC writes
//! FLAC with all that the input carries, libebur128 measures loudness and true
//! peak. By their own descriptions where pkg-config is at hand.

use std::process::Command;

/// A library's name for the linker, for pkg-config, and Debian's package.
const LIBRARIES: [(&str, &str, &str); 3] = [
    ("sndfile", "sndfile", "libsndfile1-dev"),
    ("FLAC", "flac", "libflac-dev"),
    ("ebur128", "libebur128", "libebur128-dev"),
];

fn main() {
    println!("cargo::rerun-if-changed=build.rs");
    for (link, name, package) in LIBRARIES {
        println!("cargo::rustc-link-lib=dylib={link}");
        find(name, package);
    }
}

/// Tells cargo the folders that pkg-config names, or which package is missing.
fn find(name: &str, package: &str) {
    let Ok(found) = Command::new("pkg-config")
        .args(["--libs-only-L", name])
        .output()
    else {
        return;
    };
    if !found.status.success() {
        println!("cargo::error=no {name}: install Debian's package {package}");
        return;
    }
    let flags = String::from_utf8_lossy(&found.stdout).into_owned();
    for folder in flags
        .split_whitespace()
        .filter_map(|f| f.strip_prefix("-L"))
    {
        println!("cargo::rustc-link-search=native={folder}");
    }
}
