//! Writes the module tree that compiles the Rust from its own folder, and links
//! the library `probe` where its feature asks for it. The library `host` is
//! linked by the wrapper that declares its functions.

#[path = "../host-rs/library.rs"]
mod library;
#[path = "../host-rs/setting.rs"]
mod setting;
mod tree;

use library::Library;

/// Files of the Rust whose private items `src/bisque/inside_*.rs` may see.
const INSIDE: [&str; 3] = ["driver", "oversample", "limiter"];

const PROBE: Library = Library {
    name: "probe",
    variable: "PROBE_LIB_DIR",
    prefix: "probe_",
    declared: "src/probe",
};

fn main() {
    let linked = || match std::env::var_os("CARGO_FEATURE_PROBE") {
        Some(_) => library::link(&PROBE),
        None => Ok(()),
    };
    if let Err(line) = tree::write(&INSIDE).and_then(|()| linked()) {
        // One line, where a panic would print a screen.
        println!("cargo::error={line}");
    }
}
