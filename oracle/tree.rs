//! Writes the module tree that compiles the Rust from its own folder. The build
//! scripts of the oracle and of `bench` share it.

use std::env;
use std::fmt::Write as _;
use std::fs;
use std::path::{Path, PathBuf};

use crate::setting::{from_here, setting};

/// Files that the Rust mounts at its crate root.
const CONTRACT: [&str; 7] = [
    "block", "context", "error", "param", "sample", "spec", "traits",
];

/// Files that the Rust mounts below `crate::dsp`.
const DSP: [&str; 5] = ["driver", "math", "memory", "oversample", "sanitize"];

/// What the Rust's own text may warn of is not ours to mend.
const QUIET: &str = "#[allow(dead_code, unused_imports, clippy::all, clippy::pedantic)]";

/// Generate `tree.rs` in OUT_DIR. The files named in `inside` get a child module
/// of that name, from the package's folder `src/bisque`.
pub fn write(inside: &[&str]) -> Result<(), String> {
    let src = setting("BISQUE_SRC", "../../shared/docs/src");
    let out = PathBuf::from(env::var_os("OUT_DIR").unwrap_or_default());
    let mut text = String::new();
    for name in CONTRACT {
        mount(
            &mut text,
            name,
            &found(&src, &format!("contract/{name}.rs"))?,
        );
    }
    text.push_str("pub(crate) mod dsp {\n");
    for name in DSP {
        let file = found(&src, &format!("dsp/{name}.rs"))?;
        mount(&mut text, name, &opened(file, name, inside, &out)?);
    }
    text.push_str("pub use driver::SmootherBank;\n}\npub(crate) mod mastering {\n");
    let limiter = found(&src, "mastering/limiter.rs")?;
    mount(
        &mut text,
        "limiter",
        &opened(limiter, "limiter", inside, &out)?,
    );
    text.push_str("}\n");
    // The Rust leaves code out by features of its own manifest.
    println!("cargo::rustc-cfg=feature=\"mastering\"");
    println!(
        "cargo::rustc-check-cfg=cfg(feature, values(\"analysis\", \"filters\", \
         \"mastering\", \"repair\", \"spectral\", \"time\"))"
    );
    fs::write(out.join("tree.rs"), text).map_err(|e| format!("cannot write tree.rs: {e}"))
}

/// Add one module that is compiled from `file`.
fn mount(text: &mut String, name: &str, file: &Path) {
    let _ = writeln!(text, "#[path = {file:?}]\n{QUIET}\npub(crate) mod {name};");
}

/// The file below the Rust's folder, or the line that says what is missing.
fn found(src: &Path, name: &str) -> Result<PathBuf, String> {
    let file = src.join(name);
    println!("cargo::rerun-if-changed={}", file.display());
    file.canonicalize().map_err(|_| {
        format!(
            "no {name} in {}: set BISQUE_SRC to the folder src of airclay-io/bisque at f7b5e83181",
            src.display()
        )
    })
}

/// The file itself or, where `inside` names it, the same bytes with one line
/// after them that declares a child module of ours. Privacy goes by module, so
/// the child sees private items and the Rust's text stays as it is. (`include!`
/// would refuse its `//!` lines.)
fn opened(file: PathBuf, name: &str, inside: &[&str], out: &Path) -> Result<PathBuf, String> {
    if !inside.contains(&name) {
        return Ok(file);
    }
    let child = from_here(format!("src/bisque/inside_{name}.rs").into());
    let mut bytes = fs::read(&file).map_err(|e| format!("cannot read {}: {e}", file.display()))?;
    let line = format!("\n#[path = {child:?}]\npub(crate) mod inside;\n");
    bytes.extend_from_slice(line.as_bytes());
    let copy = out.join(format!("{name}.rs"));
    fs::write(&copy, bytes).map_err(|e| format!("cannot write {}: {e}", copy.display()))?;
    Ok(copy)
}
