//! The examples of README.md, compiled and run: from C and from Rust the same
//! answer, of f64 and of f32 samples. Without a C compiler the C part says so and
//! is passed over.

use std::path::{Path, PathBuf};
use std::process::Command;

/// What the examples are given, nothing for f64, and what they say. The digits of
/// f32 are those of an f32, so that no other samples can have given them.
const ANSWERS: [(&[&str], &str); 2] = [
    (
        &[],
        "highest f64 sample in 2.0000000000, out 0.8810488730\n\
         peak of the last block between samples, frame 275.375, channel 0\n",
    ),
    (
        &["float"],
        "highest f32 sample in 2.0000000000, out 0.8810488582\n\
         peak of the last block between samples, frame 275.375, channel 0\n",
    ),
];

fn root() -> PathBuf {
    Path::new(env!("CARGO_MANIFEST_DIR")).join("..")
}

fn library() -> PathBuf {
    let dir = std::env::var_os("HOST_LIB_DIR").map_or_else(
        || root().join("target/staticlib"),
        |dir| Path::new(env!("CARGO_MANIFEST_DIR")).join(dir),
    );
    dir.join("libhost.a")
}

fn said(program: &mut Command) -> String {
    let output = program.output().expect("it runs");
    assert!(
        output.status.success(),
        "{}",
        String::from_utf8_lossy(&output.stderr)
    );
    String::from_utf8(output.stdout).expect("text")
}

#[test]
fn from_c() {
    if Command::new("cc").arg("--version").output().is_err() {
        println!("passed over: no C compiler cc");
        return;
    }
    let program = Path::new(env!("CARGO_TARGET_TMPDIR")).join("limit-c");
    said(
        Command::new("cc")
            .args(["-std=c11", "-Wall", "-Wextra", "-Werror", "-O2", "-I"])
            .arg(root().join("include"))
            .arg(root().join("examples/limit.c"))
            .arg(library())
            .args(["-lm", "-o"])
            .arg(&program),
    );
    for (words, answer) in ANSWERS {
        assert_eq!(said(Command::new(&program).args(words)), answer);
    }
}

#[test]
fn from_rust() {
    let cargo = std::env::var_os("CARGO").unwrap_or_else(|| "cargo".into());
    for (words, answer) in ANSWERS {
        let mut run = Command::new(&cargo);
        run.args(["run", "--quiet", "--example", "limit", "--"])
            .args(words)
            .current_dir(env!("CARGO_MANIFEST_DIR"));
        assert_eq!(said(&mut run), answer);
    }
}
