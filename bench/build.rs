//! Writes the module tree that compiles the Rust, as the oracle does.

#[path = "../host-rs/setting.rs"]
mod setting;
#[path = "../oracle/tree.rs"]
mod tree;

fn main() {
    if let Err(line) = tree::write(&[]) {
        println!("cargo::error={line}");
    }
}
