//! Links the proved code, libhost.a, from HOST_LIB_DIR (default `../target/staticlib`).

mod library;
mod setting;

use library::Library;

const HOST: Library = Library {
    name: "host",
    variable: "HOST_LIB_DIR",
    prefix: "daggeryuzu_",
    declared: "src/sys.rs",
};

fn main() {
    if let Err(line) = library::link(&HOST) {
        // One line, where a panic would print a screen.
        println!("cargo::error={line}");
    }
}
