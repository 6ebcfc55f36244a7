//! The program `daggeryuzu`.

use std::io::Write as _;
use std::process::ExitCode;

use daggeryuzu_cli::{args, interrupt, run};

fn main() -> ExitCode {
    interrupt::listen();
    match args::parse(std::env::args_os().skip(1)).and_then(|command| run(&command)) {
        Ok(text) => {
            // A reader that closed the pipe has what it wanted.
            let _ = std::io::stdout().write_all(text.as_bytes());
            ExitCode::SUCCESS
        }
        Err(failure) => {
            let _ = writeln!(std::io::stderr(), "daggeryuzu: {failure}");
            ExitCode::from(failure.status())
        }
    }
}
