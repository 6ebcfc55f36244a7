//! Whenever the program is killed, the output is the old one, none, or whole.

mod common;

use std::fs;
use std::process::{Child, Command, Stdio};
use std::thread::sleep;
use std::time::{Duration, Instant};

use common::*;
use daggeryuzu_cli::place::UNFINISHED;
use daggeryuzu_cli::sndfile::Format;

/// A folder with half a minute of sound in `in.wav`.
fn long() -> Folder {
    let folder = Folder::new();
    let format = Format::numbered(WAV | PCM_16, 48_000, 2).expect("a format");
    write(&folder.at("in.wav"), format, &swelling(1_500_000, 2));
    folder
}

fn start(folder: &Folder) -> Child {
    let mut program = Command::new(env!("CARGO_BIN_EXE_daggeryuzu"));
    program.args([folder.at("in.wav"), folder.at("out.wav")]);
    let program = program.stdout(Stdio::null()).stderr(Stdio::null());
    program.spawn().expect("the program starts")
}

/// Removes what killed runs left; every name says what it is.
fn swept(folder: &Folder) -> usize {
    let mut count = 0;
    for name in folder.names() {
        if name != "in.wav" && name != "out.wav" {
            assert!(
                name.starts_with("out.wav.") && name.ends_with(UNFINISHED),
                "{name}"
            );
            fs::remove_file(folder.at(&name)).expect("removed");
            count += 1;
        }
    }
    count
}

#[test]
fn killed_at_any_moment() {
    let folder = long();
    let before = fs::read(folder.at("in.wav")).expect("the input");
    let began = Instant::now();
    assert!(start(&folder).wait().expect("an end").success());
    let whole_run = began.elapsed();
    let whole = fs::read(folder.at("out.wav")).expect("the output");
    assert_eq!(swept(&folder), 0);

    let old = b"what was there before".to_vec();
    let (mut finished, mut left) = (0, 0);
    let moments: Vec<f64> = noise(11).take(30).map(|x| 0.5 + 0.5 * x).collect();
    for (i, moment) in moments.into_iter().enumerate() {
        let had = i % 2 == 1;
        let _ = fs::remove_file(folder.at("out.wav"));
        if had {
            fs::write(folder.at("out.wav"), &old).expect("an old output");
        }
        let mut child = start(&folder);
        // A third of the moments lie close to the end.
        let part = if i % 3 == 0 {
            0.9 + 0.2 * moment
        } else {
            moment
        };
        sleep(whole_run.mul_f64(part));
        child.kill().expect("killed");
        child.wait().expect("an end");
        match fs::read(folder.at("out.wav")) {
            Ok(bytes) if bytes == whole => finished += 1,
            Ok(bytes) => assert!(had && bytes == old, "half an output at {part}"),
            Err(_) => assert!(!had, "the old output is gone at {part}"),
        }
        left += swept(&folder);
    }
    assert!(left > 0, "no run was killed at its work");
    assert!(left + finished <= 30);
    assert!(fs::read(folder.at("in.wav")).expect("the input") == before);
}

/// Asked to stop, it removes what is unfinished.
#[test]
fn stopped_by_a_signal() {
    let folder = long();
    for (signal, status) in [("-TERM", 143), ("-INT", 130), ("-HUP", 129)] {
        let mut child = start(&folder);
        let deadline = Instant::now() + Duration::from_secs(20);
        while folder.names().len() == 1 && Instant::now() < deadline {
            sleep(Duration::from_millis(1));
        }
        let mut kill = Command::new("kill");
        let sent = kill.args([signal, &child.id().to_string()]).status();
        assert!(sent.expect("kill").success());
        assert_eq!(child.wait().expect("an end").code(), Some(status));
        assert_eq!(folder.names(), ["in.wav"], "{signal}");
    }
}
