//! Bad input: one clear line, a status that is not 0, and nothing written.

mod common;

use std::fs;
use std::os::unix::fs::symlink;
use std::process::Command;

use common::*;
use daggeryuzu_cli::sndfile::Format;

/// A folder with a good file in it.
fn good(number: i32, rate: u32, channels: usize, frames: usize) -> Folder {
    let folder = Folder::new();
    let format = Format::numbered(number, rate, channels).expect("a format");
    write(&folder.at("in.wav"), format, &swelling(frames, channels));
    folder
}

/// Limiting `in.wav` fails with a line that says `said`; no file comes or goes.
fn refused(folder: &Folder, options: &[&str], said: &str) {
    let (input, output) = (folder.at("in.wav"), folder.at("out.wav"));
    let names = folder.names();
    let before = fs::read(&input).ok();
    let mut words = options.to_vec();
    words.extend([text(&input), text(&output)]);
    let line = fails(&words);
    assert!(line.contains(said), "{line}");
    assert_eq!(folder.names(), names, "{line}");
    assert!(fs::read(&input).ok() == before, "{line}");
}

#[test]
fn files_that_are_no_sound() {
    let folder = Folder::new();
    refused(
        &folder,
        &[],
        "in.wav: cannot be read: No such file or directory",
    );
    fs::write(folder.at("in.wav"), "").expect("a file");
    refused(&folder, &[], "in.wav: no sound file");
    fs::write(folder.at("in.wav"), "once upon a time\n".repeat(99)).expect("a file");
    refused(&folder, &[], "in.wav: no sound file");
    fs::remove_file(folder.at("in.wav")).expect("removed");
    fs::create_dir(folder.at("in.wav")).expect("a folder");
    refused(&folder, &[], "in.wav: not a file");
    for device in ["/dev/zero", "/dev/null"] {
        let line = fails(&[device, text(&folder.at("out.wav"))]);
        assert!(line.contains("not a file"), "{line}");
    }
}

#[test]
fn files_without_audio() {
    for number in [WAV | PCM_16, AIFF | PCM_24] {
        let folder = good(number, 48_000, 2, 0);
        refused(&folder, &[], "in.wav: holds no audio");
    }
    // A FLAC header alone: blocks of 4,096, 48,000, stereo, 16 bits, no count.
    let mut bytes = b"fLaC\x80\x00\x00\x22\x10\x00\x10\x00".to_vec();
    bytes.extend([0, 0, 0, 0, 0, 0, 0x0b, 0xb8, 0x02, 0xf0, 0, 0, 0, 0]);
    bytes.extend([0; 16]);
    let folder = Folder::new();
    fs::write(folder.at("in.wav"), bytes).expect("a file");
    refused(&folder, &[], "in.wav: holds no audio");
}

#[test]
fn files_that_the_limiter_refuses() {
    let said = "refused: not 1 to 8 channels (refusal 13)";
    refused(&good(WAV | PCM_16, 48_000, 9, 100), &[], said);
    let said = "refused: the rate is outside 8,000 to 192,000 (refusal 8)";
    refused(&good(WAV | PCM_16, 7_999, 1, 100), &[], said);
    refused(&good(WAV | PCM_16, 192_001, 1, 100), &[], said);
}

#[test]
fn settings_that_the_limiter_refuses() {
    let folder = good(WAV | PCM_16, 48_000, 1, 100);
    for (option, number) in [
        ("--threshold=0.5", "(refusal 5"),
        ("--threshold=nan", "(refusal 4"),
        ("--margin=-1", "(refusal 9)"),
        ("--lookahead=0", "(refusal 10)"),
        ("--release=0.001", "(refusal 11)"),
        ("--lookahead=0.1", "(refusal 12)"),
        ("--block=65537", "(refusal 14)"),
    ] {
        refused(&folder, &[option], number);
    }
}

#[test]
fn encodings_that_are_not_taken() {
    // µ-law and IMA ADPCM, written by hand: libsndfile reads both.
    for (tag, bits) in [(7_u16, 8_u16), (6, 8)] {
        let folder = Folder::new();
        let mut bytes = b"RIFF\x24\x00\x00\x00WAVEfmt \x10\x00\x00\x00".to_vec();
        bytes.extend(tag.to_le_bytes());
        bytes.extend(1_u16.to_le_bytes());
        bytes.extend(8000_u32.to_le_bytes());
        bytes.extend(8000_u32.to_le_bytes());
        bytes.extend(1_u16.to_le_bytes());
        bytes.extend(bits.to_le_bytes());
        bytes.extend(b"data\x04\x00\x00\x00\x01\x02\x03\x04");
        fs::write(folder.at("in.wav"), bytes).expect("a file");
        refused(&folder, &[], "in.wav: its samples are neither");
    }
}

#[test]
fn files_that_are_cut_off() {
    for number in [
        WAV | PCM_16,
        WAVEX | PCM_24,
        RF64 | PCM_16,
        WAV | FLOAT,
        AIFF | PCM_24,
        FLAC | PCM_16,
        FLAC | PCM_24,
    ] {
        let folder = good(number, 48_000, 2, 20_000);
        let whole = fs::read(folder.at("in.wav")).expect("the file");
        for part in [0.999, 0.9, 0.5, 0.1] {
            let length = (part * whole.len() as f64) as usize;
            fs::write(folder.at("in.wav"), &whole[..length]).expect("cut");
            refused(&folder, &[], "in.wav: ");
            let line = fails(&["--dry-run", text(&folder.at("in.wav"))]);
            assert!(line.contains("cut off"), "{number:x} {part}: {line}");
        }
        for length in [3, 11, 20, 40] {
            fs::write(folder.at("in.wav"), &whole[..length]).expect("cut");
            refused(&folder, &[], "in.wav: ");
        }
    }
}

/// Cut where a frame of the coder starts, the rest decodes without an error;
/// what is missing shows by the count alone.
#[test]
fn flac_that_is_cut_between_frames() {
    let folder = good(FLAC | PCM_16, 48_000, 2, 20_000);
    let whole = fs::read(folder.at("in.wav")).expect("the file");
    let marks = whole.windows(2).enumerate();
    let starts = marks.filter(|(_, w)| *w == [0xff, 0xf8]).map(|(i, _)| i);
    let starts: Vec<usize> = starts.skip(1).collect();
    assert!(starts.len() >= 4, "{starts:?}");
    for length in starts {
        fs::write(folder.at("in.wav"), &whole[..length]).expect("cut");
        refused(&folder, &[], "damaged or cut off after frame");
    }
}

#[test]
fn flac_that_is_damaged() {
    let folder = good(FLAC | PCM_16, 48_000, 2, 20_000);
    let mut bytes = fs::read(folder.at("in.wav")).expect("the file");
    let middle = bytes.len() / 2;
    bytes[middle..middle + 400].fill(0x55);
    fs::write(folder.at("in.wav"), &bytes).expect("damaged");
    refused(&folder, &[], "damaged or cut off after frame");
    // the same where the header does not count the frames, as of a stream
    bytes[21] &= 0xf0;
    bytes[22..26].fill(0);
    fs::write(folder.at("in.wav"), &bytes).expect("damaged");
    refused(&folder, &[], "damaged or cut off after frame");
}

#[test]
fn places_that_cannot_be_written() {
    let folder = good(WAV | PCM_16, 48_000, 1, 100);
    let input = folder.at("in.wav");
    let names = folder.names();
    let nowhere = folder.at("no/such/folder/out.wav");
    let line = fails(&[text(&input), text(&nowhere)]);
    assert!(
        line.contains("out.wav: cannot be written: No such file"),
        "{line}"
    );
    for place in ["/dev/null", text(folder.path()), "/"] {
        let line = fails(&[text(&input), place]);
        assert!(line.contains("cannot be written: not a file"), "{line}");
    }
    let out = folder.at("out.wav");
    for option in ["--report", "--plot"] {
        let line = fails(&[option, text(&nowhere), text(&input), text(&out)]);
        assert!(line.contains("cannot be written: No such file"), "{line}");
    }
    let long = folder.at(&"x".repeat(254));
    let line = fails(&[text(&input), text(&long)]);
    assert!(line.contains("cannot be written"), "{line}");
    assert!(fails(&["demo", text(&nowhere)]).contains("cannot be written"));
    assert_eq!(folder.names(), names);
}

#[test]
fn the_input_is_never_an_output() {
    let folder = good(WAV | PCM_16, 48_000, 1, 100);
    let input = folder.at("in.wav");
    let before = fs::read(&input).expect("the input");
    let (link, hard) = (folder.at("link.wav"), folder.at("hard.wav"));
    symlink(&input, &link).expect("a link");
    fs::hard_link(&input, &hard).expect("a second name");
    let dotted = folder.at("./in.wav");
    for place in [&input, &dotted, &link, &hard] {
        let line = fails(&[text(&input), text(place)]);
        assert!(
            line.contains("input and output are the same file"),
            "{line}"
        );
    }
    let out = folder.at("out.wav");
    for (a, b, said) in [
        (&input, &out, "input and report are"),
        (&out, &out, "output and report are"),
    ] {
        let line = fails(&["--report", text(a), text(&input), text(b)]);
        assert!(line.contains(said), "{line}");
    }
    let both = folder.at("both");
    let (a, b) = (text(&both), text(&out));
    let line = fails(&["--report", a, "--plot", a, text(&input), b]);
    assert!(line.contains("report and plot are the same file"), "{line}");
    assert_eq!(folder.names(), ["hard.wav", "in.wav", "link.wav"]);
    assert!(fs::read(&input).expect("the input") == before);
}

#[test]
fn command_lines_that_cannot_be_read() {
    for words in [
        &["--loud", "a", "b"][..],
        &[],
        &["a"],
        &["a", "b", "c"],
        &["--block", "many", "a", "b"],
        &["--threshold"],
    ] {
        let out = daggeryuzu(words);
        assert_eq!(out.status.code(), Some(2), "{words:?}");
        fails(words);
    }
}

/// A file system that is full, as far as a limit on a file's size can act it.
#[test]
fn a_disk_that_is_full() {
    for number in [WAV | PCM_16, FLAC | PCM_24, AIFF | FLOAT] {
        let folder = good(number, 48_000, 2, 60_000);
        let script = "trap '' XFSZ; ulimit -f 100; exec \"$0\" \"$1\" \"$2\"";
        let out = Command::new("bash")
            .args(["-c", script, env!("CARGO_BIN_EXE_daggeryuzu")])
            .args([folder.at("in.wav"), folder.at("out.wav")])
            .output()
            .expect("bash");
        let line = String::from_utf8_lossy(&out.stderr);
        assert_eq!(out.status.code(), Some(1), "{line}");
        assert!(line.contains("out.wav: cannot be written"), "{line}");
        assert_eq!(line.matches('\n').count(), 1, "{line}");
        assert_eq!(folder.names(), ["in.wav"]);
    }
}
