//! Every format and subtype, end to end.

mod common;

use common::*;
use daggeryuzu_cli::sndfile::{Encoding, Format};

/// Limits a file of this format and looks at what came out.
fn limited(number: i32, rate: u32, channels: usize, name: &str) {
    let folder = Folder::new();
    let (input, output) = (folder.at(name), folder.at(&format!("out-{name}")));
    let format = Format::numbered(number, rate, channels).expect("a format");
    let samples = swelling(6000, channels);
    write(&input, format, &samples);
    let before = std::fs::read(&input).expect("the input");
    let told = succeeds(&[text(&input), text(&output)]);
    assert!(told.contains("target"), "{told}");
    let after = std::fs::read(&input).expect("the input");
    assert!(after == before, "{name}: the input was changed");

    let (there, had) = read(&input);
    let (format, has) = read(&output);
    assert_eq!(
        format, there,
        "{name}: container, encoding, rate and channels"
    );
    assert_eq!(has.len(), had.len(), "{name}: length");
    // Quiet comes out as it went in, at its place: to the last bit.
    let quiet = 2500 * channels;
    assert!(has[..quiet] == had[..quiet], "{name}: alignment");
    // Loud comes out with a gain of at most 1, and none passes the target.
    let step = match format.encoding {
        Encoding::Pcm(bits) => 0.5 / f64::from(1_u32 << (bits - 1)),
        Encoding::Float => 1e-7,
        Encoding::Double => 1e-15,
    };
    for (x, y) in had.iter().zip(&has) {
        assert!(
            y.abs() <= x.abs().min(TARGET) + step,
            "{name}: {x} gave {y}"
        );
        assert!((x * y) >= -step, "{name}: {x} gave {y}");
    }
    assert!(
        has[quiet..].iter().any(|y| y.abs() > 0.5),
        "{name}: silence"
    );
}

#[test]
fn wav() {
    for kind in [U8, PCM_16, PCM_24, PCM_32, FLOAT, DOUBLE] {
        limited(WAV | kind, 48_000, 2, &format!("{kind}.wav"));
    }
    limited(WAV | PCM_16, 44_100, 1, "mono.wav");
    limited(WAV | PCM_16, 8_000, 1, "slow.wav");
    limited(WAV | PCM_24, 192_000, 2, "fast.wav");
}

#[test]
fn wav_extended_and_long() {
    for kind in [PCM_16, PCM_24, FLOAT] {
        limited(WAVEX | kind, 48_000, 6, &format!("ex{kind}.wav"));
        limited(RF64 | kind, 48_000, 2, &format!("rf{kind}.wav"));
    }
    limited(WAVEX | PCM_24, 48_000, 8, "eight.wav");
}

#[test]
fn aiff() {
    for kind in [S8, PCM_16, PCM_24, PCM_32, FLOAT, DOUBLE] {
        limited(AIFF | kind, 48_000, 2, &format!("{kind}.aiff"));
    }
    // low byte first, as newer machines write them
    limited(AIFF | 0x1000_0000 | PCM_16, 44_100, 2, "sowt.aiff");
}

#[test]
fn flac() {
    for kind in [S8, PCM_16, PCM_24] {
        limited(FLAC | kind, 48_000, 2, &format!("{kind}.flac"));
    }
    limited(FLAC | PCM_24, 96_000, 1, "mono.flac");
}

/// What is not finite is silence, and what is far too loud comes out at the
/// target.
#[test]
fn floats_beyond_full_scale() {
    for (kind, step) in [(FLOAT, 1e-7), (DOUBLE, 1e-12)] {
        let folder = Folder::new();
        let (input, output) = (folder.at("in.wav"), folder.at("out.wav"));
        let format = Format::numbered(WAV | kind, 48_000, 1).expect("a format");
        let mut samples: Vec<f64> = noise(3).take(4000).map(|x| 40.0 * x).collect();
        samples[100] = f64::NAN;
        samples[2000] = f64::INFINITY;
        write(&input, format, &samples);
        let told = succeeds(&[text(&input), text(&output)]);
        assert!(told.contains("not finite      2 samples"), "{told}");
        let (_, has) = read(&output);
        assert!(has.iter().all(|y| y.abs() <= TARGET + step));
        assert_eq!((has[100], has[2000]), (0.0, 0.0));
    }
}

/// Reads a file of this encoding as f32, which gives the same numbers as f64.
fn read_as_f32(kind: i32) {
    let folder = Folder::new();
    let path = folder.at("in.wav");
    let format = Format::numbered(WAV | kind, 48_000, 1).expect("a format");
    write(&path, format, &swelling(2000, 1));
    let (narrow, wide) = (read_as::<f32>(&path).1, read(&path).1);
    assert!(narrow.iter().map(|x| f64::from(*x)).eq(wide));
}

#[test]
fn an_f32_holds_floats_and_24_bits() {
    for kind in [U8, PCM_16, PCM_24, FLOAT] {
        read_as_f32(kind);
    }
}

#[test]
#[should_panic(expected = "samples would lose digits")]
fn no_f32_is_read_of_32_bits() {
    read_as_f32(PCM_32);
}

#[test]
#[should_panic(expected = "samples would lose digits")]
fn no_f32_is_read_of_doubles() {
    read_as_f32(DOUBLE);
}

/// Runs of the same file give the same bytes: no time of day in them.
#[test]
fn the_same_bytes_every_time() {
    let folder = Folder::new();
    let input = folder.at("in.wav");
    let format = Format::numbered(WAV | FLOAT, 48_000, 2).expect("a format");
    write(&input, format, &swelling(3000, 2));
    let outputs = ["a.wav", "b.wav"].map(|name| {
        let output = folder.at(name);
        succeeds(&[text(&input), text(&output)]);
        std::thread::sleep(std::time::Duration::from_millis(1100));
        std::fs::read(output).expect("the output")
    });
    assert!(outputs[0] == outputs[1]);
    let marks = outputs[0].windows(4).filter(|w| *w == b"PEAK").count();
    assert_eq!(marks, 0);
}
