//! Interleaved files through the program, beside the limiter on audio that is
//! rearranged here, sample by sample: the output holds the same, to the last bit.

mod common;

use std::fs;

use common::*;
use daggeryuzu::LimiterSettings;
use daggeryuzu_cli::sndfile::{Format, Sample};

/// Noise, quiet and then too loud, with samples in it that the limiter takes for 0, and
/// one that is just too high for that.
fn audio(frames: usize, channels: usize) -> Vec<f64> {
    let odd = [f64::NAN, 1e-31, -1e-29, -0.0, f64::NEG_INFINITY];
    let noise = swelling(frames, channels).into_iter().enumerate();
    noise
        .map(|(i, x)| {
            if i % 50 == 49 {
                odd[i / 50 % 5]
            } else {
                3.0 * x
            }
        })
        .collect()
}

/// The program on such a file, in blocks of so many frames.
fn beside<T: Sample>(number: i32, channels: usize, frames: usize, block: usize) {
    let folder = Folder::new();
    let (input, output) = (folder.at("in"), folder.at("out"));
    let format = Format::numbered(number, 48_000, channels).expect("a format");
    write(&input, format, &audio(frames, channels));
    succeeds(&["--block", &block.to_string(), text(&input), text(&output)]);
    let (had, has) = (read_as::<T>(&input).1, read_as::<T>(&output).1);
    let due = limited(LimiterSettings::default(), &had, channels);
    let due = due.into_iter().map(T::to_f64);
    let due = due.map(|x| format.encoding.round(x).to_bits());
    assert_eq!(had.len(), channels * frames);
    assert!(
        has.iter().map(|x| x.to_f64().to_bits()).eq(due),
        "{number:x}: {channels} channels, {frames} frames by {block}"
    );
}

/// Lengths that are no multiple of 64, and of no block but 1, one shorter than the
/// latency among them.
const LENGTHS: [(usize, usize); 6] = [
    (9001, 4096),
    (4097, 1000),
    (5003, 65_536),
    (333, 1),
    (130, 7),
    (71, 64),
];

#[test]
fn files_of_floats() {
    for channels in [1, 2, 6] {
        for (frames, block) in LENGTHS {
            beside::<f32>(WAV | FLOAT, channels, frames, block);
        }
    }
    beside::<f32>(AIFF | FLOAT, 2, 9001, 4096);
}

#[test]
fn files_of_doubles() {
    for channels in [1, 2, 6] {
        for (frames, block) in LENGTHS {
            beside::<f64>(WAV | DOUBLE, channels, frames, block);
        }
    }
    beside::<f64>(AIFF | DOUBLE, 2, 9001, 4096);
}

#[test]
fn files_of_whole_numbers() {
    for channels in [1, 2, 6] {
        beside::<f64>(WAV | PCM_16, channels, 9001, 4096);
        beside::<f64>(WAV | PCM_24, channels, 4097, 1000);
        beside::<f64>(FLAC | PCM_24, channels, 5003, 999);
    }
}

#[test]
fn every_number_of_channels() {
    for channels in 1..=8 {
        beside::<f32>(WAV | FLOAT, channels, 1001, 65);
        beside::<f64>(WAV | DOUBLE, channels, 1001, 65);
    }
}

/// As many samples in a block as can be rearranged.
#[test]
fn the_largest_block_of_the_most_channels() {
    beside::<f32>(WAV | FLOAT, 8, 65_601, 65_536);
    beside::<f64>(WAV | DOUBLE, 8, 65_601, 65_536);
}

/// What is quiet comes out as it went in: the same file, byte for byte.
#[test]
fn quiet_files() {
    for kind in [PCM_16, PCM_24, FLOAT, DOUBLE] {
        for channels in [1, 2, 6] {
            let folder = Folder::new();
            let (input, output) = (folder.at("in.wav"), folder.at("out.wav"));
            let format = Format::numbered(WAV | kind, 48_000, channels).expect("a format");
            let quiet = noise(11).map(|x| x / 4.0).take(channels * 9001);
            write(&input, format, &quiet.collect::<Vec<_>>());
            succeeds(&[text(&input), text(&output)]);
            let files = [input, output].map(|path| fs::read(path).expect("a file"));
            assert!(files[0] == files[1], "{kind}: {channels} channels");
        }
    }
}
