//! What the tests share: a folder of their own, sound files, runs of the program.

#![allow(dead_code, missing_docs)]

use std::fs::{self, File};
use std::path::{Path, PathBuf};
use std::process::{self, Command, Output};
use std::sync::atomic::{AtomicU32, Ordering};

use daggeryuzu::{Limiter, LimiterSettings, ProcessSpec};
use daggeryuzu_cli::sndfile::{Format, Reader, Sample, Writer};

pub const WAV: i32 = 0x01_0000;
pub const WAVEX: i32 = 0x13_0000;
pub const RF64: i32 = 0x22_0000;
pub const AIFF: i32 = 0x02_0000;
pub const FLAC: i32 = 0x17_0000;

pub const S8: i32 = 1;
pub const PCM_16: i32 = 2;
pub const PCM_24: i32 = 3;
pub const PCM_32: i32 = 4;
pub const U8: i32 = 5;
pub const FLOAT: i32 = 6;
pub const DOUBLE: i32 = 7;

/// −1.1 dB.
pub const TARGET: f64 = 0.881_048_873_008_014_4;

/// A folder that goes with its test.
pub struct Folder(PathBuf);

impl Folder {
    pub fn new() -> Self {
        static COUNT: AtomicU32 = AtomicU32::new(0);
        let name = format!(
            "daggeryuzu-test-{}-{}",
            process::id(),
            COUNT.fetch_add(1, Ordering::Relaxed)
        );
        let path = std::env::temp_dir().join(name);
        fs::create_dir(&path).expect("a folder for the test");
        Self(path)
    }

    pub fn path(&self) -> &Path {
        &self.0
    }

    pub fn at(&self, name: &str) -> PathBuf {
        self.0.join(name)
    }

    /// The names in it, sorted.
    pub fn names(&self) -> Vec<String> {
        let entries = fs::read_dir(&self.0).expect("the folder");
        let mut names: Vec<String> = entries
            .map(|e| e.expect("a name").file_name().to_string_lossy().into())
            .collect();
        names.sort();
        names
    }
}

impl Drop for Folder {
    fn drop(&mut self) {
        let _ = fs::remove_dir_all(&self.0);
    }
}

/// A run of the program.
pub fn daggeryuzu(words: &[&str]) -> Output {
    let mut program = Command::new(env!("CARGO_BIN_EXE_daggeryuzu"));
    program.args(words).output().expect("the program starts")
}

/// A run that must succeed: what it prints.
pub fn succeeds(words: &[&str]) -> String {
    let out = daggeryuzu(words);
    let told = String::from_utf8_lossy(&out.stderr);
    assert!(out.status.success(), "{words:?}: {told}");
    assert_eq!(told, "", "{words:?}");
    String::from_utf8(out.stdout).expect("text")
}

/// A run that must fail: its one line.
pub fn fails(words: &[&str]) -> String {
    let out = daggeryuzu(words);
    assert!(!out.status.success(), "{words:?} succeeded");
    assert!(out.status.code().is_some(), "{words:?} was killed");
    assert_eq!(out.stdout, b"", "{words:?}");
    let told = String::from_utf8(out.stderr).expect("text");
    assert_eq!(told.matches('\n').count(), 1, "{told}");
    assert!(told.starts_with("daggeryuzu: ") && told.ends_with('\n'));
    told
}

pub fn text(path: &Path) -> &str {
    path.to_str().expect("a path of text")
}

/// The value of a member, as it is written.
pub fn member<'a>(json: &'a str, name: &str) -> &'a str {
    let start = format!("\"{name}\": ");
    let rest = json
        .split(&start)
        .nth(1)
        .unwrap_or_else(|| panic!("no {name}"));
    let end = rest.find([',', '\n', '}', ' ']).unwrap_or(rest.len());
    &rest[..end]
}

/// Writes a sound file of interleaved samples, rounded to its encoding.
pub fn write(path: &Path, format: Format, samples: &[f64]) {
    let file = File::create(path).expect("a file");
    let mut writer = Writer::start(file, format).expect("a sound file");
    let rounded: Vec<f64> = samples.iter().map(|x| format.encoding.round(*x)).collect();
    writer.write(&rounded).expect("samples");
    writer.close().expect("a whole file");
}

/// All samples of a sound file, with its format.
pub fn read(path: &Path) -> (Format, Vec<f64>) {
    read_as(path)
}

/// The same as samples of another type.
pub fn read_as<T: Sample>(path: &Path) -> (Format, Vec<T>) {
    let mut reader = Reader::open(path).expect("a sound file");
    let format = reader.format();
    let mut all = Vec::new();
    let mut block = vec![T::from_f64(0.0); 1000 * format.channels];
    loop {
        let frames = reader.read(&mut block).expect("samples");
        all.extend(&block[..frames * format.channels]);
        if frames == 0 {
            return (format, all);
        }
    }
}

/// Noise within ±1, the same for the same seed.
pub fn noise(seed: u64) -> impl Iterator<Item = f64> {
    let mut x = seed.wrapping_mul(0x9e37_79b9_7f4a_7c15) | 1;
    std::iter::from_fn(move || {
        x ^= x << 13;
        x ^= x >> 7;
        x ^= x << 17;
        Some((x >> 11) as f64 / (1_u64 << 52) as f64 - 1.0)
    })
}

/// Interleaved noise that is quiet for its first half and loud after it.
pub fn swelling(frames: usize, channels: usize) -> Vec<f64> {
    let loud = |i: usize| if i < frames * channels / 2 { 0.1 } else { 1.0 };
    noise(7)
        .take(frames * channels)
        .enumerate()
        .map(|(i, x)| loud(i) * x)
        .collect()
}

/// Frames that go through the limiter here at a time; the program has others.
const BLOCK: usize = 1013;

/// Channel after channel.
pub fn planar<T: Copy>(samples: &[T], channels: usize) -> Vec<T> {
    let frames = samples.len() / channels;
    (0..samples.len())
        .map(|at| samples[at % frames * channels + at / frames])
        .collect()
}

/// Frame after frame.
pub fn interleaved<T: Copy>(planes: &[T], channels: usize) -> Vec<T> {
    let frames = planes.len() / channels;
    (0..planes.len())
        .map(|at| planes[at % channels * frames + at / channels])
        .collect()
}

/// Interleaved audio through the limiter: the latency cut off, the tail drained.
pub fn limited<T: Sample>(settings: LimiterSettings, samples: &[T], channels: usize) -> Vec<T> {
    let spec = ProcessSpec {
        sample_rate: 48_000,
        channels,
        max_block: BLOCK,
        max_memory: None,
    };
    let mut limiter = Limiter::prepare(settings, spec).expect("set up");
    let mut out = Vec::new();
    for (n, block) in samples.chunks(channels * BLOCK).enumerate() {
        let mut planes = planar(block, channels);
        let position = (n * BLOCK) as u64;
        limiter
            .process(position, &mut planes, &[])
            .expect("a block");
        out.extend(interleaved(&planes, channels));
    }
    let mut tail = vec![T::from_f64(7.0); channels * limiter.latency()];
    limiter.flush(&mut tail).expect("a drain");
    out.extend(interleaved(&tail, channels));
    out.split_off(channels * limiter.latency())
}
