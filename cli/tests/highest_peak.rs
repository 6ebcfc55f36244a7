//! Where the report puts the file's highest peak: in its lines, its JSON and its picture.

mod common;

use std::f64::consts::{FRAC_PI_2, PI};
use std::fs;

use common::*;
use daggeryuzu_cli::sndfile::Format;

const FRAMES: usize = 20_000;

/// What a run reports.
struct Told {
    lines: String,
    json: String,
    svg: String,
}

impl Told {
    /// The highest peak, as the JSON has it.
    fn peak(&self) -> &str {
        let peak = self.json.split("\"highest_peak\": ").nth(1);
        peak.and_then(|rest| rest.lines().next()).expect("a peak")
    }

    fn number(&self, name: &str) -> f64 {
        let value = member(self.peak(), name);
        value.parse().unwrap_or_else(|_| panic!("{name}: {value}"))
    }

    /// Its frame, channel and phase, and whether it says that it sat so; it is as high as
    /// the higher of the two peaks in.
    fn place(&self) -> (f64, f64, &str, &str) {
        let level = |name| member(&self.json, name).parse::<f64>().expect(name);
        let most = level("sample_peak_dbfs").max(level("detector_peak_dbfs"));
        assert_eq!(self.number("dbfs"), most);
        let place = self.peak().split("\"where\": \"").nth(1).expect("a place");
        let place = place.split('"').next().expect("its end");
        let phase = member(self.peak(), "phase");
        (self.number("frame"), self.number("channel"), place, phase)
    }
}

/// The program on planes of samples, in blocks of so many frames.
fn told(kind: i32, block: usize, planes: &[Vec<f64>]) -> Told {
    let folder = Folder::new();
    let (input, json, svg) = (folder.at("in"), folder.at("json"), folder.at("svg"));
    let format = Format::numbered(kind, 48_000, planes.len()).expect("a format");
    let frames = 0..planes[0].len();
    let samples: Vec<f64> = frames
        .flat_map(|i| planes.iter().map(move |plane| plane[i]))
        .collect();
    write(&input, format, &samples);
    let lines = succeeds(&[
        "--dry-run",
        "--block",
        &block.to_string(),
        "--report",
        text(&json),
        "--plot",
        text(&svg),
        text(&input),
    ]);
    let read = |path| fs::read_to_string(path).expect("a file of text");
    let (json, svg) = (read(&json), read(&svg));
    Told { lines, json, svg }
}

/// Quiet noise, but for these frames.
fn plane(samples: &[(usize, f64)]) -> Vec<f64> {
    let mut plane: Vec<f64> = noise(3).map(|x| 0.01 * x).take(FRAMES).collect();
    for (frame, x) in samples {
        plane[*frame] = *x;
    }
    plane
}

/// A tone at a quarter of the rate that swells and fades, highest at the frame `top`.
fn burst(top: f64) -> Vec<f64> {
    let sample = |frame: usize| {
        let t = frame as f64 - top;
        let swell = (PI * t / 40.0).cos().powi(2);
        if t.abs() < 20.0 {
            0.8 * swell * (FRAC_PI_2 * t).cos()
        } else {
            0.0
        }
    };
    (0..FRAMES).map(sample).collect()
}

/// In a block other than the first, of every kind of samples.
#[test]
fn on_a_sample() {
    for kind in [WAV | PCM_24, WAV | FLOAT, WAV | DOUBLE, FLAC | PCM_16] {
        let told = told(kind, 4096, &[plane(&[]), plane(&[(9000, -0.5)])]);
        assert_eq!(told.place(), (9000.0, 1.0, "on a sample", "null"));
        assert_eq!(told.number("seconds"), 0.1875);
        assert_eq!(member(told.peak(), "time"), "\"00:00:00.187\"");
        let words = "-6.02 dBFS in, at 00:00:00.187, channel 2, on a sample";
        let line = format!("\nhighest peak    {words}\n");
        assert!(told.lines.contains(&line), "{}", told.lines);
        // 9000 of 20,000 frames along 1092 from 72; 6.02 of 48 dB along 328 from 92
        let ring = "<circle class='mark' cx='563.4' cy='133.1' r='4'>";
        let ring = format!("{ring}<title>{words}</title></circle>");
        assert!(told.svg.contains(&ring), "{}", told.svg);
        let name = ">peak in -6.02 dBFS, channel 2, on a sample</text>";
        assert!(told.svg.contains(name), "{}", told.svg);
    }
}

/// The instant of a peak between samples, also where a block's first frames hear what
/// the block before ended with.
#[test]
fn between_samples() {
    for top in [12_345.375, 4095.625, 8191.125, 8192.875] {
        let told = told(WAV | FLOAT, 4096, &[burst(top), plane(&[])]);
        let (frame, eighths) = (top.floor() + 6.0, 8.0 * top.fract());
        let phase = format!("{}", (eighths - 1.0) / 2.0);
        let due = (frame, 0.0, "between samples", phase.as_str());
        assert_eq!(told.place(), due, "{top}");
        assert_eq!(told.number("seconds"), top / 48_000.0);
        let words = ", channel 1, between samples";
        assert!(told.lines.contains(words), "{}", told.lines);
        let ring = format!("cx='{:.1}'", 72.0 + top / FRAMES as f64 * 1092.0);
        assert!(told.svg.contains(&ring), "{}", told.svg);
        assert!(told.svg.contains(&format!(" dBFS{words}</text>")));
    }
}

#[test]
fn of_equal_peaks_the_first() {
    let (early, late) = (plane(&[(5000, 0.5)]), plane(&[(15_000, 0.5)]));
    let told = told(WAV | PCM_24, 4096, &[late, early]);
    assert_eq!(told.place(), (5000.0, 1.0, "on a sample", "null"));
}

/// The limiter tells it block by block; what blocks are makes no difference.
#[test]
fn blocks_of_any_length_put_it_in_the_same_place() {
    let planes = [burst(7777.625), plane(&[(3, 0.75), (19_999, -0.75)])];
    let due = told(WAV | DOUBLE, 4096, &planes);
    assert_eq!(due.place(), (7783.0, 0.0, "between samples", "2"));
    for block in [1, 5, 32, 1013, 65_536] {
        let told = told(WAV | DOUBLE, block, &planes);
        assert_eq!(told.peak(), due.peak(), "{block}");
    }
}

/// Peaks at a file's edges: one between the last samples is heard in the silence after
/// them, and one that the detector puts before the first sample is put at the start.
#[test]
fn at_the_edges_of_the_file() {
    let quiet = vec![0.0; FRAMES];
    let with = |samples: [(usize, f64); 2]| {
        let mut plane = quiet.clone();
        for (frame, x) in samples {
            plane[frame] = x;
        }
        [quiet.clone(), plane]
    };
    let (last, end) = (FRAMES - 1, FRAMES as f64);
    for (samples, frame, phase, at) in [
        ([(0, 0.5), (1, 0.5)], 6.0, "1", 0.375),
        ([(0, 0.5), (1, -0.5)], 5.0, "3", 0.0),
        ([(last - 1, 0.5), (last, 0.5)], end + 4.0, "1", end - 1.625),
        (
            [(last - 1, -0.25), (last, 0.5)],
            end + 5.0,
            "0",
            end - 0.875,
        ),
    ] {
        for block in [1, 4096] {
            let told = told(WAV | FLOAT, block, &with(samples));
            let due = (frame, 1.0, "between samples", phase);
            assert_eq!(told.place(), due, "{samples:?}");
            assert_eq!(told.number("seconds"), at / 48_000.0);
        }
    }
}
