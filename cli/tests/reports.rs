//! The report, its JSON and its picture; the dry run; the demonstration.

mod common;

use std::fs;

use common::*;
use daggeryuzu_cli::demo;
use daggeryuzu_cli::sndfile::Format;

/// A second of silence with one loud tone in its middle.
fn tone(folder: &Folder, kind: i32) {
    let format = Format::numbered(WAV | kind, 48_000, 2).expect("a format");
    let mut samples = vec![0.0; 2 * 48_000];
    for i in 24_000..24_480 {
        // a quarter of the rate, beside its peaks
        let x = [0.9, 0.9, -0.9, -0.9][i % 4];
        samples[2 * i] = x;
        samples[2 * i + 1] = -0.5 * x;
    }
    write(&folder.at("in.wav"), format, &samples);
}

#[test]
fn the_numbers_are_those_of_the_file() {
    the_numbers(PCM_24);
}

#[test]
fn the_numbers_are_those_of_a_file_of_floats() {
    the_numbers(FLOAT);
}

fn the_numbers(kind: i32) {
    let folder = Folder::new();
    tone(&folder, kind);
    let (input, output) = (folder.at("in.wav"), folder.at("out.wav"));
    let (json, svg) = (folder.at("r.json"), folder.at("p.svg"));
    let words = [
        "--report",
        text(&json),
        "--plot",
        text(&svg),
        text(&input),
        text(&output),
    ];
    let told = succeeds(&words);
    let names = ["in.wav", "out.wav", "p.svg", "r.json"];
    assert_eq!(folder.names(), names);

    let json = fs::read_to_string(json).expect("the report");
    let number = |name: &str| member(&json, name).parse::<f64>().expect(name);
    assert_eq!(number("frames"), 48_000.0);
    assert_eq!(number("rate"), 48_000.0);
    assert_eq!(number("target_dbfs"), -1.1);
    assert_eq!(number("look_frames"), 72.0);
    assert_eq!(member(&json, "weights"), "\"house\"");
    assert!((number("sample_peak_dbfs") - 20.0 * 0.9_f64.log10()).abs() < 1e-6);
    let seen = number("detector_peak_dbfs");
    assert!((1.8..2.6).contains(&seen), "{seen}");
    let out = json.split("\"out\": ").nth(1).expect("the output's peaks");
    let out: f64 = member(out, "detector_peak_dbfs").parse().expect("a level");
    assert!(out <= -1.1 + 1e-5, "{out}");
    let least = number("gain_db");
    assert!((least - (-1.1 - seen)).abs() < 0.2, "{least}");
    let least = json.split("\"least_gain\": ").nth(1).expect("a gain");
    let frame: f64 = member(least, "frame").parse().expect("a frame");
    assert!((24_000.0..24_480.0).contains(&frame), "{frame}");
    assert!(json.contains("\"time\": \"00:00:00.50"), "{json}");
    let below = number("frames_below_unity");
    assert!((400.0..=480.0).contains(&below), "{below}");
    assert!(number("real_time_factor") > 0.0);
    assert!(told.contains("at 00:00:00.50"), "{told}");
    assert!(told.contains("release 50 ms, house weights)\n"), "{told}");
    assert!(told.contains("written         "), "{told}");

    let svg = fs::read_to_string(svg).expect("the picture");
    assert!(svg.starts_with("<svg ") && svg.ends_with("</svg>\n"));
    for part in [
        "in.wav",
        "target -1.10 dBFS",
        "peak, dBFS",
        "gain, dB",
        ">time",
    ] {
        assert!(svg.contains(part), "{part}");
    }
    assert!(!svg.contains("NaN") && !svg.contains("inf"));
}

/// The house's for 1.5 ms, the default, at the rates that have them.
#[test]
fn whose_the_weights_are_is_told() {
    let folder = Folder::new();
    let (input, json) = (folder.at("in.wav"), folder.at("r.json"));
    for (rate, lookahead, due) in [
        (44_100, "1.5", "house"),
        (48_000, "1.5", "house"),
        (96_000, "1.5", "house"),
        (192_000, "1.5", "house"),
        (22_050, "1.5", "computed"),
        (48_000, "2", "computed"),
    ] {
        let format = Format::numbered(WAV | PCM_16, rate, 1).expect("a format");
        write(&input, format, &[0.25; 500]);
        let words = ["--dry-run", "--lookahead", lookahead, "--report"];
        let told = succeeds(&[&words[..], &[text(&json), text(&input)]].concat());
        assert!(told.contains(&format!(", {due} weights)\n")), "{told}");
        let json = fs::read_to_string(&json).expect("the report");
        assert_eq!(member(&json, "weights"), format!("\"{due}\""), "{rate}");
    }
}

/// A peak on any frame is metered: the first, the last, and at a block's edge.
#[test]
fn every_frame_is_metered() {
    let folder = Folder::new();
    let (input, json) = (folder.at("in.wav"), folder.at("r.json"));
    let format = Format::numbered(WAV | FLOAT, 48_000, 2).expect("a format");
    for sample in [0, 1, 8190, 8191, 8192, 8193, 19_998, 19_999] {
        let mut samples = vec![0.0; 20_000];
        samples[sample] = 0.5;
        write(&input, format, &samples);
        succeeds(&["--dry-run", "--report", text(&json), text(&input)]);
        let json = fs::read_to_string(&json).expect("the report");
        for side in ["\"in\": ", "\"out\": "] {
            let peaks = json.split(side).nth(1).expect("peaks");
            let peak: f64 = member(peaks, "sample_peak_dbfs").parse().expect("a level");
            assert!((peak + 6.0206).abs() < 1e-3, "{sample}: {peak}");
        }
    }
}

#[test]
fn a_dry_run_writes_no_sound() {
    let folder = Folder::new();
    tone(&folder, PCM_24);
    let (input, json) = (folder.at("in.wav"), folder.at("r.json"));
    let told = succeeds(&["--dry-run", text(&input)]);
    assert!(told.contains("nothing (dry run)"), "{told}");
    assert_eq!(folder.names(), ["in.wav"]);
    let out = folder.at("out.wav");
    succeeds(&[
        "--dry-run",
        "--report",
        text(&json),
        text(&input),
        text(&out),
    ]);
    assert_eq!(folder.names(), ["in.wav", "r.json"]);
    let json = fs::read_to_string(json).expect("the report");
    assert_eq!(member(&json, "output"), "null");
}

#[test]
fn silence_has_no_level_and_no_gain() {
    let folder = Folder::new();
    let (input, output) = (folder.at("in.wav"), folder.at("out.wav"));
    let format = Format::numbered(WAV | PCM_16, 8_000, 1).expect("a format");
    write(&input, format, &[0.0; 500]);
    let (json, svg) = (folder.at("r.json"), folder.at("p.svg"));
    let words = [
        "--report",
        text(&json),
        "--plot",
        text(&svg),
        text(&input),
        text(&output),
    ];
    let told = succeeds(&words);
    assert!(
        told.contains("unity throughout") && told.contains("-inf dBFS in"),
        "{told}"
    );
    assert!(told.contains("\nhighest peak    none\n"), "{told}");
    let json = fs::read_to_string(json).expect("the report");
    assert_eq!(member(&json, "least_gain"), "null");
    assert_eq!(member(&json, "highest_peak"), "null");
    assert_eq!(member(&json, "sample_peak_dbfs"), "null");
    let svg = fs::read_to_string(svg).expect("the picture");
    assert!(!svg.contains("<circle") && !svg.contains("peak in "));
    assert!(!svg.contains("NaN") && !svg.contains("inf"));
}

#[test]
fn an_old_output_is_replaced_also_through_a_link() {
    let folder = Folder::new();
    tone(&folder, PCM_24);
    let (input, output, link) = (
        folder.at("in.wav"),
        folder.at("out.wav"),
        folder.at("link.wav"),
    );
    fs::write(&output, "old").expect("a file");
    std::os::unix::fs::symlink(&output, &link).expect("a link");
    succeeds(&[text(&input), text(&link)]);
    assert!(fs::symlink_metadata(&link).expect("the link").is_symlink());
    assert_eq!(read(&output).1.len(), 96_000);
}

#[test]
fn the_demonstration_is_the_same_every_time() {
    let samples = demo::chapter();
    let digest = samples.iter().fold(0xcbf2_9ce4_8422_2325, |hash: u64, x| {
        (hash ^ x.to_bits()).wrapping_mul(0x0100_0000_01b3)
    });
    assert_eq!(format!("{digest:016x}"), "5d90fa9c82c6db25");

    let folder = Folder::new();
    let (chapter, output) = (folder.at("demo.wav"), folder.at("out.wav"));
    let told = succeeds(&["demo", text(&chapter)]);
    assert!(told.contains("frames, 00:00:2"), "{told}");
    let (format, has) = read(&chapter);
    assert_eq!((format.rate, format.channels), (48_000, 2));
    assert!(has == samples);

    let json = folder.at("r.json");
    succeeds(&["--report", text(&json), text(&chapter), text(&output)]);
    let json = fs::read_to_string(json).expect("the report");
    let number = |name: &str| member(&json, name).parse::<f64>().expect(name);
    // peaks between the samples, and stretches of unity
    assert!(number("detector_peak_dbfs") > number("sample_peak_dbfs") + 1.0);
    assert!(number("frames_below_unity") < 0.8 * number("frames"));
    assert!(number("gain_db") < -2.0);
}

#[test]
fn help_and_version_are_told() {
    assert!(succeeds(&["--help"]).contains("--threshold DB"));
    assert!(succeeds(&["--version"]).starts_with("daggeryuzu 0."));
}
