//! Channels that are left out: by place and by number, what comes out, what is told of
//! them, and what is refused.

mod common;

use std::fs;
use std::path::Path;

use common::*;
use daggeryuzu::LimiterSettings;
use daggeryuzu_cli::sndfile::{Format, Sample};

const FRAMES: usize = 12_000;

/// The centre and the bass, counted from 0, in files of six channels.
const FC: usize = 2;
const LFE: usize = 3;

/// Six channels: dialogue of some height in the centre, thunder in the bass in the middle
/// third, little elsewhere. Interleaved.
fn drama(dialogue: f64, thunder: f64) -> Vec<f64> {
    let mut sources: Vec<_> = (1..=6).map(noise).collect();
    let mut samples = Vec::new();
    for frame in 0..FRAMES {
        for (channel, source) in sources.iter_mut().enumerate() {
            let rumbles = frame / (FRAMES / 3) == 1;
            let height = match channel {
                FC => dialogue,
                LFE if rumbles => thunder,
                _ => 0.05,
            };
            samples.extend(source.next().map(|x| height * x));
        }
    }
    samples
}

/// Writes such a file. libsndfile gives six channels the places FL FR FC LFE BL BR, where
/// the container tells any.
fn surround(path: &Path, number: i32, samples: &[f64]) {
    let format = Format::numbered(number, 48_000, 6).expect("a format");
    write(path, format, samples);
}

/// Changes the mask that says which places the channels of a WAVEX file have.
fn mask(path: &Path, mask: u32) {
    let mut bytes = fs::read(path).expect("the file");
    bytes[40..44].copy_from_slice(&mask.to_le_bytes());
    fs::write(path, bytes).expect("changed");
}

fn channel(samples: &[f64], channel: usize) -> Vec<f64> {
    let samples = samples.iter().skip(channel).step_by(6);
    samples.copied().collect()
}

/// What a run tells.
struct Told {
    lines: String,
    json: String,
    svg: String,
}

impl Told {
    fn by(folder: &Folder, words: &[&str]) -> Self {
        let (json, svg) = (folder.at("json"), folder.at("svg"));
        let files = ["--report", text(&json), "--plot", text(&svg)];
        let lines = succeeds(&[&files[..], words].concat());
        let read = |path| fs::read_to_string(path).expect("a file of text");
        let (json, svg) = (read(&json), read(&svg));
        Self { lines, json, svg }
    }

    /// A member of the JSON that has a line of its own.
    fn line(&self, name: &str) -> &str {
        let start = format!("\n  \"{name}\": ");
        let rest = self.json.split(&start).nth(1);
        let line = rest.and_then(|rest| rest.lines().next()).expect(name);
        line.trim_end_matches(',')
    }

    /// A level in such a member.
    fn level(&self, name: &str, of: &str) -> f64 {
        let level = member(self.line(name), of);
        level.parse().unwrap_or_else(|_| panic!("{of}: {level}"))
    }
}

/// The program on `in`, with these options: the samples of `out`.
fn comes_out(folder: &Folder, options: &[&str]) -> Vec<f64> {
    let (input, output) = (folder.at("in"), folder.at("out"));
    succeeds(&[options, &[text(&input), text(&output)]].concat());
    read(&output).1
}

#[test]
fn thunder_in_the_bass_does_not_duck_the_dialogue() {
    for number in [
        WAVEX | PCM_16,
        WAVEX | PCM_24,
        WAVEX | FLOAT,
        WAVEX | DOUBLE,
        RF64 | PCM_24,
    ] {
        let folder = Folder::new();
        surround(&folder.at("in"), number, &drama(0.3, 1.0));
        let had = read(&folder.at("in")).1;
        let ducked = comes_out(&folder, &[]);
        assert!(channel(&ducked, FC) != channel(&had, FC), "{number:x}");
        for options in [
            &["--leave-out", "LFE"][..],
            &["--leave-out=lfe"],
            &["--leave-out", "4"],
            &["--leave-out", "Lfe,4", "--leave-out", "LFE"],
        ] {
            // neither the dialogue nor the thunder: nothing else asks for a gain
            let has = comes_out(&folder, options);
            assert!(channel(&has, FC) == channel(&had, FC), "{options:?}");
            assert!(has == had, "{number:x} {options:?}");
        }
    }
}

/// The program beside the limiter: what is left out has the gain of the others.
fn beside<T: Sample>(number: i32, which: &str, left_out: &[usize]) {
    let folder = Folder::new();
    surround(&folder.at("in"), number, &drama(1.9, 4.0));
    let has = comes_out(&folder, &["--leave-out", which]);
    let (format, had) = read_as::<T>(&folder.at("in"));
    let settings = left_out
        .iter()
        .fold(LimiterSettings::default(), |s, c| s.leave_out(*c));
    let due = limited(settings, &had, 6).into_iter().map(T::to_f64);
    let due: Vec<f64> = due.map(|x| format.encoding.round(x)).collect();
    assert!(has == due, "{number:x} {which}");
    let highest = |c| channel(&has, c).iter().fold(0.0_f64, |m, y| m.max(y.abs()));
    for c in 0..6 {
        assert!(left_out.contains(&c) || highest(c) <= TARGET + 1e-7, "{c}");
    }
}

#[test]
fn what_is_left_out_gets_the_gain_of_the_others() {
    beside::<f32>(WAVEX | FLOAT, "LFE", &[LFE]);
    beside::<f64>(WAVEX | DOUBLE, "LFE", &[LFE]);
    beside::<f64>(WAVEX | PCM_24, "LFE", &[LFE]);
    beside::<f64>(WAVEX | DOUBLE, "bl,BR,4", &[LFE, 4, 5]);
    beside::<f64>(WAVEX | DOUBLE, "1,2,4,5,6", &[0, 1, LFE, 4, 5]);
    beside::<f32>(WAV | FLOAT, "4", &[LFE]);
    beside::<f64>(AIFF | DOUBLE, "4", &[LFE]);
    beside::<f64>(FLAC | PCM_24, "4", &[LFE]);
}

/// Whichever places a file has, and where.
#[test]
fn places_are_those_that_the_file_tells() {
    let folder = Folder::new();
    let input = folder.at("in");
    let format = Format::numbered(WAVEX | PCM_24, 48_000, 3).expect("a format");
    write(&input, format, &swelling(3000, 3));
    mask(&input, 0xB); // FL FR LFE
    let told = Told::by(&folder, &["--dry-run", "--leave-out", "LFE", text(&input)]);
    assert!(told.lines.contains("\nleft out        channel 3 (LFE); "));

    surround(&input, WAVEX | PCM_24, &drama(0.3, 1.0));
    mask(&input, 0x60F); // FL FR FC LFE SL SR
    let words = ["--dry-run", "--leave-out", "sr,SL", text(&input)];
    let told = Told::by(&folder, &words);
    let names = "\nleft out        channel 5 (SL), channel 6 (SR); ";
    assert!(told.lines.contains(names), "{}", told.lines);
}

/// An AIFF with the chunk that tells the places of 5.1: left, right, centre, bass, and
/// the surround ones.
#[test]
fn places_of_an_aiff() {
    let folder = Folder::new();
    let input = folder.at("in");
    surround(&input, AIFF | PCM_24, &drama(0.3, 1.0));
    let mut bytes = fs::read(&input).expect("the file");
    let sound = bytes.windows(4).position(|w| w == b"SSND");
    let layout = (121_u32 << 16 | 6).to_be_bytes();
    let chunk = [&b"CHAN\0\0\0\x0c"[..], &layout, &[0; 8]].concat();
    let at = sound.expect("its samples");
    bytes.splice(at..at, chunk);
    let size = (bytes.len() as u32 - 8).to_be_bytes();
    bytes[4..8].copy_from_slice(&size);
    fs::write(&input, bytes).expect("changed");
    let words = ["--dry-run", "--leave-out", "LFE", text(&input)];
    let told = Told::by(&folder, &words);
    assert!(told
        .line("left_out")
        .contains("\"channel\": 3, \"place\": \"LFE\""));
}

/// A peak of 0.5 in the centre, which counts, and a higher one in the bass, which does not.
fn told_of_both() -> Told {
    let folder = Folder::new();
    let (input, output) = (folder.at("in"), folder.at("out"));
    let mut samples = drama(0.1, 0.1);
    samples[6 * 5000 + FC] = 0.5;
    samples[6 * 6000 + LFE] = -0.96875;
    surround(&input, WAVEX | PCM_24, &samples);
    let words = ["--leave-out", "LFE", text(&input), text(&output)];
    Told::by(&folder, &words)
}

/// In JSON the peaks in and out are those of the whole file, beside those of the channels
/// that count; the bass has its own.
#[test]
fn the_json_tells_both() {
    let told = told_of_both();
    let loud = 20.0 * 0.96875_f64.log10();
    for side in ["in", "out"] {
        let peak = told.level(side, "sample_peak_dbfs");
        assert!((peak - loud).abs() < 1e-6, "{side}: {peak}");
        let counted = format!("counted_{side}");
        let peak = told.level(&counted, "sample_peak_dbfs");
        assert!((peak + 6.0206).abs() < 1e-3, "{side}: {peak}");
        assert!(told.level(&counted, "detector_peak_dbfs") < -5.0);
    }
    let bass = told.line("left_out");
    let own = ["in", "out"].map(|side| format!("\"{side}\": {}", told.line(side)));
    let due = format!(
        "[{{ \"channel\": 3, \"place\": \"LFE\", {}, ",
        own.join(", ")
    );
    assert!(bass.starts_with(&due), "{bass}");
    let above = told.level("left_out", "above_target_db");
    assert!((above - (loud + 1.1)).abs() < 1e-6, "{above}");
    let highest = told.line("highest_peak");
    assert_eq!(
        (member(highest, "frame"), member(highest, "channel")),
        ("5000", "2")
    );
    assert_eq!(told.line("least_gain"), "null");
}

/// The lines and the picture show the channels that count, and the bass has a line.
#[test]
fn the_lines_and_the_picture_tell_both() {
    let told = told_of_both();
    for line in [
        "left out        channel 4 (LFE); the next three lines are of the others",
        "sample peak     -6.02 dBFS in, -6.02 dBFS out",
        "highest peak    -6.02 dBFS in, at 00:00:00.104, channel 3, on a sample",
        "above target    channel 4 (LFE) comes out 0.82 dB above the target",
    ] {
        assert!(
            told.lines.contains(&format!("\n{line}\n")),
            "{}",
            told.lines
        );
    }
    let own = "\nchannel 4 (LFE) sample peak -0.28 dBFS in, -0.28 dBFS out; detector peak ";
    assert!(told.lines.contains(own), "{}", told.lines);
    let drawn = ">left out, peaks not drawn: channel 4 (LFE); up to 0.82 dB above the target<";
    assert!(told.svg.contains(drawn), "{}", told.svg);
    assert!(told
        .svg
        .contains("peak in -6.02 dBFS, channel 3, on a sample"));
}

/// Less than 0.005 dB above the target is told in JSON alone.
#[test]
fn a_little_above_the_target_is_told_exactly() {
    let folder = Folder::new();
    let input = folder.at("in");
    for due in [0.004, 0.006] {
        let mut samples = drama(0.1, 0.1);
        samples[6 * 6000 + LFE] = 10_f64.powf((due - 1.1) / 20.0);
        surround(&input, WAVEX | DOUBLE, &samples);
        let words = ["--dry-run", "--leave-out", "LFE", text(&input)];
        let told = Told::by(&folder, &words);
        let above = told.level("left_out", "above_target_db");
        assert!((above - due).abs() < 1e-9, "{above}");
        for told in [told.lines, told.svg] {
            assert_eq!(told.contains("above the target"), due > 0.005, "{told}");
        }
    }
}

/// Without the option, and with a channel that has no place and passes nothing.
#[test]
fn what_there_is_not_is_not_told() {
    let folder = Folder::new();
    let input = folder.at("in");
    surround(&input, WAV | PCM_24, &drama(0.3, 0.2));
    let told = Told::by(&folder, &["--dry-run", text(&input)]);
    assert_eq!(told.line("left_out"), "[]");
    assert_eq!(told.line("counted_in"), told.line("in"));
    assert_eq!(told.line("counted_out"), told.line("out"));
    assert!(!told.lines.contains("left out") && !told.svg.contains("left out"));

    let words = ["--dry-run", "--leave-out", "4", text(&input)];
    let told = Told::by(&folder, &words);
    let bass = told.line("left_out");
    assert!(
        bass.starts_with("[{ \"channel\": 3, \"place\": null, "),
        "{bass}"
    );
    assert!(bass.ends_with("\"above_target_db\": 0 }]"), "{bass}");
    assert!(told.lines.contains("\nleft out        channel 4; "));
    assert!(told
        .lines
        .contains("\nchannel 4       sample peak -13.98 dBFS in, "));
    assert!(!told.lines.contains("above target"), "{}", told.lines);
    assert!(told.svg.contains(">left out, peaks not drawn: channel 4<"));
}

/// The gains are those of the others, however loud the bass is, which tells them too.
#[test]
fn the_gains_are_those_of_the_others() {
    let told = |thunder| {
        let folder = Folder::new();
        let input = folder.at("in");
        surround(&input, WAVEX | DOUBLE, &drama(1.9, thunder));
        let words = ["--dry-run", "--leave-out", "LFE", text(&input)];
        let told = Told::by(&folder, &words);
        let gain = told.level("least_gain", "gain_db");
        let frame = told.level("least_gain", "frame");
        let below = told.line("frames_below_tenth_db").to_string();
        assert!(told.level("counted_out", "detector_peak_dbfs") < -1.1 + 1e-9);
        (gain, frame, below)
    };
    let (silent, loud) = (told(0.0), told(400.0));
    assert!((silent.0 - loud.0).abs() < 1e-9, "{silent:?} {loud:?}");
    assert_eq!((silent.1, silent.2), (loud.1, loud.2));
    assert!((-13.0..-6.0).contains(&silent.0), "{}", silent.0);
}

/// Silence in all that count: no peak, and no gain below 1.
#[test]
fn a_file_whose_other_channels_are_silent() {
    let folder = Folder::new();
    let input = folder.at("in");
    let thunder = drama(0.0, 1.0).into_iter().enumerate();
    let samples: Vec<f64> = thunder
        .map(|(i, x)| if i % 6 == LFE { x } else { 0.0 })
        .collect();
    surround(&input, WAVEX | FLOAT, &samples);
    let words = ["--dry-run", "--leave-out", "LFE", text(&input)];
    let told = Told::by(&folder, &words);
    assert_eq!(told.line("highest_peak"), "null");
    assert_eq!(member(told.line("counted_in"), "sample_peak_dbfs"), "null");
    assert!(told.level("in", "sample_peak_dbfs") > -1.0);
    assert!(told
        .lines
        .contains("\nsample peak     -inf dBFS in, -inf dBFS out\n"));
    assert!(told.lines.contains("\nleast gain      unity throughout\n"));
    assert!(told
        .lines
        .contains("\nabove target    channel 4 (LFE) comes out "));
}

/// Fails with a status and a line that says `said`; no file comes or goes.
fn refused(folder: &Folder, which: &str, status: i32, said: &str) {
    let (input, output) = (folder.at("in"), folder.at("out"));
    let words = ["--leave-out", which, text(&input), text(&output)];
    let line = fails(&words);
    assert!(line.contains(said), "{line}");
    assert_eq!(daggeryuzu(&words).status.code(), Some(status), "{line}");
    assert_eq!(folder.names(), ["in"], "{line}");
}

#[test]
fn channels_that_the_file_does_not_have() {
    let folder = Folder::new();
    let input = folder.at("in");
    surround(&input, WAVEX | PCM_16, &drama(0.3, 1.0));
    let has = "in: cannot leave out SL: the file has FL, FR, FC, LFE, BL, BR";
    refused(&folder, "SL", 1, has);
    refused(&folder, "LFE,sl", 1, has);
    let has = "in: cannot leave out 7: the file has 6 channels";
    refused(&folder, "7", 1, has);
    mask(&input, 0x633);
    let has = "in: cannot leave out LFE: the file has FL, FR, BL, BR, SL, SR";
    refused(&folder, "lfe", 1, has);
    for number in [WAV | PCM_16, AIFF | PCM_16, FLAC | PCM_16] {
        surround(&input, number, &drama(0.3, 1.0));
        let has = "in: cannot leave out LFE: the file does not tell the places of its 6 channels; \
                   name the channel by its number (1 to 6)";
        refused(&folder, "LFE", 1, has);
    }
}

#[test]
fn no_channel_left_to_count() {
    let folder = Folder::new();
    let input = folder.at("in");
    surround(&input, WAVEX | PCM_16, &drama(0.3, 1.0));
    let said = "in: every channel left out: nothing would be limited";
    refused(&folder, "1,2,3,4,5,6", 1, said);
    refused(&folder, "FL,FR,FC,LFE,BL,6", 1, said);
    let format = Format::numbered(WAV | PCM_16, 48_000, 1).expect("a format");
    write(&input, format, &[0.5; 500]);
    refused(&folder, "1", 1, said);
}

#[test]
fn words_that_name_no_channel() {
    let folder = Folder::new();
    surround(&folder.at("in"), WAVEX | PCM_16, &drama(0.3, 1.0));
    for word in ["bass", "0", "9", "LFE;2", "", "LFE,", "-4"] {
        let said = "--leave-out needs a number from 1 to 8 or a place (FL FR FC LFE ";
        refused(&folder, word, 2, said);
    }
}
