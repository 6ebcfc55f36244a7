//! Length and alignment at every edge, and the same output for every block.

mod common;

use common::*;
use daggeryuzu_cli::sndfile::Format;

#[test]
fn files_of_any_length_keep_it() {
    let folder = Folder::new();
    let format = Format::numbered(WAV | DOUBLE, 48_000, 1).expect("a format");
    for frames in [1, 10, 11, 71, 72, 73, 144, 4095, 4096, 4097, 8192] {
        let (input, output) = (folder.at("in.wav"), folder.at("out.wav"));
        let samples: Vec<f64> = noise(frames as u64).take(frames).map(|x| x / 4.0).collect();
        write(&input, format, &samples);
        succeeds(&[text(&input), text(&output)]);
        assert!(read(&output).1 == samples, "{frames} frames");
    }
}

#[test]
fn every_block_gives_the_same() {
    let folder = Folder::new();
    let (input, output) = (folder.at("in.wav"), folder.at("out.wav"));
    for kind in [FLOAT, DOUBLE] {
        let format = Format::numbered(WAV | kind, 48_000, 2).expect("a format");
        write(&input, format, &swelling(5000, 2));
        let outputs: Vec<Vec<f64>> = ["1", "7", "32", "71", "4096", "65536"]
            .iter()
            .map(|block| {
                succeeds(&["--block", block, text(&input), text(&output)]);
                read(&output).1
            })
            .collect();
        assert!(outputs.iter().all(|o| *o == outputs[0]));
    }
}

#[test]
fn settings_reach_the_limiter() {
    let folder = Folder::new();
    let (input, output) = (folder.at("in.wav"), folder.at("out.wav"));
    let format = Format::numbered(WAV | DOUBLE, 48_000, 2).expect("a format");
    let samples: Vec<f64> = noise(5).take(20_000).collect();
    write(&input, format, &samples);
    for (threshold, margin, look) in [(-6.0, 0.0, 72), (-12.0, 3.0, 480), (0.0, 0.0, 11)] {
        let lookahead = f64::from(look) / 48.0;
        let told = succeeds(&[
            &format!("--threshold={threshold}"),
            &format!("--margin={margin}"),
            &format!("--lookahead={lookahead}"),
            "--release=5",
            text(&input),
            text(&output),
        ]);
        assert!(
            told.contains(&format!("look {look} frames, release 5 ms")),
            "{told}"
        );
        let target = 10_f64.powf((threshold - margin) / 20.0);
        let (_, has) = read(&output);
        assert_eq!(has.len(), samples.len());
        let most = has.iter().fold(0.0_f64, |m, y| m.max(y.abs()));
        assert!(most <= target * (1.0 + 1e-12), "{most} over {target}");
        assert!(most > 0.5 * target, "{most} far below {target}");
    }
}
