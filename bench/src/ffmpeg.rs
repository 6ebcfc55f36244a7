//! The same audio through FFmpeg: four times the rate, its limiter, and back.
//! What a filter costs is the processor time of a process that runs it, less
//! that of one that runs none. See README.md.

use std::fs::File;
use std::io::{BufWriter, ErrorKind, Write as _};
use std::path::Path;
use std::process::Command;

use crate::audio::blocks;
use crate::clock::timed_children;
use crate::folder::Folder;
use crate::machines::Ours;
use crate::measure::{turn, Case, Effort, Measured};

/// So many times the audio of a round beside the Rust: a process is timed as a
/// whole, and its start must be little beside its work.
const LONGER: f64 = 15.0;

/// Seconds of audio that are enough however long a round is.
const LONGEST: f64 = 600.0;

/// The filter that does nothing.
const NOTHING: &str = "anull";

/// Which FFmpeg a program is; none where PATH has no such program.
pub fn version(program: &str) -> Result<Option<String>, String> {
    match Command::new(program).arg("-version").output() {
        Ok(output) => {
            let text = String::from_utf8_lossy(&output.stdout);
            let words: Vec<&str> = text.split_whitespace().take(3).collect();
            Ok(Some(words.join(" ")))
        }
        Err(e) if e.kind() == ErrorKind::NotFound => Ok(None),
        Err(e) => Err(format!("{program}: {e}")),
    }
}

/// Times a case, ours and FFmpeg by turns; the first round is not counted. None
/// where the audio is too short to tell.
pub fn measure(case: &Case, effort: &Effort) -> Result<Option<Measured>, String> {
    let seconds = (effort.seconds * LONGER).min(LONGEST);
    let frames = (seconds * f64::from(case.rate)) as usize;
    let source: Vec<Vec<f64>> = blocks(case.level, case.channels, case.block, frames);
    let frames = (source.len() * case.block) as f64;
    let folder = Folder::new()?;
    let input = folder.path().join("audio.f64");
    let written = write(&input, &source, case.channels);
    written.map_err(|e| format!("{}: {e}", input.display()))?;
    let (mut ours, chain) = (Ours::new(&case.setup())?, chain(case));
    let mut rounds = Vec::new();
    for round in 0..=effort.rounds {
        let our_time = limit(&mut ours, &source, case)?;
        let nothing = filter(NOTHING, &input, case)?;
        let limited = filter(&chain, &input, case)?;
        if round > 0 {
            let Some(their_time) = added(limited, nothing) else {
                return Ok(None);
            };
            rounds.push((our_time / frames, their_time / frames));
        }
    }
    Ok(Some(Measured::of(&rounds)))
}

/// What a process takes more than one that does nothing. None where that is so
/// little that the starts of the two, which are never alike, would decide it.
fn added(limited: f64, nothing: f64) -> Option<f64> {
    Some(limited - nothing).filter(|more| *more >= nothing / 2.0)
}

/// The filters that are like the limiter at its defaults: its ceiling as a
/// factor, its lookahead and its release.
fn chain(case: &Case) -> String {
    let usual = daggeryuzu::LimiterSettings::default();
    format!(
        "aresample={},alimiter=limit={:.6}:attack={:.3}:release={}:level=disabled,aresample={}",
        4 * case.rate,
        10_f64.powf(usual.threshold_db / 20.0),
        case.lookahead_ms(),
        usual.release_ms,
        case.rate
    )
}

/// Writes planar blocks frame after frame.
fn write(path: &Path, source: &[Vec<f64>], channels: usize) -> std::io::Result<()> {
    let mut file = BufWriter::new(File::create(path)?);
    for block in source {
        for sample in interleaved(block, channels) {
            file.write_all(&sample.to_le_bytes())?;
        }
    }
    file.flush()
}

/// The samples of a planar block, frame after frame.
fn interleaved(block: &[f64], channels: usize) -> impl Iterator<Item = f64> + '_ {
    let frames = block.len() / channels;
    (0..frames).flat_map(move |i| (0..channels).map(move |c| block[c * frames + i]))
}

/// ns that ours takes. As FFmpeg decodes a packet before it filters it, so the
/// blocks of a turn are laid out before the clock starts.
fn limit(ours: &mut Ours, source: &[Vec<f64>], case: &Case) -> Result<f64, String> {
    let mut time = 0.0;
    for blocks in source.chunks(turn(case.block)) {
        time += ours.run(&mut blocks.to_vec(), case.channels, case.asked)?;
    }
    Ok(time)
}

/// ns of processor time, user and system, of a process that runs filters over
/// the input.
fn filter(filters: &str, input: &Path, case: &Case) -> Result<f64, String> {
    let mut command = command(filters, input, case);
    let mut done = None;
    let time = timed_children(|| done = Some(command.output()));
    let output = done.expect("run").map_err(|e| format!("ffmpeg: {e}"))?;
    if output.status.success() {
        Ok(time)
    } else {
        let said = String::from_utf8_lossy(&output.stderr);
        Err(format!("ffmpeg: {}: {}", output.status, said.trim()))
    }
}

/// Raw f64 in, f64 encoded and thrown away: no other format stands between, and
/// no part of the work is shared out among threads.
fn command(filters: &str, input: &Path, case: &Case) -> Command {
    let (rate, channels) = (case.rate.to_string(), case.channels.to_string());
    let mut command = Command::new("ffmpeg");
    command
        .args(["-nostdin", "-hide_banner", "-loglevel", "error"])
        .args(["-filter_threads", "1", "-threads", "1"])
        .args(["-f", "f64le", "-ar", &rate, "-ac", &channels, "-i"])
        .arg(input)
        .args(["-af", filters, "-threads", "1"])
        .args(["-c:a", "pcm_f64le", "-f", "null", "-"]);
    command
}

#[cfg(test)]
mod tests {
    use super::*;

    #[test]
    fn the_chain_is_the_limiter_at_its_defaults() {
        let expected = "aresample=192000,\
            alimiter=limit=0.891251:attack=1.500:release=50:level=disabled,\
            aresample=48000";
        assert_eq!(chain(&Case::default()), expected);
    }

    #[test]
    fn what_is_added_must_be_much_beside_the_start() {
        assert_eq!(added(300.0, 100.0), Some(200.0));
        assert_eq!(added(150.0, 100.0), Some(50.0));
        assert_eq!(added(149.0, 100.0), None);
        assert_eq!(added(90.0, 100.0), None);
    }

    #[test]
    fn frame_after_frame() {
        let seen: Vec<f64> = interleaved(&[1.0, 2.0, 3.0, 10.0, 20.0, 30.0], 2).collect();
        assert_eq!(seen, [1.0, 10.0, 2.0, 20.0, 3.0, 30.0]);
    }

    #[test]
    fn a_file_has_every_sample() {
        let folder = Folder::new().expect("a folder");
        let path = folder.path().join("audio.f64");
        write(&path, &[vec![1.0, 2.0], vec![3.0, 4.0]], 2).expect("written");
        let expected: Vec<u8> = [1.0_f64, 2.0, 3.0, 4.0]
            .iter()
            .flat_map(|sample| sample.to_le_bytes())
            .collect();
        assert_eq!(std::fs::read(&path).expect("read"), expected);
    }

    #[test]
    fn a_program_that_is_not_there_has_no_version() {
        assert_eq!(version("no-such-program-as-this"), Ok(None));
    }

    /// Passes without a look where there is no ffmpeg.
    #[test]
    fn a_short_case_is_measured() {
        if version("ffmpeg") == Ok(None) {
            return;
        }
        let effort = Effort {
            seconds: 1.0,
            rounds: 1,
        };
        let seen = measure(&Case::default(), &effort).expect("measured");
        if let Some(seen) = seen {
            assert!(seen.ours.low > 0.0 && seen.theirs.low > 0.0);
        }
    }

    /// Passes without a look where there is no ffmpeg.
    #[test]
    fn what_ffmpeg_refuses_is_an_error() {
        if version("ffmpeg") == Ok(None) {
            return;
        }
        let folder = Folder::new().expect("a folder");
        let line = filter(NOTHING, &folder.path().join("none"), &Case::default());
        assert!(line.expect_err("no input").contains("none"));
    }
}
