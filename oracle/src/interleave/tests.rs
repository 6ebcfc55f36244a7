//! The comparison itself: the model is what document 02 says, every kind of slice
//! is met, and a side that is wrong is found.

use super::draw::ends;
use super::model::call as model;
use super::play::Lent;
use super::*;
use crate::audio::Audio;

/// All of the ends, and random slices behind them.
const RUN: Settings = Settings {
    slices: 3_000,
    seed: 1,
};

fn asked(direction: Direction, format: Format, channels: usize) -> Call {
    Call {
        direction,
        format,
        channels,
    }
}

/// Frame after frame, and the same channel after channel.
fn beside(channels: usize, interleaved: &Audio, planar: &Audio) {
    for (direction, before, after) in [
        (Direction::Deinterleave, interleaved, planar),
        (Direction::Interleave, planar, interleaved),
    ] {
        let mut audio = before.clone();
        let call = asked(direction, audio.format, channels);
        assert_eq!(model(&call, &mut audio.bytes), 0);
        assert_eq!(&audio, after, "{call:?}");
    }
}

#[test]
fn the_model_is_right_on_written_examples() {
    let stereo = [1.0, -1.0, 2.0, -2.0, 3.0, -3.0];
    let planes = [1.0, 2.0, 3.0, -1.0, -2.0, -3.0];
    beside(2, &Audio::of(&stereo), &Audio::of(&planes));
    let narrow = |samples: [f64; 6]| Audio::of(&samples.map(|x| x as f32));
    beside(2, &narrow(stereo), &narrow(planes));
    // Three channels of two frames are the inverse of two of three.
    beside(3, &Audio::of(&planes), &Audio::of(&stereo));
    // A lone channel, a lone frame and no frame stay as they are.
    for channels in [1, 6] {
        beside(channels, &Audio::of(&stereo), &Audio::of(&stereo));
        beside(channels, &Audio::of::<f32>(&[]), &Audio::of::<f32>(&[]));
    }
    let bytes = |text: &str| Audio {
        format: Format::F32,
        bytes: text.into(),
    };
    beside(2, &bytes("L000R000L111R111"), &bytes("L000L111R000R111"));
}

#[test]
fn the_model_refuses_by_the_table() {
    let longest = 524_288;
    for (channels, samples, more, number) in [
        (1, longest, 0, 0),
        (8, longest, 0, 0),
        (3, longest - 2, 0, 0),
        (0, 0, 0, 27),
        (0, 3, 1, 27),
        (9, 9, 0, 27),
        (usize::MAX, longest + 1, 0, 27),
        (2, 3, 0, 28),
        (3, longest, 0, 28),
        (3, longest + 1, 0, 28),
        (1, longest + 1, 0, 28),
        (8, longest + 8, 0, 28),
        (2, 2, 1, 28),
        (1, 0, 3, 28),
        (1, longest, 1, 28),
    ] {
        for format in [Format::F64, Format::F32] {
            let mut audio: Vec<u8> = vec![0; samples * format.size() + more];
            audio.iter_mut().zip(0..).for_each(|(byte, n)| *byte = n);
            let before = audio.clone();
            let call = asked(Direction::Deinterleave, format, channels);
            assert_eq!(
                model(&call, &mut audio),
                number,
                "{call:?} {samples} {more}"
            );
            assert!(number == 0 || audio == before);
        }
    }
}

#[test]
fn slices_of_every_kind_are_met() {
    let ends = ends();
    assert!((ends.len() as u64) < RUN.slices);
    let slices: Vec<Slice> = (0..RUN.slices)
        .map(|number| draw::slice(RUN.seed, number, &ends))
        .collect();
    let has = |test: &dyn Fn(&Slice) -> bool| assert!(slices.iter().any(test));
    for direction in [Direction::Deinterleave, Direction::Interleave] {
        for (format, size) in [(Format::F64, 8), (Format::F32, 4)] {
            let has = |channels, test: &dyn Fn(&Slice) -> bool| {
                let call = asked(direction, format, channels);
                has(&|slice| slice.call == call && test(slice));
            };
            for channels in 1..=8 {
                for frames in [0, 1, 63, 64, 65, 127, 128, 129, 65_535, 65_536] {
                    has(channels, &|s| s.bytes == frames * channels * size);
                }
                let most = 524_288 / channels * channels;
                for samples in [most, most + channels, 524_289] {
                    has(channels, &|s| s.bytes == samples * size);
                }
                has(channels, &|s| s.bytes % size != 0);
                has(channels, &|s| s.offset % 2 == 1 && !s.nans);
                has(channels, &|s| s.nans && s.bytes > 0);
            }
            for channels in [0, 9, usize::MAX] {
                has(channels, &|s| s.bytes == 0);
                has(channels, &|s| s.bytes == 524_289 * size);
            }
        }
    }
}

#[test]
fn a_slice_lies_where_it_asks_to() {
    let slice = |offset, nans| Slice {
        call: asked(Direction::Interleave, Format::F32, 2),
        bytes: 24,
        offset,
        seed: 1,
        nans,
    };
    for offset in [0, 1, 4, 15] {
        let lent = Lent::new(&slice(offset, true));
        assert_eq!(lent.place.len(), 24);
        let slice = &lent.bytes[lent.place.clone()];
        assert_eq!(slice.as_ptr().align_offset(16), (16 - offset) % 16);
        let exponent = |s: &[u8]| s[3] & 0x7f == 0x7f && s[2] & 0x80 != 0;
        assert!(slice.chunks_exact(4).all(exponent));
    }
    let lent = Lent::new(&slice(0, false));
    for (at, said) in [
        (lent.place.start - 1, "written 1 bytes before the slice"),
        (
            lent.place.end,
            "written past the slice, 0 bytes from its end",
        ),
        (lent.place.end - 1, "audio, sample 5"),
    ] {
        let mut seen = lent.clone();
        assert_eq!(lent.differs(&seen, Format::F32), None);
        seen.bytes[at] ^= 1;
        let told = lent.differs(&seen, Format::F32).expect("a difference");
        assert!(told.contains(said), "{told}");
    }
}

#[test]
fn a_run_without_a_difference_tells_its_counts() {
    let (passed, text) = run(&RUN, model);
    assert!(passed && text.starts_with("3000 slices, "), "{text}");
    assert!(text.ends_with(", 0 differences, seed 1\n"), "{text}");
}

/// The last frame is left where it was.
fn last_frame_stays(call: &Call, audio: &mut [u8]) -> u32 {
    let before = audio.to_vec();
    let number = model(call, audio);
    if number == 0 {
        let end = audio.len() - audio.len().min(call.channels * call.format.size());
        audio[end..].copy_from_slice(&before[end..]);
    }
    number
}

/// Channels and frames are exchanged, which is each other's work.
fn exchanged(call: &Call, audio: &mut [u8]) -> u32 {
    let direction = call.direction.inverse();
    model(&Call { direction, ..*call }, audio)
}

/// Nothing is moved one way.
fn stays_interleaved(call: &Call, audio: &mut [u8]) -> u32 {
    let before = audio.to_vec();
    let number = model(call, audio);
    if call.direction == Direction::Interleave {
        audio.copy_from_slice(&before);
    }
    number
}

/// A refused slice's first byte is changed.
fn touched(call: &Call, audio: &mut [u8]) -> u32 {
    let number = model(call, audio);
    if number == 28 {
        audio.iter_mut().take(1).for_each(|byte| *byte ^= 1);
    }
    number
}

/// The length is judged first.
fn other_order(call: &Call, audio: &mut [u8]) -> u32 {
    if audio.len() > 524_288 * call.format.size() {
        return 28;
    }
    model(call, audio)
}

/// Only the low half of a word of channels counts.
fn cut_off(call: &Call, audio: &mut [u8]) -> u32 {
    let channels = call.channels as u32 as usize;
    model(&Call { channels, ..*call }, audio)
}

/// Bytes behind the last whole sample are passed over.
fn whole_samples(call: &Call, audio: &mut [u8]) -> u32 {
    let whole = audio.len() - audio.len() % call.format.size();
    model(call, &mut audio[..whole])
}

/// No longer than the largest block of any number of channels.
fn blocks_alone(call: &Call, audio: &mut [u8]) -> u32 {
    let most = 65_536 * call.channels.saturating_mul(call.format.size());
    if (1..=8).contains(&call.channels) && audio.len() > most {
        return 28;
    }
    model(call, audio)
}

/// Wrong only where one frame follows a multiple of 64 frames.
fn wrong_past_64(call: &Call, audio: &mut [u8]) -> u32 {
    let number = model(call, audio);
    let frame = call.channels.saturating_mul(call.format.size());
    if number == 0 && call.channels > 1 && audio.len() / frame % 64 == 1 {
        audio.reverse();
    }
    number
}

/// Samples that do not start at a multiple of their size stay.
fn aligned_alone(call: &Call, audio: &mut [u8]) -> u32 {
    let before = audio.to_vec();
    let number = model(call, audio);
    if audio.as_ptr().align_offset(call.format.size()) != 0 {
        audio.copy_from_slice(&before);
    }
    number
}

/// Every NaN of 64 bits becomes a quiet one.
fn quiet(call: &Call, audio: &mut [u8]) -> u32 {
    let number = model(call, audio);
    if number == 0 && call.format == Format::F64 {
        for sample in audio.chunks_exact_mut(8) {
            let nan = sample[7] & 0x7f == 0x7f && sample[6] & 0xf0 == 0xf0;
            sample[6] |= if nan { 8 } else { 0 };
        }
    }
    number
}

#[test]
fn wrong_sides_are_found_and_told_in_short() {
    for (side, said) in [
        (last_frame_stays as Side, "channels 2, bytes 32 (2 frames)"),
        (exchanged, "channels 2, bytes 48 (3 frames)"),
        (stays_interleaved, "back again, audio, sample 1"),
        (touched, "changed by a refused call, audio, sample"),
        (other_order, "number: due 27, seen 28"),
        (cut_off, "number: due 27, seen 0"),
        (whole_samples, "number: due 28, seen 0"),
        (blocks_alone, "number: due 0, seen 28"),
        (wrong_past_64, "channels 2, bytes 16 (1 frames)"),
        (aligned_alone, "audio, sample"),
        (quiet, "audio, sample"),
    ] {
        let (passed, text) = run(&RUN, side);
        assert!(!passed && text.contains(said), "{said}: {text}");
        assert!(text.starts_with("1 difference, seed 1, slice "), "{text}");
        assert_eq!(text.lines().count(), 3, "{text}");
    }
}
