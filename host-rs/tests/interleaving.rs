//! Interleaved audio to planar and back, within its slice: every sample's place and
//! bits, and what is refused.

use daggeryuzu::{deinterleave, interleave, sys};
use daggeryuzu::{Limiter, LimiterSettings, ProcessSpec, Refusal, Sample};

/// The most samples that one call takes.
const MOST: usize = 524_288;

/// A sample by its bits, as many of them as it has.
trait Bits: Sample {
    fn with(bits: u64) -> Self;
    fn bits(self) -> u64;
}

impl Bits for f32 {
    fn with(bits: u64) -> Self {
        Self::from_bits((bits >> 32) as u32 | bits as u32)
    }
    fn bits(self) -> u64 {
        u64::from(self.to_bits())
    }
}

impl Bits for f64 {
    fn with(bits: u64) -> Self {
        Self::from_bits(bits)
    }
    fn bits(self) -> u64 {
        self.to_bits()
    }
}

/// The high bits of subnormals with both signs, of NaNs, quiet and signalling in one
/// type or the other, and of plain numbers.
const KINDS: [u64; 6] = [
    0,
    0x8000_0000,
    0x7ff8_0000,
    0xfff0_0000,
    0x7f80_0000,
    0x3f80_0000,
];

/// Samples of which no two are alike: the low bits count them.
fn samples<T: Bits>(length: usize) -> Vec<T> {
    let counted = KINDS.iter().cycle().zip(0..length as u64);
    counted.map(|(kind, n)| T::with(kind << 32 | n)).collect()
}

fn bits<T: Bits>(samples: &[T]) -> Vec<u64> {
    samples.iter().map(|x| x.bits()).collect()
}

#[test]
fn no_two_samples_are_alike() {
    let mut seen = bits(&samples::<f32>(MOST));
    seen.sort_unstable();
    seen.dedup();
    assert_eq!(seen.len(), MOST);
}

/// Both rearrangements, each followed by the other.
fn there_and_back<T: Bits>(channels: usize, frames: usize) {
    let case = format!("{channels} channels, {frames} frames");
    let first = samples::<T>(channels * frames);
    let (mut planar, mut interleaved) = (first.clone(), first.clone());
    deinterleave(channels, &mut planar).expect("to planar");
    interleave(channels, &mut interleaved).expect("to interleaved");
    for at in 0..first.len() {
        let place = at % channels * frames + at / channels;
        assert_eq!(planar[place].bits(), first[at].bits(), "{case}");
        assert_eq!(interleaved[at].bits(), first[place].bits(), "{case}");
    }
    interleave(channels, &mut planar).expect("back");
    deinterleave(channels, &mut interleaved).expect("back");
    assert!(bits(&planar) == bits(&first), "{case}");
    assert!(bits(&interleaved) == bits(&first), "{case}");
}

#[test]
fn every_sample_ends_at_its_place_with_its_bits() {
    for channels in 1..=8 {
        for frames in [0, 1, 2, 7, 8, 9, 63, 64, 65, 130, 480, 4096] {
            there_and_back::<f64>(channels, frames);
            there_and_back::<f32>(channels, frames);
        }
    }
}

#[test]
fn as_many_samples_as_a_call_takes() {
    there_and_back::<f64>(8, MOST / 8);
    there_and_back::<f32>(8, MOST / 8);
    there_and_back::<f64>(7, MOST / 7);
    there_and_back::<f32>(1, MOST);
}

/// A limiter knows its channels.
#[test]
fn a_limiter_rearranges_its_own_channels() {
    let spec = ProcessSpec {
        sample_rate: 48_000,
        channels: 3,
        max_block: 2,
        max_memory: None,
    };
    let limiter = Limiter::prepare(LimiterSettings::default(), spec).expect("set up");
    let mut audio = [1.0_f32, 2.0, 3.0, 4.0, 5.0, 6.0];
    limiter.deinterleave(&mut audio).expect("to planar");
    assert_eq!(audio, [1.0, 4.0, 2.0, 5.0, 3.0, 6.0]);
    limiter.interleave(&mut audio).expect("to interleaved");
    assert_eq!(audio, [1.0, 2.0, 3.0, 4.0, 5.0, 6.0]);
    let refused = limiter.deinterleave(&mut audio[..4]);
    assert_eq!(refused.map_err(Refusal::number), Err(28));
    let refused = limiter.interleave(&mut audio[..4]);
    assert_eq!(refused.map_err(Refusal::number), Err(28));
}

/// Both are refused with this number and leave every sample as it was.
fn refused<T: Bits>(channels: usize, length: usize, number: u32) {
    let case = format!("{channels} channels, {length} samples");
    let first = samples::<T>(length);
    let mut audio = first.clone();
    for rearrange in [deinterleave::<T>, interleave::<T>] {
        let refusal = rearrange(channels, &mut audio).expect_err("a refusal");
        assert_eq!(refusal.number(), number, "{case}");
        assert!(bits(&audio) == bits(&first), "{case}");
    }
}

#[test]
fn channels_are_judged_first() {
    for channels in [0, 9, 10, usize::MAX] {
        for length in [0, 1, 90] {
            refused::<f64>(channels, length, 27);
            refused::<f32>(channels, length, 27);
        }
    }
    refused::<f64>(0, MOST + 1, 27);
    refused::<f32>(9, MOST + 1, 27);
}

#[test]
fn a_length_is_whole_frames() {
    for channels in 2..=8 {
        for length in (1..channels).flat_map(|n| [n, 64 * channels + n]) {
            refused::<f64>(channels, length, 28);
            refused::<f32>(channels, length, 28);
        }
    }
}

#[test]
fn a_length_is_not_over_the_most() {
    refused::<f64>(1, MOST + 1, 28);
    refused::<f32>(1, MOST + 1, 28);
    refused::<f64>(8, MOST + 8, 28);
    refused::<f32>(3, MOST + 1, 28); // a multiple of 3
}

/// Bytes that are no whole samples are 28 too, after 27.
#[test]
fn bytes_are_whole_samples() {
    type Call = fn(usize, &mut [u8]) -> u32;
    let calls: [(usize, Call); 4] = [
        (8, sys::deinterleave),
        (8, sys::interleave),
        (4, sys::deinterleave_float),
        (4, sys::interleave_float),
    ];
    for (size, call) in calls {
        for length in 0..=50 {
            let first: Vec<u8> = (0..length).collect();
            let mut audio = first.clone();
            assert_eq!(call(9, &mut audio), 27);
            let due = match first.len() % size {
                0 => 0,
                _ => 28,
            };
            assert_eq!(call(1, &mut audio), due, "{length} bytes");
            assert_eq!(audio, first);
        }
    }
}

#[test]
fn refusals_say_what_is_wrong() {
    let said = |refused: Result<(), Refusal>| refused.expect_err("a refusal").to_string();
    assert_eq!(
        said(deinterleave(0, &mut [0.0])),
        "not 1 to 8 channels to rearrange (refusal 27)"
    );
    assert_eq!(
        said(interleave(2, &mut [0.0])),
        "over 524,288 samples to rearrange, or not whole frames (refusal 28)"
    );
}
