//! House weights: setup fills the store from a table where it is asked to, 29 where
//! there is none of the rate and look, and the wrapper asks wherever there is one.

use daggeryuzu::sys::{self, LentStores, SetupStores, STATE};
use daggeryuzu::{Limiter, LimiterSettings, ProcessSpec};

/// The rates and looks that have a table: 1.5 ms.
const HOUSE: [(u32, usize); 4] = [(44_100, 66), (48_000, 72), (96_000, 144), (192_000, 288)];

/// Some that have none: a look beside, the look of another rate, a rate beside.
const NONE: [(u32, usize); 6] = [
    (48_000, 73),
    (48_000, 71),
    (48_000, 66),
    (44_100, 72),
    (88_200, 132),
    (48_001, 72),
];

const CHANNELS: usize = 2;
const FRAMES: usize = 500;

fn spec(rate: u32) -> ProcessSpec {
    ProcessSpec {
        sample_rate: rate,
        channels: CHANNELS,
        max_block: FRAMES,
        max_memory: None,
    }
}

/// Settings that come to a look at a rate.
fn looking((rate, look): (u32, usize)) -> LimiterSettings {
    let ms = look as f64 * 1000.0 / f64::from(rate);
    assert_eq!(sys::look(ms, rate), look as u64);
    LimiterSettings::default().lookahead_ms(ms)
}

fn bits(samples: &[f64]) -> Vec<u64> {
    samples.iter().map(|x| x.to_bits()).collect()
}

/// A limiter with stores of its own, all full of 7 but for the weights.
#[derive(Clone)]
struct Lent {
    state: Vec<u8>,
    delay: Vec<f64>,
    marks: Vec<u64>,
    minima: Vec<f64>,
    weights: Vec<f64>,
    row: Vec<f64>,
    detector: Vec<f64>,
}

impl Lent {
    fn new(look: usize, weights: Vec<f64>) -> Self {
        Self {
            state: vec![7; STATE],
            delay: vec![7.0; CHANNELS * look],
            marks: vec![7; look + 1],
            minima: vec![7.0; look + 1],
            weights,
            row: vec![7.0; look - 11],
            detector: vec![7.0; CHANNELS * 12],
        }
    }

    /// Weights that no setup takes.
    fn unfilled(look: usize) -> Self {
        Self::new(look, vec![f64::NAN; look - 11])
    }

    fn set_up(&mut self, settings: LimiterSettings, spec: ProcessSpec, house: bool) -> u32 {
        let stores = SetupStores {
            delay: &mut self.delay,
            marks: &mut self.marks,
            minima: &mut self.minima,
            weights: &mut self.weights,
            row: &mut self.row,
            detector: &mut self.detector,
        };
        sys::setup(&mut self.state, &mut [], settings, spec, house, stores)
    }

    fn stores(&mut self) -> (&mut [u8], LentStores<'_>) {
        let stores = LentStores {
            delay: &mut self.delay,
            marks: &mut self.marks,
            minima: &mut self.minima,
            weights: &self.weights,
            row: &mut self.row,
            detector: &mut self.detector,
        };
        (&mut self.state, stores)
    }

    /// All of it in bits, so that a NaN is what it is.
    fn whole(&self) -> (Vec<u8>, Vec<u64>) {
        let floats = [&self.delay, &self.minima, &self.weights];
        let mut words: Vec<u64> = floats.into_iter().flat_map(|s| bits(s)).collect();
        words.extend(bits(&self.row).into_iter().chain(bits(&self.detector)));
        words.extend(&self.marks);
        (self.state.clone(), words)
    }
}

/// A limiter on the house table of a rate and look.
fn on_house_table(pair: (u32, usize)) -> Lent {
    let mut lent = Lent::unfilled(pair.1);
    assert_eq!(lent.set_up(looking(pair), spec(pair.0), true), 0);
    lent
}

/// A limiter set up with the weights that another has, which are only read.
fn with_weights_of(other: &Lent, pair: (u32, usize)) -> Lent {
    let mut lent = Lent::new(pair.1, other.weights.clone());
    assert_eq!(lent.set_up(looking(pair), spec(pair.0), false), 0);
    lent
}

#[test]
fn a_house_table_fills_the_weights_and_is_taken_as_they_are() {
    for pair in HOUSE {
        let house = on_house_table(pair);
        let sum: f64 = house.weights.iter().sum();
        assert!((sum - 1.0).abs() < 1e-12, "{pair:?}: {sum}");
        assert!(house.whole() == with_weights_of(&house, pair).whole());
    }
}

#[test]
fn what_the_store_held_is_not_read() {
    for pair in HOUSE {
        let (house, l) = (on_house_table(pair), pair.1 - 11);
        let halved = house.weights.iter().map(|w| 0.5 * w).collect();
        for held in [vec![0.0; l], vec![f64::INFINITY; l], vec![2.0; l], halved] {
            let mut lent = Lent::new(pair.1, held);
            assert_eq!(lent.set_up(looking(pair), spec(pair.0), true), 0);
            assert!(lent.whole() == house.whole(), "{pair:?}");
        }
    }
}

/// A refused setup: its number. It leaves the stores alone, and no limiter.
fn refused(mut lent: Lent, settings: LimiterSettings, spec: ProcessSpec, house: bool) -> u32 {
    let (_, before) = lent.whole();
    let number = lent.set_up(settings, spec, house);
    assert_ne!(number, 0);
    assert!(lent.whole().1 == before, "{number} wrote to a store");
    assert_eq!(sys::parameter(&lent.state, &mut [], 0), 18);
    number
}

#[test]
fn a_rate_and_look_without_a_table_are_refused() {
    for pair in NONE {
        let number = refused(Lent::unfilled(pair.1), looking(pair), spec(pair.0), true);
        assert_eq!(number, 29, "{pair:?}");
    }
}

/// 29 stands between 15 and 16.
#[test]
fn the_order_of_refusals() {
    let told = |pair: (u32, usize), cap, lent: Lent| {
        let spec = ProcessSpec {
            max_memory: cap,
            ..spec(pair.0)
        };
        refused(lent, looking(pair), spec, true)
    };
    for (pairs, due) in [(&HOUSE[..], 16), (&NONE[..], 29)] {
        for &pair in pairs {
            let (mut short, mut long) = (Lent::unfilled(pair.1), Lent::unfilled(pair.1));
            short.weights.pop();
            long.weights.push(0.5);
            let (mut row, mut state) = (Lent::unfilled(pair.1), Lent::unfilled(pair.1));
            row.row.pop();
            state.state.push(7);
            for lent in [short, long, row, state] {
                assert_eq!(told(pair, None, lent), due, "{pair:?}");
            }
            let tight = Some(sys::bytes_needed(CHANNELS, pair.1) - 1);
            assert_eq!(told(pair, tight, Lent::unfilled(pair.1)), 15, "{pair:?}");
        }
    }
    let few = LimiterSettings::default().lookahead_ms(10.0 / 48.0);
    assert_eq!(refused(Lent::unfilled(12), few, spec(48_000), true), 12);
    let slow = LimiterSettings::default();
    assert_eq!(refused(Lent::unfilled(12), slow, spec(7_999), true), 8);
}

#[test]
fn weights_are_judged_where_no_table_is_asked_for() {
    for pair in HOUSE.into_iter().chain(NONE) {
        let number = refused(Lent::unfilled(pair.1), looking(pair), spec(pair.0), false);
        assert_eq!(number, 17, "{pair:?}");
    }
}

#[test]
fn the_four_pairs_alone_have_a_table() {
    let rates = HOUSE.map(|(rate, _)| [rate - 1, rate, rate + 1]);
    let looks = HOUSE.map(|(_, look)| [look - 11, look - 1, look, look + 1, look + (1 << 32)]);
    for rate in rates.into_iter().flatten().chain([0, 88_200, u32::MAX]) {
        for look in looks.into_iter().flatten().chain([0, usize::MAX]) {
            let due = HOUSE.contains(&(rate, look));
            assert_eq!(sys::has_house_weights(rate, look), due, "{rate}, {look}");
        }
    }
}

/// A block of noise within ±4.
fn noise(seed: usize) -> Vec<f64> {
    let mut x = (seed as u32 + 1).wrapping_mul(0x9e37_79b9) | 1;
    let sample = |_| {
        x ^= x << 13;
        x ^= x >> 17;
        x ^= x << 5;
        f64::from(x) / 2_f64.powi(29) - 4.0
    };
    (0..CHANNELS * FRAMES).map(sample).collect()
}

fn processed(lent: &mut Lent, number: usize) -> Vec<u8> {
    let mut audio: Vec<u8> = noise(number).iter().flat_map(|x| x.to_le_bytes()).collect();
    let position = (number * FRAMES) as u64;
    let (state, stores) = lent.stores();
    let told = sys::process(state, &mut [], position, FRAMES, &[], &mut audio, stores);
    assert_eq!(told, 0);
    audio
}

#[test]
fn blocks_are_the_same_on_the_same_weights_lent() {
    for pair in HOUSE {
        let mut house = on_house_table(pair);
        let mut lent = with_weights_of(&house, pair);
        let weights = bits(&house.weights);
        for number in 0..4 {
            let due = processed(&mut lent, number);
            assert!(processed(&mut house, number) == due, "{pair:?}, {number}");
        }
        assert!(house.whole() == lent.whole());
        assert_eq!(bits(&house.weights), weights);
    }
}

fn limiter(rate: u32, lookahead_ms: f64) -> Limiter {
    let settings = LimiterSettings::default().lookahead_ms(lookahead_ms);
    Limiter::prepare(settings, spec(rate)).expect("set up")
}

#[test]
fn the_wrapper_takes_a_house_table_where_there_is_one() {
    for (rate, look) in HOUSE {
        let limiter = limiter(rate, 1.5);
        assert_eq!(limiter.latency(), look);
        assert!(limiter.has_house_weights(), "{rate}");
    }
    // 71.52 frames are 72 too
    assert!(limiter(48_000, 1.49).has_house_weights());
    for (rate, ms) in [
        (22_050, 1.5),
        (88_200, 1.5),
        (48_000, 2.0),
        (192_000, 0.375),
    ] {
        assert!(!limiter(rate, ms).has_house_weights(), "{rate}, {ms} ms");
    }
}

/// On a house table or not, no sample passes the target, and the loudest come near it.
#[test]
fn a_limiter_limits_on_either_kind_of_weights() {
    let target = 10_f64.powf(-1.1 / 20.0);
    for (rate, ms) in [(48_000, 1.5), (192_000, 1.5), (22_050, 1.5), (48_000, 2.0)] {
        let mut limiter = limiter(rate, ms);
        let mut top = 0.0_f64;
        for number in 0..4 {
            let mut audio = noise(number);
            let position = (number * FRAMES) as u64;
            let done = limiter.process(position, &mut audio, &[]);
            done.expect("a block");
            top = audio.iter().fold(top, |top, x| top.max(x.abs()));
        }
        assert!(top <= target * (1.0 + 1e-12), "{rate}: {top}");
        assert!(top > 0.5 * target, "{rate}: {top}");
    }
}
