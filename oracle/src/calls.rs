//! The limiter's calls as they cross by the C functions: what a host lends, what
//! it asks, and whether two sides left the same.

use crate::audio::{Audio, Format};
use crate::layout::state;
use crate::model::setup::Setup;
use crate::numbers::canonical;

/// The bytes of a state and the words of an answer.
pub const STATE: usize = 8 * state::WORDS;
pub const ANSWER: usize = 8;

/// The stores' names, in document 01's order; the second holds whole numbers.
pub const STORES: [&str; 6] = ["delay", "marks", "minima", "weights", "row", "detector"];
pub const MARKS: usize = 1;
pub const WEIGHTS: usize = 3;
pub const ROW: usize = 4;
pub const DETECTOR: usize = 5;

/// The lent stores, in that order, each as the bits of what it holds.
#[derive(Clone, Debug, Default, PartialEq, Eq)]
pub struct Stores(pub [Vec<u64>; 6]);

/// What a call is lent beside its events and its audio. The answer may have any
/// length.
#[derive(Clone, Debug, Default)]
pub struct Lent {
    pub state: Vec<u8>,
    pub answer: Vec<u64>,
    pub stores: Stores,
}

/// A call with its arguments. Events are three words each.
#[derive(Clone, Debug)]
pub enum Call {
    Setup {
        setup: Setup,
        cap: Option<u64>,
        /// Whether it asks for a house table.
        house: bool,
    },
    Process {
        position: u64,
        frames: u64,
        events: Vec<u64>,
        audio: Audio,
    },
    Flush {
        frames: u64,
        audio: Audio,
    },
    Set {
        id: u32,
        bits: u64,
    },
    Read {
        id: u32,
    },
    Reset,
    GainStep {
        bits: u64,
    },
    /// The three functions of numbers alone; the answer's first word is theirs.
    Look {
        lookahead: f64,
        rate: u32,
    },
    Bytes {
        channels: u64,
        look: u64,
    },
    House {
        rate: u32,
        look: u64,
    },
}

impl Lent {
    /// The eight words of an answer, as many as fit: the values, then 0.
    pub fn tell(&mut self, values: &[u64]) {
        let mut words = [0; ANSWER];
        words[..values.len()].copy_from_slice(values);
        for (place, word) in self.answer.iter_mut().zip(words) {
            *place = word;
        }
    }
}

/// A side of the comparison: it plays a call and answers document 01's number.
pub type Side = fn(&mut Lent, &mut Call) -> u32;

impl Call {
    /// The audio that the call is lent.
    pub fn audio(&self) -> Option<&Audio> {
        match self {
            Self::Process { audio, .. } | Self::Flush { audio, .. } => Some(audio),
            _ => None,
        }
    }

    /// The same, to change it.
    pub fn audio_mut(&mut self) -> Option<&mut Audio> {
        match self {
            Self::Process { audio, .. } | Self::Flush { audio, .. } => Some(audio),
            _ => None,
        }
    }

    /// The sample type of that audio.
    pub fn format(&self) -> Option<Format> {
        self.audio().map(|audio| audio.format)
    }

    /// Whether an answer's word is a float, so that any NaN is as good.
    fn tells_float(&self, at: usize) -> bool {
        match self {
            Self::GainStep { .. } => [0, 4, 5].contains(&at),
            Self::Read { .. } => at == 0,
            _ => false,
        }
    }
}

/// Bytes as words, low byte first; a last one may be short of bytes.
pub fn words(bytes: &[u8]) -> Vec<u64> {
    let word = |b: &[u8]| b.iter().rev().fold(0, |w, &x| w << 8 | u64::from(x));
    bytes.chunks(8).map(word).collect()
}

/// The floats of a store.
pub fn floats(words: &[u64]) -> Vec<f64> {
    words.iter().map(|&word| f64::from_bits(word)).collect()
}

/// Where two answers of one call differ.
pub fn answers_differ(call: &Call, due: &[u64], seen: &[u64]) -> Option<String> {
    let differs = |at: &usize| !alike(due[*at], seen[*at], call.tells_float(*at));
    let lengths = (due.len() != seen.len()).then(|| "answer: another length".to_owned());
    lengths.or_else(|| {
        let at = (0..due.len()).find(differs)?;
        Some(told(&format!("answer[{at}]"), due[at], seen[at]))
    })
}

/// Where two sides' audio differs, in any bit.
pub fn audio_differs(due: Option<&Audio>, seen: Option<&Audio>) -> Option<String> {
    if due == seen {
        return None;
    }
    let (Some(due), Some(seen)) = (due, seen) else {
        return Some("audio: on one side alone".to_owned());
    };
    if due.format != seen.format {
        return Some("audio: another sample type".to_owned());
    }
    if due.bytes.len() != seen.bytes.len() {
        return Some("audio: another length".to_owned());
    }
    let mut pairs = due.bytes.iter().zip(&seen.bytes);
    let at = pairs.position(|(d, s)| d != s)? / due.format.size();
    let (due, seen) = (due.shown(at), seen.shown(at));
    Some(format!("audio, sample {at}: due {due}, seen {seen}"))
}

/// Where states and stores differ; where the call finished, any NaN is as good
/// as another.
pub fn lent_differs(due: &Lent, seen: &Lent, finished: bool) -> Option<String> {
    state_differs(&due.state, &seen.state, finished).or_else(|| {
        let pairs = due.stores.0.iter().zip(&seen.stores.0);
        let mut differences = pairs.zip(STORES).map(|((due, seen), name)| {
            let floats = finished && name != STORES[MARKS];
            words_differ(name, due, seen, |_| floats)
        });
        differences.find_map(|difference| difference)
    })
}

fn state_differs(due: &[u8], seen: &[u8], finished: bool) -> Option<String> {
    if due == seen {
        return None;
    }
    words_differ("state", &words(due), &words(seen), |at| {
        finished && state::is_float(at)
    })
}

fn words_differ(
    name: &str,
    due: &[u64],
    seen: &[u64],
    float: impl Fn(usize) -> bool,
) -> Option<String> {
    if due == seen {
        return None;
    }
    if due.len() != seen.len() {
        return Some(format!("{name}: another length"));
    }
    let at = (0..due.len()).find(|&at| !alike(due[at], seen[at], float(at)))?;
    Some(told(&format!("{name}[{at}]"), due[at], seen[at]))
}

/// Two words, which are equal or both a NaN where floats stand.
fn alike(due: u64, seen: u64, float: bool) -> bool {
    let one = |word| canonical(f64::from_bits(word));
    due == seen || float && one(due) == one(seen)
}

fn told(name: &str, due: u64, seen: u64) -> String {
    let [d, s] = [due, seen].map(|w| format!("{w:016x} ({w}, {:?})", f64::from_bits(w)));
    format!("{name}: due {d}, seen {s}")
}

#[cfg(test)]
mod tests {
    use super::*;

    #[test]
    fn audio_differs_in_more_than_bytes() {
        let due = Audio::of(&[1.0f32, 2.0]);
        let mut longer = due.clone();
        longer.bytes.push(0);
        let mut wider = due.clone();
        wider.format = Format::F64;
        let other = Audio::of(&[1.0f32, 3.0]);
        for (seen, words) in [
            (Some(&longer), "audio: another length"),
            (Some(&wider), "audio: another sample type"),
            (None, "audio: on one side alone"),
            (
                Some(&other),
                "audio, sample 1: due 40000000 (2.0), seen 40400000 (3.0)",
            ),
        ] {
            assert_eq!(audio_differs(Some(&due), seen).as_deref(), Some(words));
        }
        assert_eq!(audio_differs(Some(&due), Some(&due)), None);
        assert_eq!(audio_differs(None, None), None);
    }
}
