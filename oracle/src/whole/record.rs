//! Writes recorded sessions of the whole limiter: the Rust's processor is set
//! up, rendered, drained, set, read, stepped and reset. Inputs are not stored,
//! since whoever replays a session draws them from its seed too; of a call's
//! output, the digest is, and of a block where its peak sat.

use std::fs;
use std::path::Path;

use super::draw::{wanted, Mode, Streams, Wanted, RECORDED};
use super::drawn;
use super::plan::{Part, Session};
use super::play::Counts;
use super::rust::Rust;
use super::Settings;
use crate::audio::{Format, Types};
use crate::calls::{Call, Lent, WEIGHTS};
use crate::model::calls as model;
use crate::model::house::PAIRS;
use crate::model::setup::kept;
use crate::samples::{digest, Source};

/// Sessions kept to either sample type. The recorded file never depends on the
/// command line.
const SETTINGS: [Settings; 2] = [
    Settings {
        mode: Mode::Recorded,
        types: Types::F64,
        sessions: 60,
        seed: 1,
    },
    Settings {
        mode: Mode::Recorded,
        types: Types::F32,
        sessions: 60,
        seed: 2,
    },
];

/// The sample types of the sessions with a house table, one of each, and the seed
/// that they are drawn from.
const HOUSES: [Types; PAIRS.len()] = [Types::F64, Types::F32, Types::F64, Types::F32];
const HOUSES_SEED: u64 = 8;

/// The sessions that leave channels out, and the seed that they are drawn from. The
/// bass channel of six or eight is channel 3.
const LEFT_OUT: [Wanted; 18] = [
    at_house(1, leaving(Types::F64, 6, 0b00_1000)),
    at_house(2, leaving(Types::F32, 6, 0b00_1000)),
    leaving(Types::F64, 8, 0b0000_1000),
    leaving(Types::F32, 8, 0b1100_1000),
    leaving(Types::F64, 2, 0b01),
    leaving(Types::F32, 2, 0b10),
    leaving(Types::F64, 3, 0b101),
    leaving(Types::F32, 4, 0b0110),
    leaving(Types::F64, 5, 0b1_0000),
    leaving(Types::F32, 7, 0b111_1110),
    leaving(Types::F64, 8, 0b0111_1111),
    leaving(Types::F32, 8, 0b0101_0101),
    // None that counts.
    leaving(Types::F64, 6, 0b11_1111),
    leaving(Types::F32, 2, 0b11),
    leaving(Types::F64, 1, 0b1),
    // Bits past the channels, alone and with others.
    leaving(Types::F64, 3, 0b1111_1000),
    leaving(Types::F32, 2, 0b1000_0001),
    leaving(Types::F64, 4, 0b1111_0010),
];
const LEFT_OUT_SEED: u64 = 33;

const fn leaving(types: Types, channels: usize, left_out: u32) -> Wanted {
    Wanted {
        types,
        pair: None,
        channels: Some(channels),
        left_out,
    }
}

/// The same with a house table.
const fn at_house(pair: usize, wanted: Wanted) -> Wanted {
    Wanted {
        pair: Some(PAIRS[pair]),
        ..wanted
    }
}

/// Kinds of samples.
const KINDS: u64 = 6;

/// First words of the records; a session's tells its sample type.
const START: u64 = 1;
const START_F32: u64 = 9;
const BLOCK: u64 = 2;
const DRAIN: u64 = 3;
const RESET: u64 = 4;
const SET: u64 = 5;
const READ: u64 = 6;
const GAIN_STEP: u64 = 7;
const SETUP: u64 = 8;
/// The last word of a session.
const END: u64 = 0;

/// Words of an answer that tell where a block's peak sat.
const PLACE: usize = 4;

/// The file's words so far, and what they hold.
#[derive(Debug, Default, PartialEq)]
struct Record {
    words: Vec<u64>,
    counts: Counts,
}

/// A session that is being recorded: the Rust, and the model, which judges what
/// is refused.
struct Recorder {
    rust: Rust,
    model: Lent,
    source: Source,
    channels: usize,
}

/// Write the file; answers one line about it.
pub fn write(file: &Path) -> Result<String, String> {
    let Record { words, counts } = recorded()?;
    let bytes: Vec<u8> = words.iter().flat_map(|w| w.to_le_bytes()).collect();
    fs::write(file, &bytes).map_err(|e| format!("{}: {e}", file.display()))?;
    Ok(format!(
        "{}: {} sessions, {} calls, {} frames, {} words, {} bytes\n",
        file.display(),
        counts.sessions,
        counts.calls,
        counts.frames.iter().sum::<u64>(),
        words.len(),
        bytes.len()
    ))
}

fn recorded() -> Result<Record, String> {
    let mut record = Record::default();
    for settings in &SETTINGS {
        for number in 0..settings.sessions {
            record.play(&drawn(settings, number), number)?;
        }
    }
    for ((number, pair), types) in (1..).zip(PAIRS).zip(HOUSES) {
        let with = Wanted {
            types,
            pair: Some(pair),
            channels: None,
            left_out: 0,
        };
        let streams = Streams::new(HOUSES_SEED, number);
        record.play(&wanted(&with, streams), number)?;
    }
    for (at, with) in (0..).zip(&LEFT_OUT) {
        record.leave_out(at, with)?;
    }
    Ok(record)
}

impl Record {
    /// Play a session that leaves channels out. Its samples are of any kind but the
    /// last, which is too faint to be limited.
    fn leave_out(&mut self, at: u64, with: &Wanted) -> Result<(), String> {
        let loud = KINDS - 1;
        let number = at / loud * KINDS + at % loud;
        let session = wanted(with, Streams::new(LEFT_OUT_SEED, number));
        self.play(&session, number)
    }

    /// Play a session and add its words.
    fn play(&mut self, session: &Session, number: u64) -> Result<(), String> {
        let source = Source {
            format: session.types.first(),
            state: 1 + 0x9e37_79b9 * (1 + number),
            kind: number % KINDS,
        };
        let mut recorder = Recorder::new(session, source)?;
        self.words.extend(recorder.head(session));
        for turn in session.turns.iter().filter(|turn| turn.commits()) {
            let words = recorder.call(&turn.part, session)?;
            self.counts.calls += u64::from(!words.is_empty());
            // A block's frames and a drain's written ones stand in one place.
            if let [BLOCK | DRAIN, _, frames, ..] = words[..] {
                self.counts.take(frames, Some(session.types.first()));
            }
            self.words.extend(words);
        }
        self.words.push(END);
        self.counts.sessions += 1;
        Ok(())
    }
}

impl Recorder {
    fn new(session: &Session, source: Source) -> Result<Self, String> {
        let rust = Rust::new(&session.setup, None, source.format)?;
        Ok(Self {
            model: rust.lent(),
            rust,
            source,
            channels: session.setup.channels,
        })
    }

    /// The head of a session.
    fn head(&self, session: &Session) -> Vec<u64> {
        let setup = &session.setup;
        let weights = &self.model.stores.0[WEIGHTS];
        let floats = [
            setup.threshold,
            setup.margin,
            setup.lookahead,
            setup.release,
        ];
        let start = match self.source.format {
            Format::F64 => START,
            Format::F32 => START_F32,
        };
        let mut words = vec![start, u64::from(setup.rate), setup.channels as u64];
        words.extend(floats.map(f64::to_bits));
        words.extend([self.rust.look() as u64, weights.len() as u64]);
        words.extend([self.source.state, self.source.kind, setup.block as u64]);
        words.extend([u64::from(session.house), u64::from(kept(setup.left_out))]);
        words.extend(weights);
        words
    }

    /// The words of a call; none where document 01 refuses what the Rust would
    /// not.
    fn call(&mut self, part: &Part, session: &Session) -> Result<Vec<u64>, String> {
        let samples = self.source.state;
        let mut call = self.drawn(part, session);
        let mut tried = (self.model.clone(), call.clone());
        let number = model::call(&mut tried.0, &mut tried.1);
        if number != 0 && !matches!(call, Call::Set { .. } | Call::Read { .. }) {
            self.source.state = samples;
            return Ok(Vec::new());
        }
        let (told_number, told) = self.rust.call(&mut call);
        // Where a block's peak sat the model says: the Rust does not.
        let told = match call {
            Call::Process { .. } => tried.0.answer[..PLACE].to_vec(),
            _ => told,
        };
        if number != told_number || tried.1.audio() != call.audio() {
            return Err(format!("the model and the Rust differ at {part:?}"));
        }
        self.model = tried.0;
        Ok(self.words(&call, number, &told))
    }

    /// The call, its samples those of the session's source.
    fn drawn(&mut self, part: &Part, session: &Session) -> Call {
        let mut call = part.call(session);
        if let Call::Process { frames, audio, .. } = &mut call {
            if *frames <= RECORDED {
                *audio = self.source.audio(self.channels * *frames as usize);
            }
        }
        call
    }

    fn words(&self, call: &Call, number: u32, told: &[u64]) -> Vec<u64> {
        let number = u64::from(number);
        let told_first = told.first().copied().unwrap_or_default();
        match call {
            Call::Process {
                position,
                frames,
                events,
                audio,
            } => {
                let whole = &events[..events.len() / 3 * 3];
                let mut words = vec![BLOCK, *position, *frames, whole.len() as u64 / 3];
                words.extend(whole);
                words.push(digest(audio, *frames as usize, *frames as usize));
                words.extend(told);
                words
            }
            Call::Flush { frames, audio } => {
                let given = digest(audio, *frames as usize, told[0] as usize);
                vec![DRAIN, *frames, told[0], told[1], given]
            }
            Call::Reset => vec![RESET],
            Call::Set { id, bits } => vec![SET, u64::from(*id), *bits, number],
            Call::Read { id } => vec![READ, u64::from(*id), number, told_first],
            Call::GainStep { bits } => [&[GAIN_STEP, *bits], told].concat(),
            Call::Setup { .. } => vec![SETUP],
            Call::Look { .. } | Call::Bytes { .. } | Call::House { .. } => Vec::new(),
        }
    }
}

#[cfg(test)]
mod tests {
    use super::*;
    use crate::audio::Audio;
    use crate::calls::Stores;
    use crate::model::setup::Setup;
    use crate::model::state::State;

    /// Reads a file as a program would that replays it.
    struct Reader<'a> {
        rest: &'a [u64],
    }

    impl Reader<'_> {
        fn next(&mut self) -> u64 {
            let (first, rest) = self.rest.split_first().expect("a word");
            self.rest = rest;
            *first
        }

        fn some(&mut self, count: u64) -> Vec<u64> {
            (0..count).map(|_| self.next()).collect()
        }

        fn float(&mut self) -> f64 {
            f64::from_bits(self.next())
        }
    }

    /// The model in place of a proved program.
    struct Replay {
        lent: Lent,
        setup: Setup,
        house: bool,
        source: Source,
    }

    /// What a replay lends for channels, a look and its weights, which are none yet.
    fn lent([channels, look, rows]: [u64; 3]) -> Lent {
        let nan = f64::NAN.to_bits();
        let stores = [
            (channels * look, 1),
            (look + 1, 1),
            (look + 1, 1),
            (rows, nan),
            (rows, 1),
            (12 * channels, 1),
        ];
        Lent {
            state: vec![0; 512],
            answer: vec![0; 8],
            stores: Stores(stores.map(|(places, word)| vec![word; places as usize])),
        }
    }

    impl Replay {
        fn start(file: &mut Reader) -> Self {
            let format = match file.next() {
                START => Format::F64,
                START_F32 => Format::F32,
                word => unreachable!("no session starts with {word}"),
            };
            let (rate, channels) = (file.next() as u32, file.next() as usize);
            let [threshold, margin, lookahead, release] = [(); 4].map(|()| file.float());
            let [look, rows, seed, kind, block, house, left_out] = [(); 7].map(|()| file.next());
            let setup = Setup {
                threshold,
                margin,
                lookahead,
                release,
                left_out: left_out as u32,
                rate,
                channels,
                block: block as usize,
            };
            let weights = file.some(rows);
            let mut replay = Self {
                lent: lent([channels as u64, look, rows]),
                setup,
                house: house == 1,
                source: Source {
                    format,
                    state: seed,
                    kind,
                },
            };
            if !replay.house {
                replay.lent.stores.0[WEIGHTS].clone_from(&weights);
            }
            replay.told(replay.set_up(), &[0]);
            assert_eq!(replay.lent.stores.0[WEIGHTS], weights);
            let state = State::read(&replay.lent.state).expect("a state");
            assert_eq!(state.look, look);
            replay
        }

        fn set_up(&self) -> Call {
            Call::Setup {
                setup: self.setup,
                cap: None,
                house: self.house,
            }
        }

        /// Play a call; its number and the words told are those of the file.
        fn told(&mut self, mut call: Call, due: &[u64]) -> Call {
            let number = model::call(&mut self.lent, &mut call);
            assert_eq!(u64::from(number), due[0]);
            assert_eq!(self.lent.answer[..due.len() - 1], due[1..]);
            call
        }

        fn block(&mut self, file: &mut Reader) {
            let [position, frames, count] = [(); 3].map(|()| file.next());
            let events = file.some(3 * count);
            let call = Call::Process {
                position,
                frames,
                events,
                audio: self.source.audio(self.setup.channels * frames as usize),
            };
            let call = self.told(call, &[0]);
            let given = call.audio().expect("a block's");
            assert_eq!(digest(given, frames as usize, frames as usize), file.next());
            assert_eq!(self.lent.answer[..PLACE], file.some(PLACE as u64));
        }

        fn drain(&mut self, file: &mut Reader) {
            let [frames, written, done] = [(); 3].map(|()| file.next());
            let format = self.source.format;
            let samples = self.setup.channels * frames as usize;
            let audio = Audio {
                format,
                bytes: vec![1; format.size() * samples],
            };
            let call = self.told(Call::Flush { frames, audio }, &[0, written, done]);
            let given = call.audio().expect("a drain's");
            assert_eq!(
                digest(given, frames as usize, written as usize),
                file.next()
            );
        }

        /// The call whose op was read.
        fn call(&mut self, op: u64, file: &mut Reader) {
            let (call, due) = match op {
                BLOCK => return self.block(file),
                DRAIN => return self.drain(file),
                RESET => (Call::Reset, vec![0]),
                SET => {
                    let (id, bits) = (file.next() as u32, file.next());
                    (Call::Set { id, bits }, vec![file.next()])
                }
                READ => {
                    let id = file.next() as u32;
                    (Call::Read { id }, file.some(2))
                }
                GAIN_STEP => {
                    let bits = file.next();
                    let due = [vec![0], file.some(6)].concat();
                    (Call::GainStep { bits }, due)
                }
                SETUP => (self.set_up(), vec![0]),
                _ => unreachable!("no op {op}"),
            };
            self.told(call, &due);
        }
    }

    /// A file's calls by their op, and its sessions, once replayed.
    fn replayed(words: &[u64]) -> ([u64; 9], Vec<Replay>) {
        let mut file = Reader { rest: words };
        let (mut ops, mut sessions) = ([0; 9], Vec::new());
        while !file.rest.is_empty() {
            let mut replay = Replay::start(&mut file);
            loop {
                let op = file.next();
                if op == END {
                    break;
                }
                ops[op as usize] += 1;
                replay.call(op, &mut file);
            }
            sessions.push(replay);
        }
        (ops, sessions)
    }

    #[test]
    fn a_replay_by_the_model_gives_the_file_again() {
        let record = recorded().expect("good settings");
        let (ops, sessions) = replayed(&record.words);
        assert_eq!(ops.iter().sum::<u64>(), record.counts.calls);
        let houses = sessions.iter().filter(|s| s.house);
        let houses: Vec<(u32, Format)> = houses.map(|s| (s.setup.rate, s.source.format)).collect();
        let due = [
            (44_100, Format::F64),
            (48_000, Format::F32),
            (96_000, Format::F64),
            (192_000, Format::F32),
            // Six channels with the bass left out.
            (48_000, Format::F64),
            (96_000, Format::F32),
        ];
        assert_eq!(houses, due);
        assert!(ops[2..].iter().all(|&n| n > 20), "{ops:?}");
    }

    /// The words of a session as it is or with other bits, but for those bits.
    fn left_out(at: usize, left_out: u32) -> Vec<u64> {
        let mut record = Record::default();
        let with = Wanted {
            left_out,
            ..LEFT_OUT[at]
        };
        record.leave_out(at as u64, &with).expect("good settings");
        assert_eq!(record.words.remove(13), u64::from(left_out));
        record.words
    }

    #[test]
    fn channels_left_out_are_heard_to_be() {
        for (at, wanted) in LEFT_OUT.iter().enumerate() {
            let channels = wanted.channels.expect("so many");
            let own = wanted.left_out & ((1 << channels) - 1);
            assert_eq!(left_out(at, wanted.left_out), left_out(at, own));
            assert_eq!(left_out(at, own) == left_out(at, 0), own == 0, "{wanted:?}");
        }
    }

    /// Every channel count and both types; none that counts; no bit that matters.
    #[test]
    fn sessions_that_leave_channels_out_are_of_every_kind() {
        let has = |test: &dyn Fn(&Wanted, u32, u32) -> bool| {
            let of = |w: &&Wanted| {
                let all = (1 << w.channels.expect("so many")) - 1;
                test(w, w.left_out & all, all)
            };
            LEFT_OUT.iter().filter(of).count()
        };
        for channels in 1..=8 {
            assert!(has(&|w, _, _| w.channels == Some(channels)) > 0);
        }
        for types in [Types::F64, Types::F32] {
            assert!(has(&|w, own, _| w.types == types && own != 0) >= 8);
            assert!(has(&|w, own, all| w.types == types && own == all) > 0);
        }
        assert!(has(&|w, own, _| w.left_out > own) > 2);
        assert_eq!(has(&|_, own, _| own == 0), 1);
    }

    #[test]
    fn sessions_that_leave_channels_out_have_every_call() {
        let mut record = Record::default();
        for (at, with) in (0..).zip(&LEFT_OUT) {
            record.leave_out(at, with).expect("good settings");
        }
        let (ops, _) = replayed(&record.words);
        assert!(ops[BLOCK as usize] > 100, "{ops:?}");
        assert!(ops[DRAIN as usize] > 40, "{ops:?}");
        assert!(
            ops[RESET as usize] > 15 && ops[SETUP as usize] > 4,
            "{ops:?}"
        );
    }

    #[test]
    fn the_file_is_small_and_always_the_same() {
        let record = recorded().expect("good settings");
        assert!(8 * record.words.len() < 300_000);
        assert!(record.counts.frames.iter().all(|&frames| frames > 50_000));
        assert_eq!(record, recorded().expect("good settings"));
    }
}
