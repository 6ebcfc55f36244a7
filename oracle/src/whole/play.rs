//! Plays a session: the Rust, the plain model and the proved code side by side,
//! compared after each call. In `Mode::Direct` the model, which is slow, only
//! judges and says where a block's peak sat: what it accepts the Rust and the
//! proved code play.

use super::asked::{Asked, Houses};
use super::choices::Choices;
use super::draw::Mode;
use super::faults::unread;
use super::places::{Found, Places};
use super::plan::{Part, Session, Turn};
use super::rust::Rust;
use crate::audio::Format;
use crate::calls::{
    answers_differ, audio_differs, floats, lent_differs, words, Call, Lent, Side, ANSWER, DETECTOR,
    STATE, WEIGHTS,
};
use crate::model::calls as model;
use crate::model::place;
use crate::model::state::State;
use crate::rng::rubbish;

/// What was played.
#[derive(Clone, Debug, Default, PartialEq, Eq)]
pub struct Counts {
    pub sessions: u64,
    pub calls: u64,
    /// Frames taken as f64 and as f32.
    pub frames: [u64; 2],
    /// Calls by their number; 0 is finished work.
    pub numbers: [u64; 30],
    /// Blocks that told in full where their peak sat.
    pub places: Places,
    /// Sessions and setups with a house table.
    pub houses: Houses,
    /// Channels that were left out.
    pub choices: Choices,
}

impl Counts {
    pub fn add(&mut self, other: &Self) {
        self.sessions += other.sessions;
        self.calls += other.calls;
        let (frames, numbers) = (self.frames.iter_mut(), self.numbers.iter_mut());
        let theirs = other.frames.iter().chain(&other.numbers);
        frames
            .chain(numbers)
            .zip(theirs)
            .for_each(|(sum, n)| *sum += n);
        self.places.add(&other.places);
        self.houses.add(&other.houses);
        self.choices.add(&other.choices);
    }

    /// So many frames more, where a call took any.
    pub fn take(&mut self, frames: u64, format: Option<Format>) {
        match format {
            Some(Format::F64) => self.frames[0] += frames,
            Some(Format::F32) => self.frames[1] += frames,
            None => {}
        }
    }
}

/// The first turn after which two sides differ; none is the setup.
#[derive(Clone, Debug)]
pub struct Split {
    pub turn: Option<usize>,
    pub report: String,
}

/// The sides as they stand.
struct Stage {
    mode: Mode,
    rust: Rust,
    model: Lent,
    proved: Option<Proved>,
}

/// The proved code and what it was lent.
struct Proved {
    side: Side,
    lent: Lent,
}

/// A call that was played: its number, and what it leaves. Of a finished block
/// the plain model says beside it where the peak sat.
struct Left {
    number: u32,
    lent: Lent,
    call: Call,
    found: Option<Found>,
    /// What it met, if it is a setup that asks for a house table.
    asked: Option<Asked>,
}

/// A call that was tried by the model and, where it is given, the proved code.
struct Tried {
    model: Left,
    proved: Option<Left>,
}

/// Play a session on all sides, the proved code among them where it is given.
pub fn play(session: &Session, mode: Mode, proved: Option<Side>) -> Result<Counts, Split> {
    let mut counts = Counts {
        sessions: 1,
        ..Counts::default()
    };
    let first = Turn {
        part: Part::Restart {
            left_out: session.setup.left_out,
        },
        faults: Vec::new(),
        answer: ANSWER,
    };
    counts.houses.begin(session);
    let unready = |report| Split { turn: None, report };
    let mut stage = Stage::new(session, mode, proved).map_err(unready)?;
    let later = session.turns.iter().enumerate();
    let turns = later.map(|(i, turn)| (Some(i), turn));
    for (at, turn) in std::iter::once((None, &first)).chain(turns) {
        let split = |report| Split { turn: at, report };
        let left = stage.turn(session, turn).map_err(split)?;
        counts.calls += 1;
        counts.numbers[left.number as usize] += 1;
        counts.take(left.frames(), left.call.format());
        if let Some(found) = left.told() {
            counts.places.take(found, left.frames());
        }
        if let Some(asked) = &left.asked {
            counts.houses.take(left.number, asked);
        }
        left.count_choice(&mut counts.choices);
    }
    Ok(counts)
}

impl Stage {
    /// Rubbish in every store but the weights, which are the Rust's; in those too
    /// where a house table is asked for.
    fn new(session: &Session, mode: Mode, proved: Option<Side>) -> Result<Self, String> {
        let rust = Rust::new(&session.setup, session.cap, session.types.first())?;
        let mut lent = rust.lent();
        for (which, store) in lent.stores.0.iter_mut().enumerate() {
            if which != WEIGHTS {
                *store = words(&rubbish(8 * store.len(), which as u64));
            } else if session.house {
                unread(store, which as u64);
            }
        }
        lent.state = rubbish(STATE, 6);
        Ok(Self {
            mode,
            rust,
            proved: proved.map(|side| Proved {
                side,
                lent: lent.clone(),
            }),
            model: lent,
        })
    }

    /// Play a turn; the stage goes on from it where the turn says so.
    fn turn(&mut self, session: &Session, turn: &Turn) -> Result<Left, String> {
        let call = turn.part.call(session);
        if self.mode == Mode::Direct && turn.commits() && model::accepts(&self.model, &call) {
            return self.directly(turn, call);
        }
        let tried = self.tried(turn, &call)?;
        let number = tried.model.number;
        let restarts = matches!(turn.part, Part::Restart { .. });
        if restarts && turn.faults.is_empty() && number != 0 {
            return Err(format!("the Rust takes a setup, refused by {number}"));
        }
        if turn.commits() {
            self.go_on(&tried);
            let rust_judges = matches!(call, Call::Set { .. } | Call::Read { .. });
            if number == 0 || rust_judges {
                beside_rust(&mut self.rust, call, &tried.model)?;
            }
        }
        Ok(tried.model)
    }

    fn go_on(&mut self, tried: &Tried) {
        self.model.clone_from(&tried.model.lent);
        if let (Some(proved), Some(left)) = (&mut self.proved, &tried.proved) {
            proved.lent.clone_from(&left.lent);
        }
    }

    /// A call that the model accepts, by the Rust and the proved code alone; the
    /// model goes on from what it leaves.
    fn directly(&mut self, turn: &Turn, call: Call) -> Result<Left, String> {
        let proved = self.proved.as_mut().ok_or("no proved code to play")?;
        let mut seen = Left::by(proved.side, prepared(&proved.lent, turn, &call));
        seen.found = found(&self.model, &call);
        let due = self.rust.left(call, turn.answer, seen.found.as_ref());
        if let Some(at) = due.differs(&seen) {
            return Err(format!("the Rust and the proved code, {at}"));
        }
        proved.lent.clone_from(&seen.lent);
        self.model.clone_from(&seen.lent);
        Ok(seen)
    }

    /// The model's call, and the proved code's beside it.
    fn tried(&self, turn: &Turn, call: &Call) -> Result<Tried, String> {
        let before = prepared(&self.model, turn, call);
        let mut model = Left::by(model::call, before.clone());
        let changed = model.changed(&before);
        changed.map_or(Ok(()), |at| Err(format!("the model, {at}")))?;
        if model.number == 0 {
            model.found = found(&before.0, &before.1);
        }
        let proved = self.proved.as_ref();
        let proved = proved.map(|p| beside_model(p, turn, call, &model));
        let proved = proved.transpose()?;
        if model.number == 0 && !turn.faults.is_empty() {
            beside_forged_rust(before, &model)?;
        }
        Ok(Tried { model, proved })
    }
}

/// What a call is lent and asked, with the turn's faults and an answer that
/// holds something else.
fn prepared(lent: &Lent, turn: &Turn, call: &Call) -> (Lent, Call) {
    let (mut lent, mut call) = (lent.clone(), call.clone());
    lent.answer = unwritten(turn.answer);
    let faults = turn.faults.iter();
    faults.for_each(|fault| fault.apply(&mut lent, &mut call));
    (lent, call)
}

/// An answer buffer that holds something else than any answer.
fn unwritten(length: usize) -> Vec<u64> {
    vec![u64::MAX; length]
}

/// What is found in a block that the table accepts, by what it is lent alone.
fn found(lent: &Lent, call: &Call) -> Option<Found> {
    let Call::Process { audio, .. } = call else {
        return None;
    };
    let state = State::read(&lent.state)?;
    let detector = floats(&lent.stores.0[DETECTOR]);
    let heard = place::block(audio, &detector, state.setup.left_out);
    Some(Found::of(&heard))
}

/// The proved code plays the call too.
fn beside_model(proved: &Proved, turn: &Turn, call: &Call, model: &Left) -> Result<Left, String> {
    let before = prepared(&proved.lent, turn, call);
    let seen = Left::by(proved.side, before.clone());
    match model.differs(&seen).or_else(|| seen.changed(&before)) {
        Some(at) => Err(format!("the model and the proved code, {at}")),
        None => Ok(seen),
    }
}

/// The Rust plays the call too.
fn beside_rust(rust: &mut Rust, call: Call, model: &Left) -> Result<(), String> {
    let answer = model.lent.answer.len();
    match model.differs(&rust.left(call, answer, model.found.as_ref())) {
        Some(at) => Err(format!("the model and the Rust, {at}")),
        None => Ok(()),
    }
}

/// A Rust into which the same was forged plays the call, where it can.
fn beside_forged_rust((lent, call): (Lent, Call), model: &Left) -> Result<(), String> {
    let works = matches!(
        call,
        Call::Process { .. } | Call::Flush { .. } | Call::Reset | Call::GainStep { .. }
    );
    let format = call.format().unwrap_or(Format::F64);
    match works.then(|| Rust::forged(&lent, format)).flatten() {
        Some(mut rust) => beside_rust(&mut rust, call, model),
        None => Ok(()),
    }
}

impl Rust {
    /// What a call leaves that is lent an answer of a length. The Rust does not
    /// say where a block's peak sat: that is told as it was found.
    fn left(&mut self, mut call: Call, answer: usize, found: Option<&Found>) -> Left {
        let (number, told) = self.call(&mut call);
        let mut lent = self.lent();
        lent.answer = unwritten(answer);
        match found {
            Some(found) => lent.tell(&found.place.words()),
            None => lent.tell(&told),
        }
        Left {
            number,
            lent,
            call,
            found: found.copied(),
            asked: None,
        }
    }
}

impl Left {
    fn by(side: Side, (mut lent, mut call): (Lent, Call)) -> Self {
        let asked = Asked::of(&lent, &call);
        let number = side(&mut lent, &mut call);
        Self {
            number,
            lent,
            call,
            found: None,
            asked,
        }
    }

    /// Where the peak sat, if the answer had room to say it.
    fn told(&self) -> Option<&Found> {
        let found = self.found.as_ref();
        found.filter(|f| f.place.words().len() <= self.lent.answer.len())
    }

    /// The frames that the call took; those of a drain that told none are not
    /// counted.
    fn frames(&self) -> u64 {
        match &self.call {
            Call::Process { frames, .. } if self.number == 0 => *frames,
            Call::Flush { .. } if self.number == 0 => {
                self.lent.answer.first().copied().unwrap_or_default()
            }
            _ => 0,
        }
    }

    /// The frames, by the channels that the state leaves out.
    fn count_choice(&self, choices: &mut Choices) {
        let louder = self.found.map_or(0, |found| found.louder);
        if let (frames @ 1.., Some(state)) = (self.frames(), State::read(&self.lent.state)) {
            choices.take(&state.setup, frames, louder);
        }
    }

    /// Where another side differs from what is due.
    fn differs(&self, seen: &Self) -> Option<String> {
        let (due, number) = (self.number, seen.number);
        let numbers = || format!("number: due {due}, seen {number}");
        (due != number)
            .then(numbers)
            .or_else(|| answers_differ(&self.call, &self.lent.answer, &seen.lent.answer))
            .or_else(|| audio_differs(self.call.audio(), seen.call.audio()))
            .or_else(|| lent_differs(&self.lent, &seen.lent, true))
    }

    /// What a refused call changed. It leaves every byte that it was lent; a
    /// refused setup only the stores, since the state becomes that of a limiter
    /// never set up.
    fn changed(&self, (lent, call): &(Lent, Call)) -> Option<String> {
        if self.number == 0 {
            return None;
        }
        let mut kept = lent.clone();
        if matches!(call, Call::Setup { .. }) {
            kept.state.clone_from(&self.lent.state);
        }
        let changed = lent_differs(&kept, &self.lent, false)
            .or_else(|| audio_differs(call.audio(), self.call.audio()));
        changed.map(|at| format!("changed by a refused call, {at}"))
    }
}
