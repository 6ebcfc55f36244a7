//! The parameter bank as the Rust has it: declarations, calls and what each
//! call answers.

use crate::dsp::SmootherBank;
use crate::error::DspError;
use crate::numbers::canonical;
use crate::param::{ParamId, ParamInfo, ParamSetError, Smoothing, Unit};
use crate::spec::ProcessSpec;

/// The most parameters that a bank has.
pub const MOST: usize = 8;

/// The longest smoothing time.
pub const LONGEST_MS: f64 = 10_000.0;

/// How a value goes toward its target. The discriminant is its number in the
/// recorded file.
#[derive(Clone, Copy, Debug, PartialEq, Eq)]
pub enum Shape {
    Step = 0,
    Linear = 1,
    OnePole = 2,
}

impl Shape {
    /// The shape of a number; those past the last are the last.
    pub fn of(number: u64) -> Self {
        match number {
            0 => Self::Step,
            1 => Self::Linear,
            _ => Self::OnePole,
        }
    }
}

/// One parameter's declaration.
#[derive(Clone, Copy, Debug, PartialEq)]
pub struct Declared {
    pub id: u32,
    pub low: f64,
    pub high: f64,
    pub default: f64,
    pub ms: f64,
    pub shape: Shape,
}

impl Declared {
    /// The first of 2 to 6 that this declaration breaks at an index, or 0.
    fn fault(&self, index: usize) -> u32 {
        let Self { low, high, .. } = *self;
        let rows = [
            (2, self.id as usize == index),
            (3, low.is_finite() && high.is_finite() && low <= high),
            (4, self.default.is_finite()),
            (5, low <= self.default && self.default <= high),
            (6, self.ms > 0.0 && self.ms <= LONGEST_MS),
        ];
        let broken = rows.iter().find(|(_, kept)| !kept);
        broken.map_or(0, |&(number, _)| number)
    }

    fn info(&self) -> ParamInfo {
        let shape = match self.shape {
            Shape::Step => Smoothing::Step,
            Shape::Linear => Smoothing::Linear,
            Shape::OnePole => Smoothing::OnePole,
        };
        let range = (self.low, self.high);
        ParamInfo::new(ParamId(self.id), "", range, self.default, Unit::Linear)
            .with_smoothing(shape)
            .with_smoothing_ms(self.ms)
    }
}

/// A refused setup: document 01's number, and the index of the parameter; 0
/// where the number has none.
#[derive(Clone, Copy, Debug, Default, PartialEq, Eq)]
pub struct Refusal {
    pub number: u32,
    pub index: usize,
}

/// What document 01 says of declarations; number 0 where they are good.
pub fn judged(declared: &[Declared]) -> Refusal {
    if declared.len() > MOST {
        return Refusal {
            number: 1,
            index: 0,
        };
    }
    let faults = declared.iter().enumerate();
    let mut faults = faults.map(|(index, d)| Refusal {
        number: d.fault(index),
        index,
    });
    faults.find(|f| f.number != 0).unwrap_or_default()
}

/// A call of a bank that was set up.
#[derive(Clone, Copy, Debug, PartialEq)]
pub enum Call {
    Target { id: u32, value: f64 },
    Immediate { id: u32, value: f64 },
    Step,
    Reset,
    Value { id: u32 },
}

/// What a call answers: document 01's number, and the value that was read or
/// refused; 0 else.
#[derive(Clone, Copy, Debug, Default, PartialEq, Eq)]
pub struct Answer {
    pub number: u32,
    pub word: u64,
}

/// The Rust's bank for declarations, or what document 01 refuses.
pub fn set_up(declared: &[Declared], rate: u32) -> Result<SmootherBank, Refusal> {
    let infos: Vec<ParamInfo> = declared.iter().map(Declared::info).collect();
    let spec = ProcessSpec {
        sample_rate: rate,
        channels: 1,
        max_block: 1,
        max_memory: None,
    };
    let built = SmootherBank::try_new(&infos, &spec);
    let judged = judged(declared);
    // The two limits that document 01 adds apart, the Rust judges alike.
    let added = declared.len() > MOST
        || declared
            .iter()
            .any(|d| d.ms.is_finite() && d.ms > LONGEST_MS);
    assert!(
        added || judged.number == built.as_ref().err().map_or(0, number),
        "document 01 and the Rust judge {declared:?} unlike"
    );
    match built {
        Ok(bank) if judged.number == 0 => Ok(bank),
        _ => Err(judged),
    }
}

/// Document 01's number for the Rust's refusal of a declaration.
fn number(error: &DspError) -> u32 {
    let DspError::InvalidParam(text) = error else {
        return 0;
    };
    let known = [
        (2, "ids"),
        (3, "ranges"),
        (4, "defaults must be finite"),
        (5, "defaults must be inside"),
        (6, "smoothing_ms"),
    ];
    let found = known.iter().find(|(_, words)| text.contains(words));
    found.map_or(0, |&(number, _)| number)
}

/// One call of the Rust's bank.
pub fn called(bank: &mut SmootherBank, call: &Call) -> Answer {
    match *call {
        Call::Target { id, value } => set(bank.set_target(ParamId(id), value), id),
        Call::Immediate { id, value } => set(bank.set_immediate(ParamId(id), value), id),
        Call::Step => {
            bank.step();
            Answer::default()
        }
        Call::Reset => {
            bank.reset();
            Answer::default()
        }
        Call::Value { id } => match bank.value(ParamId(id)) {
            Some(value) => Answer {
                number: 0,
                word: canonical(value),
            },
            None => Answer {
                number: 24,
                word: 0,
            },
        },
    }
}

/// A parameter call's answer; its refusals tell the id that was asked for.
fn set(result: Result<(), ParamSetError>, id: u32) -> Answer {
    match result {
        Ok(()) => Answer::default(),
        Err(ParamSetError::UnknownParam(param)) => {
            assert_eq!(param.0, id);
            Answer {
                number: 24,
                word: 0,
            }
        }
        Err(ParamSetError::NonFiniteValue { param, value }) => {
            assert_eq!(param.0, id);
            Answer {
                number: 23,
                word: canonical(value),
            }
        }
    }
}

/// What a smoother holds beside its id, smoothing time and shape.
#[derive(Clone, Copy, Debug)]
pub struct Slot {
    pub cur: f64,
    pub target: f64,
    pub low: f64,
    pub high: f64,
    pub default: f64,
    pub steps: f64,
    pub delta: f64,
    pub coeff: f64,
    pub left: u64,
}

/// The values of the first `count` parameters.
pub fn values(bank: &SmootherBank, count: usize) -> Vec<u64> {
    let value = |index| bank.value_at(index).map_or(0, canonical);
    (0..count).map(value).collect()
}

#[cfg(test)]
mod tests {
    use super::*;

    const THRESHOLD: Declared = Declared {
        id: 0,
        low: -30.0,
        high: 0.0,
        default: -1.0,
        ms: 5.0,
        shape: Shape::Linear,
    };

    #[test]
    fn document_01_threshold_row() {
        let mut bank = set_up(&[THRESHOLD], 48_000).expect("good");
        let target = Call::Target { id: 0, value: -4.0 };
        called(&mut bank, &target);
        let mut read = || {
            called(&mut bank, &Call::Step);
            f64::from_bits(values(&bank, 1)[0])
        };
        assert!((0..7).all(|_| read() != -4.0));
        assert_eq!(read(), -4.0);
    }

    #[test]
    fn each_refusal_has_its_number_and_index() {
        type Damage = fn(&mut Declared);
        let bad: [(u32, Damage); 8] = [
            (2, |d| d.id = 3),
            (3, |d| d.high = -31.0),
            (3, |d| d.low = f64::NAN),
            (4, |d| d.default = f64::INFINITY),
            (5, |d| d.default = 0.5),
            (6, |d| d.ms = 0.0),
            (6, |d| d.ms = f64::NAN),
            (6, |d| d.ms = 10_000.5),
        ];
        for (number, damage) in bad {
            let mut second = Declared { id: 1, ..THRESHOLD };
            damage(&mut second);
            let refused = set_up(&[THRESHOLD, second], 48_000).err();
            assert_eq!(refused, Some(Refusal { number, index: 1 }));
        }
        let nine = [THRESHOLD; 9];
        let refused = set_up(&nine, 48_000).err();
        assert_eq!(refused.map(|r| r.number), Some(1));
        assert!(set_up(&[], 0).is_ok());
    }

    #[test]
    fn calls_answer_by_document_01s_numbers() {
        let mut bank = set_up(&[THRESHOLD], 48_000).expect("good");
        let mut number = |call| called(&mut bank, &call).number;
        let (nan, far) = (f64::NAN, 7);
        assert_eq!(number(Call::Target { id: 0, value: nan }), 23);
        assert_eq!(
            number(Call::Immediate {
                id: far,
                value: nan
            }),
            23
        );
        assert_eq!(
            number(Call::Target {
                id: far,
                value: 0.0
            }),
            24
        );
        assert_eq!(number(Call::Value { id: far }), 24);
        assert_eq!(number(Call::Value { id: 0 }), 0);
        assert_eq!(number(Call::Reset), 0);
    }
}
