//! The parameter bank: setups, calls and all that the smoothers hold, call by
//! call; and 18 on banks that were changed from outside.

use std::fmt::Write as _;

use super::{shown, Difference, Settings};
use crate::bank::{called, set_up, Answer, Call, Declared, Refusal, Slot, MOST};
use crate::dsp::driver::inside;
use crate::dsp::SmootherBank;
use crate::layout::bank::{COUNT, RATE, READY, TOLD_COUNT};
use crate::layout::smoother::{COEFF, DEFAULT, HIGH, ID, LOW, MS, SHAPE, STEPS};
use crate::numbers::{any, canonical, near};
use crate::params;
use crate::probe::Bank;
use crate::rng::Rng;
use crate::shrink;

/// A bank to set up, what is forged into its slots, and the calls.
#[derive(Clone, Debug)]
struct Session {
    declared: Vec<Declared>,
    rate: u32,
    forged: Vec<Option<Slot>>,
}

/// The first call after which the two sides differ, and both in words.
struct Split {
    at: usize,
    rust: String,
    proved: String,
}

/// Sessions on banks of every kind, each with calls of every kind.
pub fn run(settings: &Settings) -> Result<u64, Difference> {
    let mut rng = Rng::new(settings.seed);
    let mut compared = 0;
    while compared < settings.count {
        let session = session(&mut rng);
        compared += 1;
        let Some((rust, proved)) = session.start(compared)? else {
            continue;
        };
        let length = 1 + rng.below(300);
        let call = |_| params::call(&session.declared, &mut rng);
        let calls: Vec<Call> = (0..length).map(call).collect();
        if let Some(split) = first_split(rust, proved.clone(), &calls) {
            compared += split.at as u64 + 1;
            let report = session.report(calls);
            return Err(Difference { compared, report });
        }
        compared += length;
        for _ in 0..length / 8 {
            changed(&proved, &session.declared, &mut rng, &mut compared)?;
            compared += 1;
            self::session(&mut rng).start(compared)?;
        }
    }
    Ok(compared)
}

fn session(rng: &mut Rng) -> Session {
    let declared = params::declarations(8, rng);
    let forge = rng.below(4) == 0;
    let slot = |d: &Declared| forge.then(|| forged(d, rng));
    Session {
        forged: declared.iter().map(slot).collect(),
        rate: params::rate(rng),
        declared,
    }
}

/// A slot as a host may have written it. A target that is a NaN is left out:
/// the way to it has a sign that nobody promises.
fn forged(d: &Declared, rng: &mut Rng) -> Slot {
    let value = |rng: &mut Rng| match rng.below(3) {
        0 => any(rng),
        1 => near(rng, d.high, 2),
        _ => params::inside(d.low, d.high, rng),
    };
    let (cur, target, delta) = (value(rng), value(rng), value(rng));
    Slot {
        cur,
        target: if target.is_nan() { d.low } else { target },
        low: d.low,
        high: d.high,
        default: d.default,
        steps: 1.0,
        delta,
        coeff: 1.0,
        left: rng.word() >> (rng.below(8) * 9).min(63),
    }
}

impl Session {
    /// Set both sides up and forge both; nothing where both refuse.
    fn start(&self, compared: u64) -> Result<Option<(SmootherBank, Bank)>, Difference> {
        let (told, mut proved) = Bank::set_up(&self.declared, self.rate);
        let rust = set_up(&self.declared, self.rate);
        let due = rust.as_ref().err().copied().unwrap_or_default();
        let slots = |bank: &SmootherBank| inside::slots(bank);
        let unlike = match &rust {
            Ok(bank) => !alike(&slots(bank), &proved.slots(self.declared.len())),
            Err(_) => proved.bits() != unset(),
        };
        if due != told || unlike {
            let report = self.setup_report(due, told, &proved);
            return Err(Difference { compared, report });
        }
        let Ok(mut rust) = rust else { return Ok(None) };
        for (index, slot) in self.forged.iter().enumerate() {
            if let Some(slot) = slot {
                inside::forge(&mut rust, index, slot);
                proved.forge(index, slot);
            }
        }
        Ok(Some((rust, proved)))
    }

    fn setup_report(&self, due: Refusal, told: Refusal, proved: &Bank) -> String {
        let Self { declared, rate, .. } = self;
        format!(
            "setup at rate {rate} of {declared:#?}\n  rust:  {due:?}\n  probe: {told:?}\n    {proved:?}\n"
        )
    }

    /// The fewest calls found that still split the two.
    fn report(&self, calls: Vec<Call>) -> String {
        let split = |calls: &[Call]| {
            let (rust, proved) = self.start(0).ok()??;
            first_split(rust, proved, calls)
        };
        let calls = shrink::shorter(calls, 0, &|calls| split(calls).is_some());
        let Some(found) = split(&calls) else {
            return "the difference did not come again\n".into();
        };
        let mut text = format!("smallest form:\n  {self:?}\n  calls:\n");
        for call in &calls {
            let _ = writeln!(text, "    {}", described(call));
        }
        let _ = writeln!(text, "  after call {} (from 0):", found.at);
        let _ = writeln!(
            text,
            "    rust:  {}\n    probe: {}",
            found.rust, found.proved
        );
        text
    }
}

/// The bits of a bank that was never set up.
fn unset() -> Vec<u64> {
    vec![0; TOLD_COUNT]
}

/// Make the same calls on both sides.
fn first_split(mut rust: SmootherBank, mut proved: Bank, calls: &[Call]) -> Option<Split> {
    for (at, call) in calls.iter().enumerate() {
        let due = called(&mut rust, call);
        let (told, count) = proved.call(call);
        let slots = inside::slots(&rust);
        let held = proved.slots(slots.len());
        if due != told || count != refused_id(call, due) || !alike(&slots, &held) {
            return Some(Split {
                at,
                rust: format!("{due:?} {slots:?}"),
                proved: format!("{told:?}, count {count} {held:?}"),
            });
        }
    }
    None
}

/// The id that 23 is told with; 0 where there is none.
fn refused_id(call: &Call, due: Answer) -> u64 {
    match *call {
        Call::Target { id, .. } | Call::Immediate { id, .. } if due.number == 23 => id.into(),
        _ => 0,
    }
}

/// The same in every field, by bits.
fn alike(rust: &[Slot], proved: &[Slot]) -> bool {
    let bits = |s: &Slot| {
        let numbers = [
            s.cur, s.target, s.low, s.high, s.default, s.steps, s.delta, s.coeff,
        ];
        (numbers.map(canonical), s.left)
    };
    rust.len() == proved.len() && rust.iter().zip(proved).all(|(p, q)| bits(p) == bits(q))
}

/// A bank with one field changed that 18 judges: refused, unless it is still
/// what its settings give.
fn changed(
    bank: &Bank,
    declared: &[Declared],
    rng: &mut Rng,
    compared: &mut u64,
) -> Result<(), Difference> {
    let mut bank = bank.clone();
    change(&mut bank, declared.len(), rng);
    let (before, due) = (bank.clone(), if prepared(&bank) { 0 } else { 18 });
    let (told, _) = bank.call(&Call::Step);
    *compared += 1;
    let moved = told.number != 0 && bank.bits() != before.bits();
    if told.number == due && !moved {
        return Ok(());
    }
    let report = format!("step of {before:?}\n  due: {due}\n  probe: {told:?}\n    {bank:?}\n");
    Err(Difference {
        compared: *compared,
        report,
    })
}

fn change(bank: &mut Bank, count: usize, rng: &mut Rng) {
    let index = rng.below(count.max(1) as u64) as usize;
    match rng.below(10) {
        0 => bank.words[READY] = 0,
        1 => bank.words[COUNT] = rng.pick(&[0, 1, count as u64 + 1, 9, u64::MAX]),
        2 => bank.words[RATE] = u64::from(params::rate(rng)),
        3 => bank.slot_mut(index)[ID] = rng.below(9),
        4 => bank.slot_mut(index)[SHAPE] = rng.below(3),
        5 => {
            let place = rng.pick(&[LOW, HIGH, DEFAULT, MS]);
            bank.slot_mut(index)[place] = any(rng).to_bits();
        }
        6 => bank.slot_mut(index).swap(LOW, HIGH),
        _ => {
            let places = [LOW, HIGH, DEFAULT, STEPS, STEPS, COEFF, COEFF, MS];
            let word = &mut bank.slot_mut(index)[rng.pick(&places)];
            *word = near(rng, f64::from_bits(*word), 1).to_bits();
        }
    }
}

/// What 18 asks: set up, settings that pass 1 to 6, and the derived values
/// that the Rust gives for them.
fn prepared(bank: &Bank) -> bool {
    let count = bank.words[COUNT];
    if bank.words[READY] == 0 || count > MOST as u64 {
        return false;
    }
    let declared = bank.declared(count as usize);
    let Ok(rust) = set_up(&declared, bank.words[RATE] as u32) else {
        return false;
    };
    let derived = |slots: &[Slot]| -> Vec<[u64; 2]> {
        let derived = slots.iter().map(|s| [s.steps, s.coeff].map(canonical));
        derived.collect()
    };
    derived(&inside::slots(&rust)) == derived(&bank.slots(count as usize))
}

/// A call in words.
fn described(call: &Call) -> String {
    match call {
        Call::Target { id, value } => format!("set_target({id}, {})", shown(value.to_bits())),
        Call::Immediate { id, value } => {
            format!("set_immediate({id}, {})", shown(value.to_bits()))
        }
        other => format!("{other:?}"),
    }
}

#[cfg(test)]
mod tests {
    use super::*;
    use crate::bank::Shape;

    /// The difference that docs/DIFFERENCES.md tells, in its smallest form: a
    /// forged target that is a NaN with its sign set. With its sign clear the two
    /// agree.
    #[test]
    fn a_forged_nan_target_splits_the_two_by_its_sign() {
        let after_a_step = |target: u64| {
            let declared = Declared {
                id: 0,
                low: -30.0,
                high: 0.0,
                default: -1.0,
                ms: 5.0,
                shape: Shape::Linear,
            };
            let (told, mut proved) = Bank::set_up(&[declared], 48_000);
            assert_eq!(told.number, 0);
            let mut rust = set_up(&[declared], 48_000).expect("good");
            let mut slot = inside::slots(&rust)[0];
            (slot.cur, slot.delta, slot.left) = (-1.0, 1.0, 2);
            slot.target = f64::from_bits(target);
            inside::forge(&mut rust, 0, &slot);
            proved.forge(0, &slot);
            called(&mut rust, &Call::Step);
            proved.call(&Call::Step);
            (inside::slots(&rust)[0].cur, proved.slots(1)[0].cur)
        };
        assert_eq!(after_a_step(0xfff8_0000_0000_0000), (-2.0, 0.0));
        assert_eq!(after_a_step(0x7ff8_0000_0000_0000), (0.0, 0.0));
    }
}
