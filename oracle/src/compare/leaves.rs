//! The leaf functions, `exp` apart from the others.

use super::{shown, Difference, Settings};
use crate::arguments::{draw, exp_argument};
use crate::leaf::{Answer, Case, Op, LEAVES};
use crate::numbers::edges;
use crate::rng::Rng;
use crate::{probe, shrink};

/// `exp` on arguments of every kind, the edges first.
pub fn exp(settings: &Settings) -> Result<u64, Difference> {
    let mut rng = Rng::new(settings.seed);
    let mut compared = 0;
    for x in edges() {
        check(&Case::new(Op::Exp, &[x]), &mut compared)?;
    }
    for kind in 0..settings.count.saturating_sub(compared) {
        let x = exp_argument(kind, &mut rng);
        check(&Case::new(Op::Exp, &[x]), &mut compared)?;
    }
    Ok(compared)
}

/// The other leaf functions: all pairs of edges, then random cases in turn.
pub fn others(settings: &Settings) -> Result<u64, Difference> {
    let mut rng = Rng::new(settings.seed);
    let mut compared = 0;
    for op in LEAVES {
        for case in edge_cases(op) {
            check(&case, &mut compared)?;
        }
    }
    for op in LEAVES.into_iter().cycle() {
        if compared >= settings.count {
            break;
        }
        check(&draw(op, &mut rng), &mut compared)?;
    }
    Ok(compared)
}

/// Every edge, pair of edges or triple of edges that the Rust takes.
fn edge_cases(op: Op) -> Vec<Case> {
    let mut rows: Vec<Vec<f64>> = vec![Vec::new()];
    for _ in 0..op.arity() {
        let longer = |row: &Vec<f64>| {
            let row = row.clone();
            edges().into_iter().map(move |x| [&row[..], &[x]].concat())
        };
        rows = rows.iter().flat_map(longer).collect();
    }
    let cases = rows.iter().map(|row| Case::new(op, row));
    cases.filter(Case::allowed).collect()
}

/// Whether both sides give the same answer; calls that the Rust does not take
/// are nobody's.
fn agree(case: &Case) -> bool {
    !case.allowed() || same(case, case.rust(), probe::leaf(case))
}

/// Whether two answers to a case count as the same: by bits, but for a sign
/// that is nobody's promise.
fn same(case: &Case, one: Answer, other: Answer) -> bool {
    let mask = if case.open_sign() { !(1 << 63) } else { !0 };
    one.status == other.status && one.word & mask == other.word & mask
}

/// Compare one case and count it.
pub fn check(case: &Case, compared: &mut u64) -> Result<(), Difference> {
    *compared += 1;
    if agree(case) {
        return Ok(());
    }
    Err(Difference {
        compared: *compared,
        report: report(case),
    })
}

/// The difference as found and in its smallest form.
fn report(case: &Case) -> String {
    let op = case.op;
    let rebuilt = |words: &[u64]| {
        let mut case = Case { op, words: [0; 3] };
        case.words[..words.len()].copy_from_slice(words);
        case
    };
    let found = case.words[..op.arity()].to_vec();
    let small = shrink::words(found, &|words| !agree(&rebuilt(words)));
    format!(
        "as found:\n{}smallest form:\n{}",
        described(case),
        described(&rebuilt(&small))
    )
}

/// A case with both answers, one line each.
fn described(case: &Case) -> String {
    let argument = |&w: &u64| match case.op {
        Op::Widen => format!("{w:08x}"),
        _ => shown(w),
    };
    let args = case.words[..case.op.arity()].iter().map(argument);
    format!(
        "  {:?}({})\n    rust:  {}\n    probe: {}\n",
        case.op,
        args.collect::<Vec<_>>().join(", "),
        answered(case.op, case.rust()),
        answered(case.op, probe::leaf(case))
    )
}

/// An answer in words.
fn answered(op: Op, answer: Answer) -> String {
    let Answer { status, word } = answer;
    match op {
        _ if status != 0 && word != 0 => format!("refused {status}, but wrote an answer"),
        _ if status != 0 => format!("refused {status}"),
        Op::Round | Op::Ceil => format!("{word:016x} ({word})"),
        Op::Narrow => format!("{word:08x} ({:?})", f32::from_bits(word as u32)),
        _ => shown(word),
    }
}

#[cfg(test)]
mod tests {
    use super::*;

    #[test]
    fn only_open_signs_are_overlooked() {
        let zeros = Case::new(Op::Min, &[0.0, -0.0]);
        assert!(same(&zeros, Answer::float(0.0), Answer::float(-0.0)));
        assert!(!same(&zeros, Answer::float(0.0), Answer::float(1.0)));
        let clamp = Case::new(Op::Clamp, &[-0.0, 0.0, 1.0]);
        assert!(!same(&clamp, Answer::float(0.0), Answer::float(-0.0)));
    }
}
