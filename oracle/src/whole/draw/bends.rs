//! Blocks whose highest peak has its like, so that the rules for where it sat
//! decide.

use crate::rng::Rng;
use crate::signals::Signal;
use crate::whole::aims::Aim;
use crate::whole::faults::Fault;
use crate::whole::plan::Block;

/// Bend five blocks in eight.
pub fn bend(block: &mut Block, rng: &mut Rng) {
    match rng.below(8) {
        0 => alike(block, rng),
        1 => block.aims.extend([level(rng)]),
        2 => block.aims.extend([again(rng)]),
        3 => block.aims.extend([twins(rng)]),
        4 => {
            alike(block, rng);
            block.aims.extend([again(rng), twins(rng)]);
        }
        _ => {}
    }
}

/// Samples whose sums are equal, or silence.
fn alike(block: &mut Block, rng: &mut Rng) {
    use Signal::{Pairs, Silence, Smallest};
    let kind = rng.pick(&[Pairs, Pairs, Pairs, Smallest, Silence]);
    block.kinds.fill(kind);
    block.ties = false;
    block.level = match kind {
        Smallest => 1.0,
        // Quiet ones too, that gains may stay at 1.
        _ => block.level / (1 << rng.below(8)) as f64,
    };
}

fn level(rng: &mut Rng) -> Aim {
    Aim::Level { seed: rng.word() }
}

fn again(rng: &mut Rng) -> Aim {
    Aim::Again {
        period: 1 + rng.below(60) as usize,
        negated: rng.below(2) == 0,
    }
}

fn twins(rng: &mut Rng) -> Aim {
    Aim::Twins { seed: rng.word() }
}

/// Other samples in the detector's store before a damaged block, one time in
/// four; half of such blocks are silent, so that nothing else is heard.
pub fn remembered(block: &mut Block, rng: &mut Rng) -> Option<Fault> {
    if rng.below(4) > 0 {
        return None;
    }
    if rng.below(2) == 0 {
        block.kinds.fill(Signal::Silence);
        block.aims.clear();
    }
    Some(Fault::Twelves { seed: rng.word() })
}
