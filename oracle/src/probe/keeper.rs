//! The floor keeper alone.

use crate::model::keeper::{Keeping, Told};

extern "C" {
    fn probe_floors_setup(
        look: usize,
        state: *mut [u64; 4],
        marks: *mut u64,
        marks_len: usize,
        minima: *mut f64,
        minima_len: usize,
    ) -> u32;
    fn probe_floors_step(
        state: *mut [u64; 4],
        marks: *mut u64,
        marks_len: usize,
        minima: *mut f64,
        minima_len: usize,
        gain: f64,
        floor: *mut f64,
        counts: *mut [u64; 2],
    ) -> u32;
}

/// Setup of a keeper on lent stores.
pub fn floors_setup(keeping: &mut Keeping, look: usize) -> Told {
    let Keeping {
        state,
        marks,
        minima,
    } = keeping;
    // SAFETY: pointers and lengths are those of live places apart.
    Told::number(unsafe {
        probe_floors_setup(
            look,
            state,
            marks.as_mut_ptr(),
            marks.len(),
            minima.as_mut_ptr(),
            minima.len(),
        )
    })
}

/// One gain step, whose refusal must leave the places of its answers alone.
pub fn floors_step(keeping: &mut Keeping, gain: f64) -> Told {
    // What no finished step tells.
    const FLOOR: f64 = -12345.0;
    const COUNTS: [u64; 2] = [u64::MAX, u64::MAX];
    let Keeping {
        state,
        marks,
        minima,
    } = keeping;
    let (mut floor, mut counts) = (FLOOR, COUNTS);
    // SAFETY: pointers and lengths are those of live places apart.
    let number = unsafe {
        probe_floors_step(
            state,
            marks.as_mut_ptr(),
            marks.len(),
            minima.as_mut_ptr(),
            minima.len(),
            gain,
            &mut floor,
            &mut counts,
        )
    };
    let untouched = floor.to_bits() == FLOOR.to_bits() && counts == COUNTS;
    if number != 0 && untouched {
        return Told::number(number);
    }
    Told {
        number,
        floor: floor.to_bits(),
        dropped: counts[0],
        kept: counts[1],
    }
}
