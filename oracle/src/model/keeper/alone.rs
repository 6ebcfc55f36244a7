//! The floor keeper alone: its setup and its refusals in the table's order.

use super::{Front, Keeping, MOST_FRAMES};

/// What a call answers: document 01's number, and for a finished step the
/// floor's bits, the entries dropped and the entries kept; 0 else.
#[derive(Clone, Copy, Debug, Default, PartialEq, Eq)]
pub struct Told {
    pub number: u32,
    pub floor: u64,
    pub dropped: u64,
    pub kept: u64,
}

impl Told {
    /// A call that tells nothing but its number.
    pub fn number(number: u32) -> Self {
        Self {
            number,
            ..Self::default()
        }
    }
}

impl From<Front> for Told {
    fn from(front: Front) -> Self {
        Self {
            number: 0,
            floor: front.floor.to_bits(),
            dropped: front.dropped,
            kept: front.kept,
        }
    }
}

impl Keeping {
    /// The same state and stores, to the bit.
    pub fn same(&self, other: &Self) -> bool {
        let bits = |minima: &[f64]| -> Vec<u64> { minima.iter().map(|m| m.to_bits()).collect() };
        self.state == other.state
            && self.marks == other.marks
            && bits(&self.minima) == bits(&other.minima)
    }

    /// Setup: 12, 16, or both stores filled with 0. A refused one leaves the
    /// stores alone and the keeper not set up.
    pub fn setup(&mut self, look: u64) -> Told {
        let refusal = [(12, taken(look)), (16, self.fits(look))];
        self.state = [0; 4];
        if let Some(&(number, _)) = refusal.iter().find(|(_, kept)| !kept) {
            return Told::number(number);
        }
        self.state[0] = look;
        self.marks.fill(0);
        self.minima.fill(0.0);
        Told::number(0)
    }

    /// One gain step, or the first refusal, which changes nothing.
    pub fn step(&mut self, gain: f64) -> Told {
        match self.refusal() {
            0 => Told::from(self.stepped(gain)),
            number => Told::number(number),
        }
    }

    /// The first of 12, 16, 19 and 22 that arises, or 0.
    fn refusal(&self) -> u32 {
        let [look, _, _, frame] = self.state;
        if !taken(look) {
            12
        } else if !self.fits(look) {
            16
        } else if !self.in_order() {
            19
        } else if frame + 1 > MOST_FRAMES {
            22
        } else {
            0
        }
    }

    /// Both stores have look + 1 places.
    fn fits(&self, look: u64) -> bool {
        let places = u128::from(look) + 1;
        self.marks.len() as u128 == places && self.minima.len() as u128 == places
    }
}

/// 12: look under 11 or over 4,096.
fn taken(look: u64) -> bool {
    (11..=4096).contains(&look)
}

#[cfg(test)]
mod tests {
    use super::*;

    fn fresh(look: usize) -> Keeping {
        let mut keeping = Keeping {
            state: [7; 4],
            marks: vec![9; look + 1],
            minima: vec![f64::NAN; look + 1],
        };
        assert_eq!(keeping.setup(look as u64), Told::number(0));
        keeping
    }

    #[test]
    fn document_01_floors_example() {
        let mut keeping = fresh(11);
        let told = [1.0, 0.5, 0.75].map(|gain| keeping.step(gain));
        let seen = told.map(|t| (f64::from_bits(t.floor), t.dropped, t.kept));
        assert_eq!(seen, [(1.0, 0, 1), (0.5, 1, 1), (0.5, 0, 2)]);
    }

    #[test]
    fn document_01_window_row() {
        let mut keeping = fresh(11);
        keeping.step(0.5);
        let told: Vec<Told> = (1..13).map(|_| keeping.step(1.0)).collect();
        let half = |t: &Told| f64::from_bits(t.floor) == 0.5;
        assert!(told[..11].iter().all(half));
        assert_eq!((told[11].dropped, told[11].kept), (2, 1));
        assert_eq!(f64::from_bits(told[11].floor), 1.0);
    }

    #[test]
    fn setups_are_refused_in_the_tables_order() {
        let mut keeping = fresh(11);
        for (look, number) in [(10, 12), (4097, 12), (u64::MAX, 12), (12, 16), (11, 0)] {
            assert_eq!(keeping.setup(look), Told::number(number));
        }
    }

    /// One clause broken at a time, each of which is 19.
    #[test]
    fn each_clause_of_in_order_counts() {
        let mut good = fresh(11);
        for gain in [0.25, 0.5, 0.75] {
            good.step(gain);
        }
        let broken: [fn(&mut Keeping); 11] = [
            |k| k.state[3] = MOST_FRAMES + 1,
            |k| k.state[2] = 13,
            |k| k.state[2] = 0,
            |k| k.state[3] = 0,
            |k| k.state[1] = 12,
            |k| k.marks[1] = 0,
            |k| k.marks[2] = 3,
            |k| k.state[3] = 4,
            |k| k.minima[1] = 0.25,
            |k| k.minima[0] = -0.5,
            |k| k.minima[2] = 1.5,
        ];
        for damage in broken {
            let mut keeping = good.clone();
            damage(&mut keeping);
            let before = keeping.clone();
            assert_eq!(keeping.step(0.5), Told::number(19));
            assert!(keeping.same(&before));
        }
        assert_eq!(good.step(0.5).number, 0);
    }

    #[test]
    fn the_first_mark_may_be_a_window_back_and_no_more() {
        let mut keeping = fresh(11);
        keeping.state = [11, 3, 2, 1000];
        keeping.minima[3..5].copy_from_slice(&[-0.0, 1.0]);
        for (first, number) in [(988, 0), (987, 19)] {
            keeping.marks[3..5].copy_from_slice(&[first, 999]);
            assert_eq!(keeping.clone().step(1.0).number, number);
        }
    }

    #[test]
    fn the_last_frame_is_the_one_below_the_most() {
        let mut keeping = fresh(11);
        keeping.step(0.5);
        for (frame, number) in [(MOST_FRAMES - 1, 0), (MOST_FRAMES, 22)] {
            keeping.state[3] = frame;
            keeping.marks[0] = frame - 1;
            assert_eq!(keeping.clone().step(0.5).number, number);
        }
    }
}
