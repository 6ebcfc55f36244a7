//! The places of channels: which loudspeaker each is for.

/// A channel's place, by the names of WAV's channel masks.
#[derive(Clone, Copy, Debug, PartialEq, Eq)]
pub struct Speaker(usize);

/// Every place with libsndfile's numbers for it; the front ones have two.
const SPEAKERS: [(&str, &[u32]); 18] = [
    ("FL", &[2, 5]),
    ("FR", &[3, 6]),
    ("FC", &[4, 7]),
    ("LFE", &[11]),
    ("BL", &[9]),
    ("BR", &[10]),
    ("FLC", &[12]),
    ("FRC", &[13]),
    ("BC", &[8]),
    ("SL", &[14]),
    ("SR", &[15]),
    ("TC", &[16]),
    ("TFL", &[17]),
    ("TFC", &[19]),
    ("TFR", &[18]),
    ("TBL", &[20]),
    ("TBC", &[22]),
    ("TBR", &[21]),
];

impl Speaker {
    /// By its name, in letters of either case.
    #[must_use]
    pub fn named(name: &str) -> Option<Self> {
        let mut names = SPEAKERS.iter();
        names
            .position(|(n, _)| n.eq_ignore_ascii_case(name))
            .map(Self)
    }

    /// By libsndfile's number; none where that says nothing of a loudspeaker.
    pub(super) fn numbered(number: u32) -> Option<Self> {
        let mut numbers = SPEAKERS.iter();
        numbers.position(|(_, n)| n.contains(&number)).map(Self)
    }

    /// Its name.
    #[must_use]
    pub fn name(self) -> &'static str {
        SPEAKERS[self.0].0
    }

    /// The names of all.
    pub fn names() -> impl Iterator<Item = &'static str> {
        SPEAKERS.iter().map(|(name, _)| *name)
    }
}

#[cfg(test)]
mod tests {
    use super::*;

    #[test]
    fn a_place_has_one_name_and_a_number_one_place() {
        for name in Speaker::names() {
            let speaker = Speaker::named(name).expect(name);
            assert_eq!(speaker.name(), name);
            assert_eq!(Speaker::named(&name.to_lowercase()), Some(speaker));
        }
        // 1 is mono, and from 23 on they are no loudspeakers
        let places: Vec<_> = (0..30).map(Speaker::numbered).collect();
        assert!(places[2..=22].iter().all(Option::is_some));
        assert!(places[..2].iter().chain(&places[23..]).all(Option::is_none));
        let name = |number| Speaker::numbered(number).map(Speaker::name);
        assert_eq!([4, 11, 8].map(name), [Some("FC"), Some("LFE"), Some("BC")]);
        assert_eq!(Speaker::named("LFE2"), None);
        assert_eq!(Speaker::named(""), None);
    }
}
