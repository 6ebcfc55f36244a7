//! Channels that are left out of the linked peak: how a command line names them, and
//! which ones of a file these are.

use std::fmt;

use daggeryuzu::MOST_CHANNELS;

use crate::sndfile::Speaker;

/// What a command line leaves out.
#[derive(Clone, Copy, Debug, PartialEq, Eq)]
pub enum Named {
    /// A channel by its number; the first is 1, as in the report.
    Number(usize),
    /// Every channel that has this place.
    Place(Speaker),
}

impl Named {
    fn read(word: &str) -> Option<Self> {
        let number = word.parse().ok();
        let number = number.filter(|n| (1..=MOST_CHANNELS).contains(n));
        let place = || Speaker::named(word).map(Self::Place);
        number.map(Self::Number).or_else(place)
    }

    fn is(self, channel: Channel) -> bool {
        match self {
            Self::Number(number) => channel.index + 1 == number,
            Self::Place(place) => channel.place == Some(place),
        }
    }
}

impl fmt::Display for Named {
    fn fmt(&self, f: &mut fmt::Formatter<'_>) -> fmt::Result {
        match self {
            Self::Number(number) => write!(f, "{number}"),
            Self::Place(place) => write!(f, "{}", place.name()),
        }
    }
}

/// The words between commas.
///
/// # Errors
/// A word that is neither a place nor a number: what would be.
pub fn named(words: &str) -> Result<Vec<Named>, String> {
    let read = |word: &str| {
        Named::read(word.trim()).ok_or_else(|| {
            let places: Vec<&str> = Speaker::names().collect();
            let places = places.join(" ");
            format!("a number from 1 to {MOST_CHANNELS} or a place ({places}), not '{word}'")
        })
    };
    words.split(',').map(read).collect()
}

/// A channel of a file.
#[derive(Clone, Copy, Debug, PartialEq, Eq)]
pub struct Channel {
    /// Counted from 0.
    pub index: usize,
    /// Its place, where the file tells it.
    pub place: Option<Speaker>,
}

impl fmt::Display for Channel {
    /// For readers, who count from 1.
    fn fmt(&self, f: &mut fmt::Formatter<'_>) -> fmt::Result {
        write!(f, "channel {}", self.index + 1)?;
        match self.place {
            Some(place) => write!(f, " ({})", place.name()),
            None => Ok(()),
        }
    }
}

/// The channels that are left out of a file, whose channels have these places; in the
/// file's order.
///
/// # Errors
/// A name that is none of the file's, or names that leave no channel to count.
pub fn channels(named: &[Named], places: &[Option<Speaker>]) -> Result<Vec<Channel>, String> {
    let all = places.iter().enumerate();
    let all: Vec<Channel> = all
        .map(|(index, &place)| Channel { index, place })
        .collect();
    for name in named {
        if !all.iter().any(|c| name.is(*c)) {
            return Err(format!("cannot leave out {name}: {}", why(*name, places)));
        }
    }
    let named = |channel: &&Channel| named.iter().any(|name| name.is(**channel));
    let left_out: Vec<Channel> = all.iter().filter(named).copied().collect();
    if left_out.len() == all.len() {
        return Err("every channel left out: nothing would be limited".into());
    }
    Ok(left_out)
}

/// Why a name is none of the file's.
fn why(name: Named, places: &[Option<Speaker>]) -> String {
    let known: Vec<&str> = places.iter().flatten().map(|p| p.name()).collect();
    let count = match places.len() {
        1 => "1 channel".into(),
        n => format!("{n} channels"),
    };
    match (name, places.len()) {
        (Named::Place(_), _) if !known.is_empty() => format!("the file has {}", known.join(", ")),
        (Named::Place(_), n @ 2..) => format!(
            "the file does not tell the places of its {count}; \
             name the channel by its number (1 to {n})"
        ),
        _ => format!("the file has {count}"),
    }
}

#[cfg(test)]
mod tests {
    use super::*;

    fn place(name: &str) -> Option<Speaker> {
        Speaker::named(name)
    }

    /// The channels of a file with these places that a line leaves out, from 0.
    fn left_out(line: &str, places: &[Option<Speaker>]) -> Result<Vec<usize>, String> {
        let channels = channels(&named(line)?, places)?;
        Ok(channels.iter().map(|c| c.index).collect())
    }

    #[test]
    fn names_are_places_in_either_case_or_numbers_from_1() {
        let surround = ["FL", "FR", "FC", "LFE", "BL", "BR"].map(place);
        for (line, due) in [
            ("LFE", vec![3]),
            ("lfe", vec![3]),
            ("4", vec![3]),
            ("lfe,4,LFE", vec![3]),
            ("BR, 1", vec![0, 5]),
            ("6,5,4,3,2", vec![1, 2, 3, 4, 5]),
        ] {
            assert_eq!(left_out(line, &surround), Ok(due), "{line}");
        }
        assert_eq!(channels(&[], &surround), Ok(vec![]));
    }

    #[test]
    fn other_words_are_no_names() {
        for line in ["", "0", "9", "-1", "bass", "LFE,", ",4", "4;5", "LFE 4"] {
            let told = named(line).expect_err(line);
            assert!(told.contains("a number from 1 to 8 or a place (FL FR FC LFE "));
        }
        let told = named("fl,low").expect_err("a word");
        assert!(told.ends_with(", not 'low'"), "{told}");
    }

    #[test]
    fn two_channels_of_one_place_go_together() {
        let twice = [place("LFE"), place("FC"), place("LFE"), None];
        assert_eq!(left_out("LFE", &twice), Ok(vec![0, 2]));
        assert_eq!(left_out("3", &twice), Ok(vec![2]));
        assert_eq!(left_out("4", &twice), Ok(vec![3]));
    }

    #[test]
    fn what_the_file_has_not_is_said() {
        let (stereo, unknown) = (["FL", "FR"].map(place), [None; 6]);
        for (line, places, said) in [
            ("LFE", &stereo[..], "leave out LFE: the file has FL, FR"),
            ("1,3", &stereo, "leave out 3: the file has 2 channels"),
            ("2", &[None], "leave out 2: the file has 1 channel"),
            (
                "lfe",
                &unknown,
                "the file does not tell the places of its 6 channels; \
                 name the channel by its number (1 to 6)",
            ),
            ("lfe", &[None], "leave out LFE: the file has 1 channel"),
            ("FL,FR", &stereo, "every channel left out"),
            ("1,2", &stereo, "every channel left out"),
            ("1", &[None], "every channel left out"),
        ] {
            let told = left_out(line, places).expect_err(line);
            assert!(told.contains(said), "{line}: {told}");
        }
    }

    #[test]
    fn a_channel_is_told_with_its_place() {
        let told = |place| Channel { index: 3, place }.to_string();
        assert_eq!(told(place("LFE")), "channel 4 (LFE)");
        assert_eq!(told(None), "channel 4");
    }
}
