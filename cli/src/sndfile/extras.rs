//! What a sound file holds beside its samples, carried over: texts, the places
//! of its channels, broadcast data, cue points. The output is aligned with the
//! input, so that cue points keep their meaning.

use std::ffi::CString;

use super::handle::Handle;

/// libsndfile's numbers of title, copyright, artist, comment, date, album,
/// licence, track number and genre. (The name of the software is not carried:
/// libsndfile adds its own to it.)
const TEXTS: [i32; 9] = [0x01, 0x02, 0x04, 0x05, 0x06, 0x07, 0x08, 0x09, 0x10];

/// libsndfile's commands that read, with those that set the same.
pub(super) const CHANNEL_MAP: (i32, i32) = (0x1100, 0x1101);
const BROADCAST: (i32, i32) = (0x10F0, 0x10F1);
const CUES: (i32, i32) = (0x10CE, 0x10CF);
const CUE_COUNT: i32 = 0x10CD;

/// Words of the broadcast data with the longest history that libsndfile takes,
/// just below 16 KiB.
const BROADCAST_WORDS: usize = (608 + 16 * 1024) / 4 - 1;

/// Words of a cue point: six numbers and a name of 256 bytes.
const CUE_WORDS: usize = 6 + 64;

/// More cue points than this are not a list of chapters.
const MOST_CUES: u32 = 10_000;

/// All that is carried over.
#[derive(Clone, Debug, Default)]
pub(super) struct Extras {
    texts: Vec<(i32, CString)>,
    /// A command and its buffer.
    data: Vec<(i32, Vec<u32>)>,
}

impl Extras {
    /// What an open file holds.
    pub(super) fn of(handle: &Handle, channels: usize) -> Self {
        let texts = TEXTS.iter();
        let texts = texts.filter_map(|kind| Some((*kind, handle.text(*kind)?)));
        let cues = handle.get(CUE_COUNT, 1).map_or(0, |words| words[0]);
        let sizes = [
            (CHANNEL_MAP, channels),
            (BROADCAST, BROADCAST_WORDS),
            (CUES, 1 + CUE_WORDS * cues.min(MOST_CUES) as usize),
        ];
        let data = sizes
            .into_iter()
            .filter_map(|((get, set), size)| Some((set, handle.get(get, size)?)));
        Self {
            texts: texts.collect(),
            data: data.collect(),
        }
    }

    /// Sets it all in a file that has no samples yet.
    pub(super) fn give(mut self, handle: &mut Handle) {
        for (kind, text) in self.texts {
            handle.set_text(kind, &text);
        }
        for (command, words) in &mut self.data {
            handle.set(*command, words);
        }
    }
}
