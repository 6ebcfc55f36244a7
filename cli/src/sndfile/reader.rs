//! Reading a sound file.

use std::fs::{self, File};
use std::path::{Path, PathBuf};

use super::extras::{Extras, CHANNEL_MAP};
use super::handle::Handle;
use super::{whole, Encoding, Format, Sample, Speaker, STEP};
use crate::failure::Failure;

/// libsndfile's number of frames where a header does not say it.
const UNKNOWN: i64 = i64::MAX;

/// A sound file that is read from its start to its end.
#[derive(Debug)]
pub struct Reader {
    path: PathBuf,
    handle: Handle,
    format: Format,
    frames: Option<u64>,
    taken: u64,
    whole_numbers: Vec<i32>,
}

impl Reader {
    /// Opens a file that holds audio, all that its header promises.
    ///
    /// # Errors
    /// A line that says what is wrong with it.
    pub fn open(path: &Path) -> Result<Self, Failure> {
        let unreadable = |e| Failure::system(path, "cannot be read", &e);
        // Looked at before it is opened: to open a pipe may take for ever.
        if !fs::metadata(path).map_err(unreadable)?.is_file() {
            return Err(Failure::at(path, "not a file"));
        }
        let file = File::open(path).map_err(unreadable)?;
        let copy = file.try_clone().map_err(unreadable)?;
        let (handle, info) =
            Handle::read(file).map_err(|e| Failure::at(path, format!("no sound file: {e}")))?;
        let format = Format::of(&info).map_err(|e| Failure::at(path, e))?;
        whole::check(&copy).map_err(|e| Failure::at(path, e))?;
        let frames = match info.frames {
            UNKNOWN => None,
            0 => return Err(Failure::at(path, "holds no audio")),
            n => Some(u64::try_from(n).map_err(|_| Failure::at(path, "holds no audio"))?),
        };
        Ok(Self {
            path: path.into(),
            handle,
            format,
            frames,
            taken: 0,
            whole_numbers: Vec::new(),
        })
    }

    /// What the file is.
    #[must_use]
    pub fn format(&self) -> Format {
        self.format
    }

    /// The frames that its header promises, where it says so.
    #[must_use]
    pub fn frames(&self) -> Option<u64> {
        self.frames
    }

    /// Its path, as it was given.
    #[must_use]
    pub fn path(&self) -> &Path {
        &self.path
    }

    /// The place of each channel, where the file tells it.
    #[must_use]
    pub fn places(&self) -> Vec<Option<Speaker>> {
        let channels = self.format.channels;
        match self.handle.get(CHANNEL_MAP.0, channels) {
            Some(numbers) => numbers.into_iter().map(Speaker::numbered).collect(),
            None => vec![None; channels],
        }
    }

    /// Fills `to` with interleaved samples as far as there are any: the frames
    /// read, 0 at the end.
    ///
    /// # Errors
    /// A file that ends early or cannot be decoded.
    ///
    /// # Panics
    /// Where the sample type cannot hold the file's samples as they are.
    pub fn read<T: Sample>(&mut self, to: &mut [T]) -> Result<usize, Failure> {
        assert!(T::holds(self.format.encoding), "samples would lose digits");
        let frames = match self.format.encoding {
            Encoding::Pcm(_) => {
                self.whole_numbers.resize(to.len(), 0);
                let frames = self.handle.readf(&mut self.whole_numbers);
                for (x, n) in to.iter_mut().zip(&self.whole_numbers) {
                    *x = T::from_f64(f64::from(*n) * STEP);
                }
                frames
            }
            Encoding::Float | Encoding::Double => self.handle.readf(to),
        };
        if let Some(line) = self.handle.error() {
            return Err(self.damaged(&line));
        }
        self.taken += frames as u64;
        let room = to.len() / self.format.channels.max(1);
        if frames < room && self.frames.is_some_and(|n| n != self.taken) {
            return Err(self.damaged("the audio ends early"));
        }
        if self.taken == 0 {
            return Err(Failure::at(&self.path, "holds no audio"));
        }
        Ok(frames)
    }

    fn damaged(&self, line: &str) -> Failure {
        let promised = match self.frames {
            Some(n) => format!(" of {n}"),
            None => String::new(),
        };
        let line = format!(
            "damaged or cut off after frame {}{promised}: {line}",
            self.taken
        );
        Failure::at(&self.path, line)
    }

    /// What it holds beside its samples.
    pub(super) fn extras(&self) -> Extras {
        Extras::of(&self.handle, self.format.channels)
    }
}
