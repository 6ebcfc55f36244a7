//! Writing a sound file.

use std::fs::File;

use super::handle::{writable, Handle};
use super::{Encoding, Format, Reader, Sample, STEP};

/// A sound file that is written from its start to its end.
#[derive(Debug)]
pub struct Writer {
    handle: Handle,
    format: Format,
    whole_numbers: Vec<i32>,
}

impl Writer {
    /// Starts a sound file in an open, empty file.
    ///
    /// # Errors
    /// The line that says why not.
    pub fn start(file: File, format: Format) -> Result<Self, String> {
        let info = format.info();
        if !writable(&info) {
            return Err(format!(
                "{} with {} channels of {} at {} cannot be written",
                format.container(),
                format.channels,
                format.encoding.name(),
                format.rate
            ));
        }
        Ok(Self {
            handle: Handle::write(file, info)?,
            format,
            whole_numbers: Vec::new(),
        })
    }

    /// Carries over what the other file holds beside its samples, before any
    /// sample is written.
    pub fn extras_of(&mut self, reader: &Reader) {
        reader.extras().give(&mut self.handle);
    }

    /// Writes interleaved samples that were rounded to the format's encoding.
    ///
    /// # Errors
    /// The line that says why not.
    pub fn write<T: Sample>(&mut self, samples: &[T]) -> Result<(), String> {
        match self.format.encoding {
            Encoding::Pcm(_) => {
                self.whole_numbers.clear();
                let numbers = samples.iter().map(|x| (x.to_f64() / STEP) as i32);
                self.whole_numbers.extend(numbers);
                self.handle.writef(&self.whole_numbers)
            }
            Encoding::Float | Encoding::Double => self.handle.writef(samples),
        }
    }

    /// Finishes the header.
    ///
    /// # Errors
    /// The line that says why not.
    pub fn close(self) -> Result<(), String> {
        self.handle.close()
    }
}
