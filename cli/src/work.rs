//! From a job to its files.

use std::path::{Path, PathBuf};

use daggeryuzu::{Limiter, LimiterSettings, ProcessSpec};

use crate::args::Job;
use crate::failure::Failure;
use crate::interrupt;
use crate::left_out::{self, Channel};
use crate::limit::{limit, refused, Outcome};
use crate::place::{same, Pending};
use crate::progress::Progress;
use crate::report::{json, svg, Report};
use crate::sndfile::{Encoding, Reader, Sample, Writer};

/// Does a job. Each of its files appears whole at the end, the sound first, or
/// not at all.
///
/// # Errors
/// The line that says why not.
pub fn run(job: &Job) -> Result<Report, Failure> {
    apart(job)?;
    let mut reader = Reader::open(&job.input)?;
    let format = reader.format();
    let spec = ProcessSpec {
        sample_rate: format.rate,
        channels: format.channels,
        max_block: job.block,
        max_memory: None,
    };
    let (settings, left_out) = settled(job, &reader)?;
    let mut limiter =
        Limiter::prepare(settings, spec).map_err(|e| Failure::at(&job.input, refused(e)))?;
    let (look, house_weights) = (limiter.latency(), limiter.has_house_weights());
    let mut files = Files::start(job, &reader)?;
    let limited = match format.encoding {
        // As f32, what is written is exactly what the limiter gave out.
        Encoding::Float => limited_as::<f32>,
        Encoding::Pcm(_) | Encoding::Double => limited_as::<f64>,
    };
    let sound = files.sound.as_mut();
    let outcome = limited(&mut reader, &mut limiter, job.block, sound)?;
    let report = Report {
        input: job.input.clone(),
        output: job.output.clone(),
        format,
        settings,
        left_out,
        look,
        house_weights,
        outcome,
    };
    files.publish(&report)?;
    Ok(report)
}

/// A job's files on their way.
struct Files {
    sound: Option<Sound>,
    numbers: Option<Pending>,
    picture: Option<Pending>,
}

impl Files {
    fn start(job: &Job, reader: &Reader) -> Result<Self, Failure> {
        let sound = job.output.as_deref().map(|p| Sound::start(p, reader));
        Ok(Self {
            sound: sound.transpose()?,
            numbers: job.report.as_deref().map(Pending::start).transpose()?,
            picture: job.plot.as_deref().map(Pending::start).transpose()?,
        })
    }

    /// Brings all of them to the disk, then to their places.
    fn publish(self, report: &Report) -> Result<(), Failure> {
        let mut files = Vec::new();
        if let Some(sound) = self.sound {
            files.push(sound.finish(report.frames())?);
        }
        if let Some(mut file) = self.numbers {
            file.write(&json(report))?;
            files.push(file);
        }
        if let Some(mut file) = self.picture {
            file.write(&svg(report))?;
            files.push(file);
        }
        for file in &files {
            file.sync()?;
        }
        interrupt::check()?;
        files.into_iter().try_for_each(Pending::publish)
    }
}

/// The limiter's settings for a file, and the channels that they leave out.
fn settled(job: &Job, reader: &Reader) -> Result<(LimiterSettings, Vec<Channel>), Failure> {
    let left_out = left_out::channels(&job.leave_out, &reader.places());
    let left_out = left_out.map_err(|line| Failure::at(&job.input, line))?;
    let channels = left_out.iter();
    let settings = channels.fold(job.settings, |s, channel| s.leave_out(channel.index));
    Ok((settings, left_out))
}

/// Limits the file as samples of one type, and shows how far it is.
fn limited_as<T: Sample>(
    reader: &mut Reader,
    limiter: &mut Limiter,
    block: usize,
    mut sound: Option<&mut Sound>,
) -> Result<Outcome, Failure> {
    let mut progress = Progress::new(reader.frames(), reader.format().rate);
    limit::<T>(
        reader,
        limiter,
        block,
        |samples| sound.as_mut().map_or(Ok(()), |s| s.write(samples)),
        |frame| {
            progress.show(frame);
            interrupt::check()
        },
    )
}

/// Refuses a file that is to be two things at once.
fn apart(job: &Job) -> Result<(), Failure> {
    let files: Vec<(&str, &Path)> = [
        ("input", Some(&job.input)),
        ("output", job.output.as_ref()),
        ("report", job.report.as_ref()),
        ("plot", job.plot.as_ref()),
    ]
    .into_iter()
    .filter_map(|(name, path)| Some((name, path?.as_path())))
    .collect();
    for (i, (name, path)) in files.iter().enumerate() {
        if let Some((other, _)) = files[..i].iter().find(|(_, p)| same(p, path)) {
            return Err(Failure::at(
                path,
                format!("{other} and {name} are the same file"),
            ));
        }
    }
    Ok(())
}

/// The sound file on its way.
struct Sound {
    place: PathBuf,
    pending: Pending,
    writer: Writer,
}

impl Sound {
    fn start(place: &Path, reader: &Reader) -> Result<Self, Failure> {
        let pending = Pending::start(place)?;
        let mut writer =
            Writer::start(pending.file()?, reader.format()).map_err(|e| unwritten(place, &e))?;
        writer.extras_of(reader);
        Ok(Self {
            place: place.into(),
            pending,
            writer,
        })
    }

    fn write<T: Sample>(&mut self, samples: &[T]) -> Result<(), Failure> {
        let written = self.writer.write(samples);
        written.map_err(|e| unwritten(&self.place, &e))
    }

    /// Closes it and looks whether its header promises what was written.
    fn finish(self, frames: u64) -> Result<Pending, Failure> {
        let closed = self.writer.close();
        closed.map_err(|e| unwritten(&self.place, &e))?;
        match Reader::open(self.pending.unfinished()) {
            Ok(back) if back.frames() == Some(frames) => Ok(self.pending),
            _ => Err(unwritten(&self.place, "it does not read back whole")),
        }
    }
}

fn unwritten(place: &Path, line: &str) -> Failure {
    Failure::at(place, format!("cannot be written: {line}"))
}
