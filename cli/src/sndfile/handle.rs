//! libsndfile's functions, and a handle that calls them safely. Every pointer
//! handed over is that of a slice whose length is checked here.

#![allow(unsafe_code)]

use std::ffi::{c_char, c_int, c_void, CStr, CString};
use std::fs::File;
use std::os::fd::IntoRawFd;
use std::ptr::null_mut;

/// libsndfile's SF_INFO.
#[repr(C)]
#[derive(Clone, Copy, Debug, Default)]
pub(super) struct Info {
    pub frames: i64,
    pub rate: c_int,
    pub channels: c_int,
    pub format: c_int,
    pub sections: c_int,
    pub seekable: c_int,
}

/// libsndfile's SNDFILE.
#[repr(C)]
pub struct SndFile {
    _opaque: [u8; 0],
}

const READ: c_int = 0x10;
const WRITE: c_int = 0x20;
const SET_ADD_PEAK_CHUNK: c_int = 0x1050;

extern "C" {
    fn sf_open_fd(fd: c_int, mode: c_int, info: *mut Info, close: c_int) -> *mut SndFile;
    fn sf_close(file: *mut SndFile) -> c_int;
    fn sf_error(file: *mut SndFile) -> c_int;
    fn sf_strerror(file: *mut SndFile) -> *const c_char;
    fn sf_format_check(info: *const Info) -> c_int;
    fn sf_command(file: *mut SndFile, command: c_int, data: *mut c_void, size: c_int) -> c_int;
    fn sf_readf_int(file: *mut SndFile, to: *mut c_int, frames: i64) -> i64;
    fn sf_readf_float(file: *mut SndFile, to: *mut f32, frames: i64) -> i64;
    fn sf_readf_double(file: *mut SndFile, to: *mut f64, frames: i64) -> i64;
    fn sf_writef_int(file: *mut SndFile, from: *const c_int, frames: i64) -> i64;
    fn sf_writef_float(file: *mut SndFile, from: *const f32, frames: i64) -> i64;
    fn sf_writef_double(file: *mut SndFile, from: *const f64, frames: i64) -> i64;
    fn sf_get_string(file: *mut SndFile, kind: c_int) -> *const c_char;
    fn sf_set_string(file: *mut SndFile, kind: c_int, text: *const c_char) -> c_int;
}

type Readf<T> = unsafe extern "C" fn(*mut SndFile, *mut T, i64) -> i64;
type Writef<T> = unsafe extern "C" fn(*mut SndFile, *const T, i64) -> i64;

/// What libsndfile reads and writes samples as: whole numbers, left-justified in
/// 32 bits, or floats.
pub trait Item: Copy {
    const READF: Readf<Self>;
    const WRITEF: Writef<Self>;
}

impl Item for i32 {
    const READF: Readf<Self> = sf_readf_int;
    const WRITEF: Writef<Self> = sf_writef_int;
}

impl Item for f32 {
    const READF: Readf<Self> = sf_readf_float;
    const WRITEF: Writef<Self> = sf_writef_float;
}

impl Item for f64 {
    const READF: Readf<Self> = sf_readf_double;
    const WRITEF: Writef<Self> = sf_writef_double;
}

/// Whether libsndfile can write such a file.
pub(super) fn writable(info: &Info) -> bool {
    unsafe { sf_format_check(info) != 0 }
}

/// An open sound file.
#[derive(Debug)]
pub(super) struct Handle {
    /// Null once it is closed, and then no method is called.
    sound: *mut SndFile,
    channels: usize,
}

/// A handle may go to another thread: libsndfile keeps what a file needs with the
/// file, and only one thread at a time has it.
unsafe impl Send for Handle {}

impl Handle {
    /// Opens for reading.
    pub(super) fn read(file: File) -> Result<(Self, Info), String> {
        Self::open(file, READ, Info::default())
    }

    /// Opens for writing, with no chunk that holds the time of day.
    pub(super) fn write(file: File, info: Info) -> Result<Self, String> {
        let (handle, _) = Self::open(file, WRITE, info)?;
        unsafe { sf_command(handle.sound, SET_ADD_PEAK_CHUNK, null_mut(), 0) };
        Ok(handle)
    }

    fn open(file: File, mode: c_int, mut info: Info) -> Result<(Self, Info), String> {
        // libsndfile closes the file in the end: where it cannot open it, too,
        // and whatever it is asked for, so it is given away.
        let sound = unsafe { sf_open_fd(file.into_raw_fd(), mode, &mut info, 1) };
        if sound.is_null() {
            return Err(words(null_mut()));
        }
        let handle = Self {
            sound,
            channels: usize::try_from(info.channels).unwrap_or(0).max(1),
        };
        Ok((handle, info))
    }

    /// Whole frames that a slice of interleaved samples has room for.
    fn frames<T>(&self, samples: &[T]) -> i64 {
        (samples.len() / self.channels) as i64
    }

    /// Reads interleaved samples; the frames read.
    pub(super) fn readf<T: Item>(&mut self, to: &mut [T]) -> usize {
        let frames = self.frames(to);
        let read = unsafe { T::READF(self.sound, to.as_mut_ptr(), frames) };
        usize::try_from(read).unwrap_or(0)
    }

    /// Writes interleaved samples.
    pub(super) fn writef<T: Item>(&mut self, from: &[T]) -> Result<(), String> {
        let frames = self.frames(from);
        let written = unsafe { T::WRITEF(self.sound, from.as_ptr(), frames) };
        self.whole(written, frames)
    }

    fn whole(&self, written: i64, frames: i64) -> Result<(), String> {
        match self.error() {
            Some(line) => Err(line),
            None if written == frames => Ok(()),
            None => Err(format!("{written} of {frames} frames were written")),
        }
    }

    /// What went wrong at the last call.
    pub(super) fn error(&self) -> Option<String> {
        let number = unsafe { sf_error(self.sound) };
        (number != 0).then(|| words(self.sound))
    }

    /// One of the file's texts (title, artist and so on).
    pub(super) fn text(&self, kind: i32) -> Option<CString> {
        let text = unsafe { sf_get_string(self.sound, kind) };
        (!text.is_null()).then(|| unsafe { CStr::from_ptr(text) }.to_owned())
    }

    /// Sets one of the file's texts; a container that has no room for it goes
    /// without.
    pub(super) fn set_text(&mut self, kind: i32, text: &CStr) {
        unsafe { sf_set_string(self.sound, kind, text.as_ptr()) };
    }

    /// What a command that reads writes to a buffer of `size` words.
    pub(super) fn get(&self, command: i32, size: usize) -> Option<Vec<u32>> {
        let mut words = vec![0; size];
        let bytes = c_int::try_from(4 * size).ok()?;
        let done = unsafe { sf_command(self.sound, command, words.as_mut_ptr().cast(), bytes) };
        (done != 0).then_some(words)
    }

    /// Hands a buffer to a command that sets; a container that has no room for
    /// it goes without.
    pub(super) fn set(&mut self, command: i32, words: &mut [u32]) {
        if let Ok(bytes) = c_int::try_from(4 * words.len()) {
            unsafe { sf_command(self.sound, command, words.as_mut_ptr().cast(), bytes) };
        }
    }

    /// Writes what is still held back, and closes.
    pub(super) fn close(mut self) -> Result<(), String> {
        let earlier = self.error();
        let number = self.shut();
        match (earlier, number) {
            (Some(line), _) => Err(line),
            (None, 0) => Ok(()),
            (None, number) => Err(format!("libsndfile's error {number} as it closed")),
        }
    }

    fn shut(&mut self) -> c_int {
        let sound = std::mem::replace(&mut self.sound, null_mut());
        if sound.is_null() {
            return 0;
        }
        unsafe { sf_close(sound) }
    }
}

impl Drop for Handle {
    fn drop(&mut self) {
        self.shut();
    }
}

/// What libsndfile says of a handle, or of the last file that did not open.
fn words(sound: *mut SndFile) -> String {
    let text = unsafe { CStr::from_ptr(sf_strerror(sound)) };
    let text = text.to_string_lossy();
    text.trim_end_matches(['.', '\n', ' ']).into()
}
