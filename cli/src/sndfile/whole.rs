//! Whether a RIFF or FORM file holds as much audio as its header promises:
//! libsndfile reads what there is and says nothing.

use std::fs::File;
use std::io;
use std::os::unix::fs::FileExt;

/// How the numbers of a header are written.
#[derive(Clone, Copy)]
enum Order {
    LowFirst,
    HighFirst,
}

impl Order {
    fn number(self, bytes: [u8; 4]) -> u64 {
        u64::from(match self {
            Self::LowFirst => u32::from_le_bytes(bytes),
            Self::HighFirst => u32::from_be_bytes(bytes),
        })
    }
}

/// Nothing where the file is whole or of another kind; else the line.
pub(super) fn check(file: &File) -> Result<(), String> {
    let length = file.metadata().map_err(|e| e.to_string())?.len();
    match promised_end(file, length) {
        Ok(Some(end)) if end > length => Err(format!(
            "cut off, or never finished: its header promises audio up to byte {end} of {length}"
        )),
        Ok(_) => Ok(()),
        Err(_) => Err("cut off: it ends before its audio".into()),
    }
}

/// Where the audio should end, or nothing for another kind of file.
fn promised_end(file: &File, length: u64) -> io::Result<Option<u64>> {
    let (order, audio) = match &read::<4>(file, 0)? {
        b"RIFF" | b"RF64" => (Order::LowFirst, *b"data"),
        b"RIFX" => (Order::HighFirst, *b"data"),
        b"FORM" => (Order::HighFirst, *b"SSND"),
        _ => return Ok(None),
    };
    let mut long = None;
    let mut at = 12;
    loop {
        let name = read::<4>(file, at)?;
        let size = order.number(read(file, at + 4)?);
        if name == *b"ds64" {
            long = Some(u64::from_le_bytes(read(file, at + 16)?));
        }
        if name == audio {
            let size = long.filter(|_| size == 0xFFFF_FFFF).unwrap_or(size);
            return Ok(Some(at.saturating_add(8).saturating_add(size)));
        }
        at += 8 + size + size % 2;
        if at > length {
            return Err(io::ErrorKind::UnexpectedEof.into());
        }
    }
}

fn read<const N: usize>(file: &File, at: u64) -> io::Result<[u8; N]> {
    let mut bytes = [0; N];
    file.read_exact_at(&mut bytes, at)?;
    Ok(bytes)
}
