//! What a file holds beside its samples comes out with them.

mod common;

use std::fs;

use common::*;
use daggeryuzu_cli::sndfile::Format;

fn chunk(name: &[u8; 4], data: &[u8]) -> Vec<u8> {
    let mut bytes = name.to_vec();
    bytes.extend((data.len() as u32).to_le_bytes());
    bytes.extend(data);
    bytes.resize(bytes.len().next_multiple_of(2), 0);
    bytes
}

/// The data of a chunk in a WAV file.
fn found(file: &[u8], name: &[u8; 4]) -> Option<Vec<u8>> {
    let mut at = 12;
    while at + 8 <= file.len() {
        let size = u32::from_le_bytes(file[at + 4..at + 8].try_into().ok()?) as usize;
        if &file[at..at + 4] == name {
            return Some(file[at + 8..at + 8 + size].to_vec());
        }
        at += 8 + size.next_multiple_of(2);
    }
    None
}

/// A WAV with a title, cue points and broadcast data, made by hand.
#[test]
fn texts_cue_points_and_broadcast_data() {
    let folder = Folder::new();
    let (input, output) = (folder.at("in.wav"), folder.at("out.wav"));
    let fmt = [1_u16, 1, 48_000, 0, 0x7700, 1, 2, 16]
        .map(u16::to_le_bytes)
        .concat();
    let mut bext = vec![0; 602];
    bext[..9].copy_from_slice(b"A chapter");
    bext[256..259].copy_from_slice(b"Us.");
    let mut cue = 2_u32.to_le_bytes().to_vec();
    for (i, at) in [100_u32, 777].iter().enumerate() {
        cue.extend((i as u32 + 1).to_le_bytes());
        cue.extend(at.to_le_bytes());
        cue.extend(b"data\x00\x00\x00\x00\x00\x00\x00\x00");
        cue.extend(at.to_le_bytes());
    }
    let mut info = b"INFO".to_vec();
    info.extend(chunk(b"INAM", b"First\x00"));
    info.extend(chunk(b"IART", b"A reader\x00"));
    let mut body = b"WAVE".to_vec();
    body.extend(chunk(b"fmt ", &fmt));
    body.extend(chunk(b"bext", &bext));
    body.extend(chunk(b"LIST", &info));
    body.extend(chunk(b"cue ", &cue));
    body.extend(chunk(b"data", &[7; 2000]));
    fs::write(&input, chunk(b"RIFF", &body)).expect("a file");
    succeeds(&[text(&input), text(&output)]);

    let bytes = fs::read(&output).expect("the output");
    let bext = found(&bytes, b"bext").expect("broadcast data");
    assert_eq!(
        (&bext[..9], &bext[256..259]),
        (&b"A chapter"[..], &b"Us."[..])
    );
    let cue = found(&bytes, b"cue ").expect("cue points");
    assert_eq!(cue[..4], 2_u32.to_le_bytes());
    assert_eq!(cue[24..28], 100_u32.to_le_bytes());
    assert_eq!(cue[48..52], 777_u32.to_le_bytes());
    let list = found(&bytes, b"LIST").expect("texts");
    let held = |part: &[u8]| list.windows(part.len()).any(|w| w == part);
    assert!(held(b"First") && held(b"A reader"));
    assert_eq!(read(&output).1, read(&input).1);
}

/// Six channels with the surround ones at the sides, not the default places.
#[test]
fn the_places_of_channels() {
    let folder = Folder::new();
    let (input, output) = (folder.at("in.wav"), folder.at("out.wav"));
    let format = Format::numbered(WAVEX | PCM_16, 48_000, 6).expect("a format");
    write(&input, format, &swelling(1000, 6));
    let mut bytes = fs::read(&input).expect("the input");
    bytes[40..44].copy_from_slice(&0x60F_u32.to_le_bytes());
    fs::write(&input, &bytes).expect("changed");
    succeeds(&[text(&input), text(&output)]);
    let fmt = found(&fs::read(&output).expect("the output"), b"fmt ").expect("fmt");
    assert_eq!(fmt[20..24], 0x60F_u32.to_le_bytes());
}
