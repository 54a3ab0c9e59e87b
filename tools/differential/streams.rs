//! Calls on what others made: the published mSBC frame of silence, both ways, and streams that BlueZ's and FFmpeg's encoders wrote, each beside the
//! PCM that their own decoder made of it and the PCM that was recorded of the Rust (crates/sbc_figures/data/README.md). The Rust must agree with
//! them, or there is no list.
use crate::protocol::{Codec, LONGEST, Request};
use nanoaudio_sbc::SbcParameters;
use std::path::{Path, PathBuf};

/// The frame of silence, as HFP's drivers carry it.
const SILENCE: [u8; 57] = [
    0xAD, 0x00, 0x00, 0xC5, 0x00, 0x00, 0x00, 0x00, 0x77, 0x6D, 0xB6, 0xDD, 0xDB, 0x6D, 0xB7, 0x76, 0xDB, 0x6D, 0xDD, 0xB6, 0xDB, 0x77, 0x6D, 0xB6,
    0xDD, 0xDB, 0x6D, 0xB7, 0x76, 0xDB, 0x6D, 0xDD, 0xB6, 0xDB, 0x77, 0x6D, 0xB6, 0xDD, 0xDB, 0x6D, 0xB7, 0x76, 0xDB, 0x6D, 0xDD, 0xB6, 0xDB, 0x77,
    0x6D, 0xB6, 0xDD, 0xDB, 0x6D, 0xB7, 0x76, 0xDB, 0x6C,
];

/// How far the PCM of the two may be apart: theirs have coarser tables.
const NEAR: i32 = 8;

fn samples(bytes: &[u8]) -> Vec<i16> {
    bytes.as_chunks().0.iter().map(|sample| i16::from_le_bytes(*sample)).collect()
}

struct List {
    codec: Codec,
    bytes: Vec<u8>,
}

impl List {
    /// Adds a call, and gives its answer.
    fn call(&mut self, request: Request) -> Vec<u8> {
        self.bytes.extend(request.bytes());
        self.codec.answer(request)
    }
}

/// The streams of a folder, by name.
fn files(folder: &Path) -> Vec<PathBuf> {
    let mut files: Vec<_> = std::fs::read_dir(folder).expect("the streams").map(|entry| entry.expect("a file").path()).collect();
    files.retain(|file| file.extension().is_some_and(|word| word == "sbc"));
    files.sort();
    files
}

/// The bytes of the Rust's PCM of a whole stream, for which a call's longest buffer is enough.
fn decoded(file: &Path) -> Vec<u8> {
    let stream = std::fs::read(file).expect("a stream");
    let (length, answer) = (stream.len(), Codec::new().answer(Request::Decode(stream, vec![0; LONGEST])));
    let number = |from: usize| u64::from_le_bytes(answer[from..from + 8].try_into().unwrap()) as usize;
    assert!(answer[0] == 0 && number(1) == length, "the stream is decoded whole");
    answer[17..17 + 2 * number(9)].to_vec()
}

/// Writes the Rust's PCM beside each stream, as NAME.rust.pcm.
pub fn record(folder: &Path) {
    for file in files(folder) {
        std::fs::write(file.with_extension("rust.pcm"), decoded(&file)).expect("the PCM is written");
    }
}

pub fn streams(folder: &Path) -> Vec<u8> {
    let mut list = List { codec: Codec::new(), bytes: Vec::new() };
    list.call(Request::New(SbcParameters::MSBC));
    assert_eq!(list.call(Request::Encode(vec![0; 120], vec![0xAA; 57]))[17..], SILENCE, "the frame of silence is written");
    list.call(Request::ResetDecoder);
    assert_eq!(list.call(Request::Decode(SILENCE.to_vec(), vec![1; 120]))[17..], [0; 240], "the frame of silence is read");
    for file in files(folder) {
        let theirs = samples(&std::fs::read(file.with_extension("pcm")).expect("their PCM"));
        list.call(Request::ResetDecoder);
        let answer = list.call(Request::Decode(std::fs::read(&file).expect("a stream"), vec![0; theirs.len()]));
        let ours = samples(&answer[17..]);
        let apart = ours.iter().zip(&theirs).map(|(a, b)| (*a as i32 - *b as i32).abs()).max().expect("some samples");
        eprintln!("{}: {} samples, at most {apart} from theirs", file.display(), theirs.len());
        assert!(answer[0] == 0 && apart <= NEAR, "the two decoders agree");
        assert!(std::fs::read(file.with_extension("rust.pcm")).expect("the recorded PCM") == decoded(&file), "the recorded PCM is the Rust's");
    }
    list.bytes
}
