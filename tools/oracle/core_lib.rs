//! Stands in for nanoaudio-core's lib.rs, which docs/src does not hold: the module lines, and the types that the codec's files name.
//! Nothing here has codec behaviour (docs/DIFFERENCES.md, "The oracle").
#![no_std]

pub mod bits;
pub mod codec;
pub mod crc;

#[derive(Debug, Clone, Copy, PartialEq, Eq, Hash)]
pub enum Error {
    Incomplete,
    InvalidHeader,
    InvalidParameter,
    InvalidData,
    BufferTooSmall,
    SeekTo(u64),
}

pub type Result<T> = core::result::Result<T, Error>;

#[derive(Debug, Clone, Copy, PartialEq, Eq, Hash)]
pub enum Format {
    I16,
}

#[derive(Debug, Clone, Copy, PartialEq, Eq, Hash)]
pub struct Configuration {
    pub sample_rate: u32,
    pub channels: u8,
    pub format: Format,
}

impl Configuration {
    pub const fn new(sample_rate: u32, channels: u8, format: Format) -> Self {
        Self { sample_rate, channels, format }
    }
}

/// PCM samples: i16 only.
pub trait Sample: Copy {
    fn from_i16(sample: i16) -> Self;

    fn convert<S: Sample>(self) -> S;
}

impl Sample for i16 {
    fn from_i16(sample: i16) -> Self {
        sample
    }

    fn convert<S: Sample>(self) -> S {
        S::from_i16(self)
    }
}
