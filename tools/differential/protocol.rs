//! A call as a replay program reads it, how it is answered, and the Rust codec that answers it. All numbers are little endian.
//!
//! An answer is an error byte, 0 for none, then the results; they are zeros on a refusal, and buffers come back as the call left them.
use crate::watch::answered;
use nanoaudio_core::codec::{Decoder, Encoder, Progress, Seek};
use nanoaudio_core::{Error, Result};
use nanoaudio_sbc::{SbcAllocation, SbcChannelMode, SbcDecoder, SbcEncoder, SbcParameters, exports};
use std::fmt;

/// The longest buffer of a call, in bytes or samples. A longer one ends the replay, as a record that is cut short does.
pub const LONGEST: usize = 65_536;

pub const MODES: [SbcChannelMode; 4] =
    [SbcChannelMode::Mono, SbcChannelMode::DualChannel, SbcChannelMode::Stereo, SbcChannelMode::JointStereo];
pub const ALLOCATIONS: [SbcAllocation; 2] = [SbcAllocation::Loudness, SbcAllocation::Snr];
pub const ERRORS: [&str; 6] = ["none", "Incomplete", "InvalidHeader", "InvalidParameter", "InvalidData", "BufferTooSmall"];

/// The first byte of each request, with the call's name.
pub const CALLS: [(u8, &str); 11] = [
    (b'P', "parse"),
    (b'V', "validate"),
    (b'N', "new encoder"),
    (b'E', "encode"),
    (b'D', "decode"),
    (b'S', "seek"),
    (b'F', "finish"),
    (b'R', "reset decoder"),
    (b'r', "reset encoder"),
    (b'Q', "parameters"),
    (b'A', "allocate"),
];

pub enum Request {
    Parse(Vec<u8>),
    Validate(SbcParameters),
    New(SbcParameters),
    Encode(Vec<i16>, Vec<u8>),
    Decode(Vec<u8>, Vec<i16>),
    Seek(u64),
    Finish,
    ResetDecoder,
    ResetEncoder,
    Parameters,
    Allocate(SbcParameters, [[u8; 8]; 2]),
}

/// Takes bytes off the front of a list; `None` where it is too short.
pub struct Reader<'a>(pub &'a [u8]);

impl<'a> Reader<'a> {
    fn bytes(&mut self, count: usize) -> Option<&'a [u8]> {
        let (bytes, rest) = self.0.split_at_checked(count)?;
        self.0 = rest;
        Some(bytes)
    }

    fn array<const N: usize>(&mut self) -> Option<[u8; N]> {
        Some(self.bytes(N)?.try_into().unwrap())
    }

    fn length(&mut self) -> Option<usize> {
        Some(u32::from_le_bytes(self.array()?) as usize).filter(|length| *length <= LONGEST)
    }

    fn samples(&mut self, count: usize) -> Option<Vec<i16>> {
        Some(samples(self.bytes(2 * count)?))
    }

    fn set(&mut self) -> Option<SbcParameters> {
        let sample_rate = u32::from_le_bytes(self.array()?);
        let [mode, allocation, blocks, subbands, bitpool] = self.array()?;
        let (channel_mode, allocation) = (*MODES.get(mode as usize)?, *ALLOCATIONS.get(allocation as usize)?);
        Some(SbcParameters { sample_rate, channel_mode, allocation, blocks, subbands, bitpool })
    }

    pub fn request(&mut self) -> Option<Request> {
        Some(match self.array()? {
            [b'P'] => {
                let length = u16::from_le_bytes(self.array()?);
                Request::Parse(self.bytes(length as usize)?.to_vec())
            }
            [b'V'] => Request::Validate(self.set()?),
            [b'N'] => Request::New(self.set()?),
            [b'E'] => {
                let (input, output) = (self.length()?, self.length()?);
                Request::Encode(self.samples(input)?, self.bytes(output)?.to_vec())
            }
            [b'D'] => {
                let (input, output) = (self.length()?, self.length()?);
                Request::Decode(self.bytes(input)?.to_vec(), self.samples(output)?)
            }
            [b'S'] => Request::Seek(u64::from_le_bytes(self.array()?)),
            [b'F'] => Request::Finish,
            [b'R'] => Request::ResetDecoder,
            [b'r'] => Request::ResetEncoder,
            [b'Q'] => Request::Parameters,
            [b'A'] => Request::Allocate(self.set()?, [self.array()?, self.array()?]),
            _ => return None,
        })
    }
}

fn samples(bytes: &[u8]) -> Vec<i16> {
    bytes.as_chunks().0.iter().map(|sample| i16::from_le_bytes(*sample)).collect()
}

fn sample_bytes(samples: &[i16]) -> Vec<u8> {
    samples.iter().flat_map(|sample| sample.to_le_bytes()).collect()
}

/// The nine bytes of a set.
fn set_bytes(set: &SbcParameters) -> [u8; 9] {
    let [a, b, c, d] = set.sample_rate.to_le_bytes();
    [a, b, c, d, set.channel_mode as u8, set.allocation as u8, set.blocks, set.subbands, set.bitpool]
}

impl Request {
    pub fn bytes(&self) -> Vec<u8> {
        let lengths = |input: usize, output: usize| [(input as u32).to_le_bytes(), (output as u32).to_le_bytes()].concat();
        match self {
            Request::Parse(input) => [b"P", &(input.len() as u16).to_le_bytes()[..], input].concat(),
            Request::Validate(set) => [b"V", &set_bytes(set)[..]].concat(),
            Request::New(set) => [b"N", &set_bytes(set)[..]].concat(),
            Request::Encode(input, output) => [b"E", &lengths(input.len(), output.len())[..], &sample_bytes(input), output].concat(),
            Request::Decode(input, output) => [b"D", &lengths(input.len(), output.len())[..], input, &sample_bytes(output)].concat(),
            Request::Seek(position) => [b"S", &position.to_le_bytes()[..]].concat(),
            Request::Finish => b"F".to_vec(),
            Request::ResetDecoder => b"R".to_vec(),
            Request::ResetEncoder => b"r".to_vec(),
            Request::Parameters => b"Q".to_vec(),
            Request::Allocate(set, factors) => [b"A", &set_bytes(set)[..], factors.as_flattened()].concat(),
        }
    }

    pub fn answer_length(&self) -> usize {
        match self {
            Request::Validate(_) | Request::New(_) | Request::Finish | Request::ResetDecoder | Request::ResetEncoder => 1,
            Request::Parse(_) => 1 + 9,
            Request::Encode(_, output) => 1 + 16 + output.len(),
            Request::Decode(_, output) => 1 + 16 + 2 * output.len(),
            Request::Seek(_) => 1 + 12,
            Request::Parameters => 1 + 1 + 9,
            Request::Allocate(..) => 1 + 16,
        }
    }

    /// The answer's results in words: a line, then the buffer's numbers where there is one.
    pub fn describe(&self, answer: &[u8]) -> (String, Vec<i32>) {
        let Some((error, rest)) = answer.split_first().filter(|_| answer.len() == self.answer_length()) else {
            return (format!("{} bytes, not {}, and then the end", answer.len(), self.answer_length()), Vec::new());
        };
        let number = |from: usize| u64::from_le_bytes(rest[from..from + 8].try_into().unwrap());
        let wide = |bytes: &[u8]| bytes.iter().map(|byte| *byte as i32).collect();
        let set = |bytes: &[u8]| Reader(bytes).set().map_or(format!("{bytes:?}"), |set| words(&set));
        let (results, buffer) = match self {
            Request::Parse(_) => (set(rest), Vec::new()),
            Request::Parameters => (format!("{}, {}", rest[0], set(&rest[1..])), Vec::new()),
            Request::Seek(_) => (format!("offset {}, skip {}", number(0), u32::from_le_bytes(rest[8..].try_into().unwrap())), Vec::new()),
            Request::Encode(..) => (format!("consumed {}, produced {}", number(0), number(8)), wide(&rest[16..])),
            Request::Decode(..) => {
                let output = samples(&rest[16..]).iter().map(|sample| *sample as i32).collect();
                (format!("consumed {}, produced {}", number(0), number(8)), output)
            }
            Request::Allocate(..) => (String::new(), wide(rest)),
            _ => (String::new(), Vec::new()),
        };
        (format!("error {} {} {results}", error, ERRORS.get(*error as usize).unwrap_or(&"?")), buffer)
    }
}

pub fn words(set: &SbcParameters) -> String {
    let SbcParameters { sample_rate, channel_mode, allocation, blocks, subbands, bitpool } = set;
    format!("{sample_rate} Hz {channel_mode:?} {allocation:?} {blocks} blocks {subbands} subbands bitpool {bitpool}")
}

/// The first numbers of a buffer.
pub fn shown<T: fmt::Debug>(buffer: &[T]) -> String {
    let more = if buffer.len() > 24 { " and on" } else { "" };
    format!("{:?}{more}", &buffer[..buffer.len().min(24)])
}

impl fmt::Display for Request {
    fn fmt(&self, f: &mut fmt::Formatter) -> fmt::Result {
        let first = self.bytes()[0];
        write!(f, "{}", CALLS.iter().find(|call| call.0 == first).unwrap().1)?;
        match self {
            Request::Parse(input) => write!(f, " {} bytes {:02x?}", input.len(), &input[..input.len().min(8)]),
            Request::Validate(set) | Request::New(set) => write!(f, " {}", words(set)),
            Request::Encode(input, output) => {
                write!(f, " {} samples {}\n    into {} bytes {}", input.len(), shown(input), output.len(), shown(output))
            }
            Request::Decode(input, output) => {
                let hex = input.iter().take(64).map(|byte| format!("{byte:02x}")).collect::<String>();
                write!(f, " {} bytes {hex}\n    into {} samples {}", input.len(), output.len(), shown(output))
            }
            Request::Seek(position) => write!(f, " {position}"),
            Request::Allocate(set, factors) => write!(f, " {} factors {factors:?}", words(set)),
            _ => Ok(()),
        }
    }
}

/// The Rust codec.
pub struct Codec {
    pub encoder: SbcEncoder,
    pub decoder: SbcDecoder,
}

impl Codec {
    pub fn new() -> Self {
        Self { encoder: SbcEncoder::new(SbcParameters::HIGH_QUALITY).unwrap(), decoder: SbcDecoder::new() }
    }

    pub fn answer(&mut self, request: Request) -> Vec<u8> {
        let answer = self.answer_to(request);
        answered();
        answer
    }

    fn answer_to(&mut self, request: Request) -> Vec<u8> {
        let progress = |progress: Progress| [progress.consumed as u64, progress.produced as u64].map(u64::to_le_bytes).concat();
        match request {
            Request::Parse(input) => outcome(SbcParameters::parse(&input).map(|set| set_bytes(&set).to_vec()), 9),
            Request::Validate(set) => outcome(set.validate().map(|()| Vec::new()), 0),
            Request::New(set) => outcome(SbcEncoder::new(set).map(|encoder| self.encoder = encoder).map(|()| Vec::new()), 0),
            Request::Encode(input, mut output) => {
                let result = self.encoder.encode(&input, &mut output);
                [outcome(result.map(progress), 16), output].concat()
            }
            Request::Decode(input, mut output) => {
                let result = self.decoder.decode(&input, &mut output);
                [outcome(result.map(progress), 16), sample_bytes(&output)].concat()
            }
            Request::Seek(position) => outcome(
                self.decoder.seek(position).map(|at| [&at.byte_offset.to_le_bytes()[..], &at.skip_frames.to_le_bytes()].concat()),
                12,
            ),
            Request::Finish => outcome(Ok({ self.decoder.finish(); Vec::new() }), 0),
            Request::ResetDecoder => outcome(Ok({ self.decoder.reset(); Vec::new() }), 0),
            Request::ResetEncoder => outcome(Ok({ self.encoder.reset(); Vec::new() }), 0),
            Request::Parameters => match self.decoder.parameters() {
                Some(set) => [&[0, 1], &set_bytes(&set)[..]].concat(),
                None => vec![0; 11],
            },
            Request::Allocate(set, factors) => {
                outcome(set.validate().map(|()| exports::allocation(&set, &factors).as_flattened().to_vec()), 16)
            }
        }
    }
}

/// The error byte and the results, which are `length` zeros on a refusal.
fn outcome(result: Result<Vec<u8>>, length: usize) -> Vec<u8> {
    let (number, results) = match result {
        Ok(results) => (0, results),
        Err(error) => (number(error), vec![0; length]),
    };
    [vec![number], results].concat()
}

fn number(error: Error) -> u8 {
    match error {
        Error::Incomplete => 1,
        Error::InvalidHeader => 2,
        Error::InvalidParameter => 3,
        Error::InvalidData => 4,
        Error::BufferTooSmall => 5,
        Error::SeekTo(_) => unreachable!("the codec never returns it"),
    }
}
