//! Lists of calls. Each kind of scene (a few calls that belong together) takes its turn, so that a short list has some of every kind.
//! Some kinds walk through a fixed list of items, a few a turn; the others draw at random and never end. The Rust codec runs along, so
//! that later calls can use what earlier ones gave.
use crate::boundaries::{BLOCKS, Boundary, FACTORS};
use crate::protocol::{ALLOCATIONS, CALLS, Codec, ERRORS, LONGEST, MODES, Request};
use crate::ties;
use nanoaudio_core::codec::Encoder;
use nanoaudio_sbc::{SbcAllocation, SbcChannelMode, SbcEncoder, SbcParameters, exports};

const RATES: [u32; 4] = [16_000, 32_000, 44_100, 48_000];
const LEAST: SbcParameters = SbcParameters {
    sample_rate: 16_000,
    channel_mode: SbcChannelMode::Mono,
    allocation: SbcAllocation::Snr,
    blocks: 4,
    subbands: 4,
    bitpool: 2,
};
const GREATEST: SbcParameters =
    SbcParameters { channel_mode: SbcChannelMode::DualChannel, blocks: 16, subbands: 8, bitpool: 128, ..LEAST };

/// The sets whose buffer lengths and frame bits are tried one by one.
const CLOSELY: [SbcParameters; 6] = [
    SbcParameters::HIGH_QUALITY,
    SbcParameters::MSBC,
    LEAST,
    GREATEST,
    SbcParameters { channel_mode: SbcChannelMode::JointStereo, bitpool: 19, blocks: 12, ..LEAST },
    SbcParameters { channel_mode: SbcChannelMode::Stereo, bitpool: 35, blocks: 8, subbands: 8, sample_rate: 48_000, ..LEAST },
];

/// Numbers that look random, the same for the same seed.
pub struct Draw(pub u64);

impl Draw {
    fn next(&mut self) -> u64 {
        self.0 = self.0.wrapping_add(0x9E37_79B9_7F4A_7C15);
        let a = (self.0 ^ self.0 >> 30).wrapping_mul(0xBF58_476D_1CE4_E5B9);
        let b = (a ^ a >> 27).wrapping_mul(0x94D0_49BB_1331_11EB);
        b ^ b >> 31
    }

    pub fn below(&mut self, limit: usize) -> usize {
        (self.next() >> 16) as usize % limit
    }

    fn one_in(&mut self, count: usize) -> bool {
        self.below(count) == 0
    }

    pub fn of<T: Copy>(&mut self, values: &[T]) -> T {
        values[self.below(values.len())]
    }

    fn bytes(&mut self, count: usize) -> Vec<u8> {
        let mut bytes: Vec<u8> = (0..count.div_ceil(8)).flat_map(|_| self.next().to_le_bytes()).collect();
        bytes.truncate(count);
        bytes
    }

    fn samples(&mut self, count: usize) -> Vec<i16> {
        self.bytes(2 * count).as_chunks().0.iter().map(|sample| i16::from_le_bytes(*sample)).collect()
    }

    /// Any accepted set.
    fn set(&mut self) -> SbcParameters {
        if self.one_in(12) {
            return SbcParameters::MSBC;
        }
        let set = SbcParameters {
            sample_rate: self.of(&RATES),
            channel_mode: self.of(&MODES),
            allocation: self.of(&ALLOCATIONS),
            blocks: self.of(&[4, 8, 12, 16]),
            subbands: self.of(&[4, 8]),
            bitpool: 0,
        };
        let most = most(&set);
        // Small ones more often than a draw of all would: they are what radios use, and they make short frames.
        let limit = if self.one_in(4) { most } else { most.min(64) };
        SbcParameters { bitpool: 2 + self.below(limit - 1) as u8, ..set }
    }

    /// A length at or near a whole number of units, most often one.
    fn edge(&mut self, unit: usize) -> usize {
        match self.below(8) {
            0 => self.below(4),
            1 => self.below(unit + 1),
            2..5 => unit,
            5 => unit + self.below(3) - 1,
            6 => 2 * unit + self.below(3) - 1,
            _ => (3 + self.below(3)) * unit + self.below(3) - 1,
        }
    }

    /// PCM of one of several kinds; two channels alternate.
    fn pcm(&mut self, count: usize, set: &SbcParameters) -> Vec<i16> {
        let channels = set.channels() as usize;
        let tone = |sample: usize, step: f64| ((sample / channels) as f64 * step).cos();
        let (step, size) = (self.below(1000) as f64 * 0.00314, (1 << self.below(16)) as f64 - 1.0);
        let loudest = (2 * self.below(set.subbands as usize) + 1) as f64 * std::f64::consts::PI / (2 * set.subbands) as f64;
        match self.below(12) {
            0 => vec![0; count],
            1 => vec![i16::MAX; count],
            2 => vec![i16::MIN; count],
            3 => (0..count).map(|i| if i / channels % 2 == 0 { i16::MAX } else { i16::MIN }).collect(),
            4 => (0..count).map(|_| if self.one_in(40) { self.of(&[i16::MAX, i16::MIN, 1, -1]) } else { 0 }).collect(),
            5 => self.samples(count),
            // Faint, where a unit more or less changes a scale factor most often.
            6 => {
                let shift = 11 + self.below(4);
                self.samples(count).iter().map(|sample| sample >> shift).collect()
            }
            7 => (0..count).map(|i| (tone(i, step) * size) as i16).collect(),
            8 => (0..count).map(|i| if i % channels == 0 { (tone(i, step) * size) as i16 } else { 0 }).collect(),
            9 => (0..count).map(|i| (tone(i, step) * if i % 2 == 0 { size } else { -size }) as i16).collect(),
            10 => (0..count).map(|i| (tone(i, step) * 16_000.0) as i16 + self.below(200) as i16).collect(),
            // The middle of a subband, as loud as can be.
            _ => (0..count).map(|i| if tone(i, loudest) >= 0.0 { i16::MAX } else { i16::MIN }).collect(),
        }
    }

    /// Good frames of one encoder.
    fn stream(&mut self, set: &SbcParameters, frames: usize) -> Vec<u8> {
        let mut stream = vec![0; frames * set.frame_length()];
        let pcm = self.pcm(frames * set.frame_samples(), set);
        SbcEncoder::new(*set).unwrap().encode(&pcm, &mut stream).unwrap();
        stream
    }

    /// A frame that no encoder need have written: any factors, join flags and audio bits, and its checksum right.
    fn frame(&mut self, set: &SbcParameters) -> Vec<u8> {
        let length = set.frame_length();
        let mut frame = match self.below(4) {
            0 => vec![0; length],
            1 => vec![0xFF; length],
            _ => self.bytes(length),
        };
        let side = self.bytes(exports::side(set).div_ceil(8));
        match self.below(4) {
            0 => frame[4..4 + side.len()].copy_from_slice(&side),
            1 => frame[4..4 + side.len()].fill(0xFF),
            2 => frame[4..4 + side.len()].iter_mut().zip(&side).for_each(|(byte, other)| *byte = other & 0x33),
            _ => (),
        }
        frame[..3].copy_from_slice(&exports::header_bytes(set));
        seal(&mut frame);
        frame
    }
}

/// The greatest bitpool of a set that its byte can hold.
fn most(set: &SbcParameters) -> usize {
    set.maximum_bitpool().min(255)
}

/// Puts the checksum right, for the parameters that the bytes now name; nothing where they name none or the frame is short.
pub fn seal(frame: &mut [u8]) {
    if let Some(set) = SbcParameters::parse(frame).ok().filter(|set| set.frame_length() <= frame.len()) {
        frame[3] = exports::frame_checksum(frame, exports::side(&set));
    }
}

/// Sets, accepted and not: every combination with several bitpools, then sets with one field that is out of range.
fn sets() -> Vec<SbcParameters> {
    let mut sets = vec![SbcParameters::MSBC, SbcParameters::HIGH_QUALITY];
    for bits in 0..=255u8 {
        let base = SbcParameters {
            sample_rate: RATES[bits as usize >> 6],
            channel_mode: MODES[bits as usize >> 2 & 3],
            allocation: ALLOCATIONS[bits as usize >> 1 & 1],
            blocks: 4 * ((bits >> 4 & 3) + 1),
            subbands: 4 * ((bits & 1) + 1),
            bitpool: 0,
        };
        let most = most(&base);
        let mut bitpools = vec![0, 1, 2, 3, 16, 26, most / 2 + bits as usize % 7, most - 1, most, most + 1, 129, 255];
        bitpools.sort();
        bitpools.dedup();
        sets.extend(bitpools.iter().filter(|bitpool| **bitpool < 256).map(|bitpool| SbcParameters { bitpool: *bitpool as u8, ..base }));
    }
    for base in [SbcParameters::MSBC, SbcParameters::HIGH_QUALITY, LEAST] {
        sets.extend((0..=255).map(|blocks| SbcParameters { blocks, ..base }));
        sets.extend((0..=255).map(|subbands| SbcParameters { subbands, ..base }));
        sets.extend((0..=255).map(|bitpool| SbcParameters { bitpool, ..base }));
        for rate in [0, 1, 8_000, 15_999, 16_001, 22_050, 31_999, 32_001, 44_099, 44_101, 47_999, 48_001, 65_536 + 16_000, u32::MAX] {
            sets.push(SbcParameters { sample_rate: rate, ..base });
        }
        for (sample_rate, channel_mode) in RATES.into_iter().flat_map(|rate| MODES.map(|mode| (rate, mode))) {
            sets.extend(ALLOCATIONS.map(|allocation| SbcParameters { blocks: 15, sample_rate, channel_mode, allocation, ..base }));
        }
    }
    sets
}

/// Inputs of parse: all of 1 byte, all first bytes with 2 and 3, all settings with several bitpools, and longer ones.
fn headers(draw: &mut Draw) -> Vec<Vec<u8>> {
    let mut headers = vec![vec![]];
    for first in 0..=255 {
        headers.push(vec![first]);
        headers.push(vec![first, draw.next() as u8]);
        headers.push(vec![first, 0xBD, 0x35]);
        headers.push([&[first], &draw.bytes(1 + first as usize % 9)[..]].concat());
    }
    for settings in 0..=255 {
        for sync in [0x9C, 0xAD] {
            headers.push(vec![sync, settings]);
            for bitpool in [0, 1, 2, 63, 64, 65, 127, 128, 129, 254, 255, draw.next() as u8] {
                headers.push(vec![sync, settings, bitpool]);
            }
        }
    }
    headers
}

/// Lengths around one, two and three units.
fn around(unit: usize) -> Vec<usize> {
    let mut lengths = vec![0, 1, 2, 3, 4, unit - 1, unit, unit + 1, 2 * unit - 1, 2 * unit, 2 * unit + 1, 3 * unit];
    lengths.sort();
    lengths.dedup();
    lengths
}

/// Sets of `CLOSELY` with every pair of lengths around their frames: bytes, samples.
fn lengths() -> Vec<(SbcParameters, usize, usize)> {
    let pairs = |set: SbcParameters| {
        let samples = around(set.frame_samples());
        around(set.frame_length()).into_iter().flat_map(move |bytes| samples.clone().into_iter().map(move |count| (set, bytes, count)))
    };
    CLOSELY.into_iter().flat_map(pairs).collect()
}

/// Sets of `CLOSELY` with each bit of their header and side, of two bytes behind and of the last.
fn frame_bits() -> Vec<(SbcParameters, usize)> {
    let bits = |set: SbcParameters| {
        let (near, all) = (8 * (4 + exports::side(&set).div_ceil(8) + 2), 8 * set.frame_length());
        (0..all).filter(move |bit| *bit < near || *bit >= all - 8).map(move |bit| (set, bit))
    };
    CLOSELY.into_iter().flat_map(bits).collect()
}

/// For each subband every two boundaries, of the left and the right channel, in joint stereo and in another mode: with two, the halved sum
/// or the halved difference of joint stereo stands at a boundary too.
fn boundaries() -> Vec<(Boundary, Boundary, bool)> {
    let boundaries = |subbands: usize, subband: usize| {
        let kinds = [(false, false), (false, true), (true, false), (true, true)];
        kinds.map(|(negative, below)| Boundary { subbands, subband, negative, below })
    };
    let mut pairs = Vec::new();
    for (subbands, subband) in (0..4).map(|subband| (4, subband)).chain((0..8).map(|subband| (8, subband))) {
        for left in boundaries(subbands, subband) {
            pairs.extend(boundaries(subbands, subband).iter().flat_map(|right| [(left, *right, false), (left, *right, true)]));
        }
    }
    pairs
}

/// A fixed list, walked through in large steps so that a few of its items are unlike each other.
struct Walk<T>(Vec<T>, usize);

impl<T: Clone> Walk<T> {
    fn next(&mut self, count: usize) -> Vec<T> {
        let from = self.1;
        self.1 = (from + count).min(self.0.len());
        (from..self.1).map(|place| self.0[place * 7919 % self.0.len()].clone()).collect()
    }

    fn done(&self) -> bool {
        self.1 == self.0.len()
    }
}

struct Generator {
    draw: Draw,
    codec: Codec,
    list: Vec<u8>,
    calls: usize,
    limit: usize,
    /// How often each call got each error.
    answers: [[usize; 6]; 11],
    /// The boundaries of scale factors that were asked for, and those that the frames have.
    boundaries: [usize; 2],
}

impl Generator {
    fn call(&mut self, request: Request) -> Vec<u8> {
        let bytes = request.bytes();
        let answer = self.codec.answer(request);
        if self.calls < self.limit {
            let kind = CALLS.iter().position(|call| call.0 == bytes[0]).unwrap();
            self.answers[kind][answer[0] as usize] += 1;
            self.list.extend(bytes);
            self.calls += 1;
        }
        answer
    }

    /// Encodes into an output that holds anything, and gives what was written.
    fn encode(&mut self, pcm: &[i16], bytes: usize) -> Vec<u8> {
        let output = self.draw.bytes(bytes);
        let answer = self.call(Request::Encode(pcm.to_vec(), output));
        let produced = u64::from_le_bytes(answer[9..17].try_into().unwrap());
        answer[17..][..produced as usize].to_vec()
    }

    /// Decodes into an output that holds anything, and gives the error and the bytes taken.
    fn decode(&mut self, input: &[u8], samples: usize) -> (u8, usize) {
        let output = self.draw.samples(samples);
        let answer = self.call(Request::Decode(input.to_vec(), output));
        (answer[0], u64::from_le_bytes(answer[1..9].try_into().unwrap()) as usize)
    }

    /// Sometimes makes one of the calls that take no buffer.
    fn aside(&mut self) {
        match self.draw.below(24) {
            0..4 => drop(self.call(Request::Parameters)),
            4 => drop(self.call(Request::Finish)),
            5..7 => drop(self.call(Request::ResetDecoder)),
            7 => drop(self.call(Request::ResetEncoder)),
            _ => (),
        }
    }

    /// Decodes a stream piece by piece, as a caller does; after a refusal of what stands there, goes on a byte or a frame later.
    fn feed(&mut self, stream: &[u8], set: &SbcParameters, calls: usize) {
        let mut at = 0;
        for _ in 0..calls {
            let left = stream.len() - at;
            let piece = if self.draw.one_in(3) { left } else { self.draw.edge(set.frame_length()).min(left) };
            let room = self.draw.edge(set.frame_samples());
            let (error, consumed) = self.decode(&stream[at..at + piece], room);
            at += consumed;
            if error == 2 || error == 4 {
                at += self.draw.of(&[1, set.frame_length()]);
            }
            if at >= stream.len() {
                return;
            }
            self.aside();
        }
    }

    /// A set is judged; if it is good, it allocates, and a frame of it is encoded and decoded; if not, the old encoder goes on.
    fn one_set(&mut self, set: SbcParameters) {
        self.call(Request::Validate(set));
        if self.draw.one_in(3) {
            self.allocate(set);
        }
        self.call(Request::New(set));
        if set.validate().is_ok() || self.draw.one_in(6) {
            let set = self.codec.encoder.parameters();
            let pcm = self.draw.pcm(set.frame_samples(), &set);
            let frame = self.encode(&pcm, set.frame_length());
            self.decode(&frame, set.frame_samples());
        }
    }

    fn allocate(&mut self, set: SbcParameters) {
        let limit = self.draw.of(&[1, 2, 4, 16, 16, 16, 16, 256]);
        let mut factors = [[0; 8]; 2];
        factors.as_flattened_mut().iter_mut().for_each(|factor| *factor = self.draw.below(limit) as u8);
        match self.draw.below(8) {
            0 => factors[self.draw.below(2)] = [15; 8],
            1 => factors[self.draw.below(2)] = [0; 8],
            2 => factors[self.draw.below(2)][self.draw.below(8)] = 15,
            _ => (),
        }
        self.call(Request::Allocate(set, factors));
    }

    fn some_allocations(&mut self) {
        for _ in 0..8 {
            let set = self.draw.set();
            let bitpool = self.draw.of(&[set.bitpool, set.bitpool, 2, most(&set) as u8]);
            let blocks = self.draw.of(&[4, 16]);
            self.allocate(SbcParameters { bitpool, blocks, ..set });
        }
    }

    /// One pair of lengths, encoded and decoded, with finishing off and on.
    fn one_pair(&mut self, set: SbcParameters, bytes: usize, samples: usize) {
        self.call(Request::New(set));
        let pcm = self.draw.pcm(samples, &set);
        self.encode(&pcm, bytes);
        let stream = self.draw.stream(&set, 3);
        self.call(Request::ResetDecoder);
        self.decode(&stream[..bytes.min(stream.len())], samples);
        self.call(Request::Finish);
        self.decode(&stream[..bytes.min(stream.len())], samples);
    }

    /// A frame with a bit turned, alone and between good ones, and then with its checksum put right, where it is still a frame.
    fn one_bit(&mut self, set: SbcParameters, bit: usize) {
        let good = self.draw.stream(&set, 1);
        let mut bad = good.clone();
        bad[bit / 8] ^= 0x80 >> (bit % 8);
        self.decode(&bad, set.frame_samples());
        self.decode(&[&good[..], &bad, &good].concat(), 3 * set.frame_samples());
        self.call(Request::Parameters);
        seal(&mut bad);
        self.decode(&bad, 256);
    }

    /// Frames whose subband is at a boundary of a scale factor in both channels, one for each factor.
    fn one_boundary(&mut self, left: Boundary, right: Boundary, joint: bool) {
        let mode = if joint { SbcChannelMode::JointStereo } else { self.draw.of(&[SbcChannelMode::DualChannel, SbcChannelMode::Stereo]) };
        let subbands = left.subbands as u8;
        let drawn = self.draw.set();
        let bitpool = drawn.bitpool.min(16 * subbands);
        let set = SbcParameters { channel_mode: mode, blocks: BLOCKS as u8, subbands, bitpool, ..drawn };
        let ((left, met_left), (right, met_right)) = (left.pcm(), right.pcm());
        self.boundaries[0] += 2 * FACTORS;
        self.boundaries[1] += met_left + met_right;
        self.call(Request::New(set));
        let pcm: Vec<i16> = left.iter().zip(&right).flat_map(|(left, right)| [*left, *right]).collect();
        self.encode(&pcm, FACTORS * set.frame_length());
    }

    fn some_encoding(&mut self) {
        let set = self.draw.set();
        self.call(Request::New(set));
        for _ in 0..2 + self.draw.below(3) {
            let (samples, bytes) = (self.draw.edge(set.frame_samples()), self.draw.edge(set.frame_length()));
            let pcm = self.draw.pcm(samples, &set);
            self.encode(&pcm, bytes);
            self.aside();
        }
    }

    fn some_stream(&mut self) {
        let set = self.draw.set();
        let frames = 1 + self.draw.below(6);
        let mut stream = self.draw.stream(&set, frames);
        stream.truncate(stream.len() - self.draw.of(&[0, 0, 0, 1, 3]));
        self.feed(&stream, &set, 6);
    }

    /// Frames of any content.
    fn some_frames(&mut self) {
        let set = self.draw.set();
        let stream = (0..1 + self.draw.below(8)).flat_map(|_| self.draw.frame(&set)).collect::<Vec<u8>>();
        self.feed(&stream, &set, 5);
    }

    /// One frame of a stream is damaged.
    fn some_damage(&mut self) {
        let kind = self.draw.below(9);
        let set = if kind == 0 { SbcParameters::MSBC } else { self.draw.set() };
        let (length, side) = (set.frame_length(), exports::side(&set));
        let mut stream = self.draw.stream(&set, 3);
        let at = self.draw.below(3) * length;
        let value = self.draw.next() as u8;
        let bit = 1 << self.draw.below(8);
        let frame = &mut stream[at..];
        match kind {
            0 => frame[1 + self.draw.below(2)] = value,
            1 => frame[0] = self.draw.of(&[0x9C, 0xAD, value]),
            2 => frame[1] ^= bit,
            3 => frame[2] = self.draw.of(&[0, 1, most(&set) as u8, (most(&set) + 1) as u8, value]),
            4 => frame[3] ^= bit,
            5 => frame[4 + self.draw.below(side) / 8] ^= bit,
            6 => frame[4 + side / 8..length].iter_mut().for_each(|byte| *byte ^= bit),
            7 => frame[length - 1] ^= bit,
            _ => drop(stream.drain(at..at + 1 + self.draw.below(length - 1))),
        }
        if kind != 4 && self.draw.one_in(2) {
            seal(&mut stream[at..]);
        }
        self.feed(&stream, &set, 5);
    }

    /// The parameters change from frame to frame, inside of a call or between two.
    fn some_changes(&mut self) {
        let first = self.draw.set();
        let mut stream = Vec::new();
        for _ in 0..2 + self.draw.below(5) {
            let mut set = self.draw.set();
            if self.draw.one_in(2) && first.blocks != 15 {
                // Only the mode, so that the histories stay; its bitpool fits all modes.
                set = SbcParameters { channel_mode: set.channel_mode, bitpool: first.bitpool.min(16 * first.subbands), ..first };
            }
            stream.extend(if self.draw.one_in(2) { self.draw.frame(&set) } else { self.draw.stream(&set, 1) });
        }
        let room = self.draw.of(&[256, 1024, 2048]);
        let (_, consumed) = self.decode(&stream, room);
        self.call(Request::Parameters);
        self.feed(&stream[consumed..], &first, 3);
    }

    fn position(&mut self, set: &SbcParameters) -> u64 {
        let samples = set.samples_per_channel() as u64;
        let near = self.draw.below(2 * samples as usize) as u64;
        match self.draw.below(10) {
            0 => self.draw.of(&[0, 1]),
            1..4 => self.draw.below(12 * samples as usize) as u64,
            4 => self.draw.below(12) as u64 * samples + self.draw.below(3) as u64,
            5 => self.draw.next() >> self.draw.below(64),
            6 => u64::MAX - self.draw.of(&[0, 1, near]),
            7 => (1 << 32) + near,
            // Around the last position whose byte offset is a u64, where there is one.
            _ => {
                let last = (u64::MAX / set.frame_length() as u64) as u128 * samples as u128 + 9 * set.subbands as u128;
                (last + 2 * samples as u128 - near as u128).min(u64::MAX as u128) as u64
            }
        }
    }

    fn some_seeks(&mut self) {
        let mut set = self.draw.set();
        if self.draw.one_in(2) && set.blocks != 15 {
            set.blocks = 4; // the skip then lasts for several frames
        }
        let mut stream = self.draw.stream(&set, 10);
        if self.draw.one_in(3) {
            // With nothing decoded yet: position 0 turns finishing off, any other is refused and leaves it on.
            self.call(Request::ResetDecoder);
            self.call(Request::Finish);
            let position = if self.draw.one_in(2) { 0 } else { self.position(&set) };
            self.call(Request::Seek(position));
            let short = self.draw.below(set.frame_length());
            self.decode(&stream[..short], set.frame_samples());
        }
        self.decode(&stream[..set.frame_length()], set.frame_samples());
        for _ in 0..2 + self.draw.below(3) {
            if self.draw.one_in(4) {
                self.call(Request::Finish);
            }
            let position = self.position(&set);
            let answer = self.call(Request::Seek(position));
            let offset = u64::from_le_bytes(answer[1..9].try_into().unwrap());
            let last = 9 * set.frame_length();
            let start = if offset <= last as u64 { offset as usize } else { self.draw.below(10) * set.frame_length() };
            match self.draw.below(6) {
                0 => {
                    // Other frames than those that the position was counted by.
                    let other = self.draw.set();
                    let frames = self.draw.stream(&other, 4);
                    self.feed(&frames, &other, 3);
                }
                1 => {
                    stream[start + 3] ^= 1;
                    self.feed(&stream[start..], &set, 3);
                    stream[start + 3] ^= 1;
                }
                _ => self.feed(&stream[start..], &set, 3),
            }
        }
    }

    /// Bytes that are no stream, most often with a good first byte.
    fn some_garbage(&mut self) {
        for _ in 0..4 {
            let length = self.draw.of(&[1, 2, 3, 4, 7, 20, 60, 130]);
            let mut input = self.draw.bytes(length);
            input[0] = self.draw.of(&[0x9C, 0x9C, 0x9C, 0xAD, input[0]]);
            if length > 2 && self.draw.one_in(2) {
                input[2] = 2 + input[2] % 8; // so that the frame fits
            }
            if self.draw.one_in(3) {
                seal(&mut input);
            }
            if self.draw.one_in(4) {
                self.call(Request::Finish);
            }
            let room = self.draw.of(&[0, 15, 16, 32, 64, 128, 256]);
            self.decode(&input, room);
            self.aside();
        }
    }

    /// Sound that is a half before it is rounded.
    fn one_tie(&mut self) {
        let subbands = self.draw.of(&[4, 8]);
        let (stream, samples) = ties::stream(subbands, &mut self.draw);
        self.call(Request::ResetDecoder);
        self.decode(&stream, samples);
    }

    /// Buffers of the greatest length that a record may have.
    fn large(&mut self) {
        let set = self.draw.set();
        self.call(Request::New(set));
        let pcm = self.draw.pcm(LONGEST, &set);
        let mut stream = self.encode(&pcm, LONGEST);
        stream.resize(LONGEST, 0x9C);
        self.decode(&stream, LONGEST);
        self.call(Request::Parse(stream[1..].to_vec()));
        self.call(Request::Parameters);
    }
}

/// A list of `limit` calls, and on standard error what is in it.
pub fn generate(seed: u64, limit: usize) -> Vec<u8> {
    let draw = Draw(seed);
    let (codec, list) = (Codec::new(), Vec::new());
    let mut it = Generator { draw, codec, list, calls: 0, limit, answers: [[0; 6]; 11], boundaries: [0; 2] };
    let mut sets = Walk(sets(), 0);
    let mut headers = Walk(headers(&mut it.draw), 0);
    let mut lengths = Walk(lengths(), 0);
    let mut bits = Walk(frame_bits(), 0);
    let mut pairs = Walk(boundaries(), 0);
    for turn in 1.. {
        if it.calls == limit {
            break;
        }
        for header in headers.next(8) {
            it.call(Request::Parse(header));
        }
        sets.next(5).into_iter().for_each(|set| it.one_set(set));
        lengths.next(1).into_iter().for_each(|(set, bytes, samples)| it.one_pair(set, bytes, samples));
        bits.next(1).into_iter().for_each(|(set, bit)| it.one_bit(set, bit));
        pairs.next(1).into_iter().for_each(|(left, right, joint)| it.one_boundary(left, right, joint));
        it.some_encoding();
        it.some_encoding();
        it.some_stream();
        it.some_frames();
        it.some_damage();
        it.some_changes();
        it.some_seeks();
        it.some_allocations();
        it.some_garbage();
        it.one_tie();
        if turn % 100 == 0 {
            it.large();
        }
    }
    eprintln!("{:14}{}", "answers", ERRORS.map(|error| format!("{error:>17}")).concat());
    for ((_, name), row) in CALLS.iter().zip(it.answers) {
        eprintln!("{name:14}{}", row.map(|count| format!("{count:>17}")).concat());
    }
    eprintln!("boundaries of scale factors: {} met of {}", it.boundaries[1], it.boundaries[0]);
    let done = headers.done() && sets.done() && lengths.done() && bits.done() && pairs.done();
    eprintln!("the fixed lists (headers, sets, lengths, bits, boundaries) are {}in it", if done { "" } else { "only partly " });
    it.list
}
