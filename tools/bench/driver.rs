//! The benchmark's driver: the same inputs through the oracle (rust) or the proved crates (rattle).
//!
//!     driver KERNEL rust|rattle N      runs the kernel N times and prints a digest of what it gave, the same for both; of whole calls also the
//!                                      nanoseconds, to standard error
use nanoaudio_core::codec::{Decoder, Encoder};
use nanoaudio_sbc::exports;
use nanoaudio_sbc::{SbcAllocation, SbcChannelMode, SbcDecoder, SbcEncoder, SbcParameters};
use nanoaudio_sbc_blocks::exports_of_blocks;
use std::time::Instant;

/// What the proved synthesis remembers, as C lays it out.
#[repr(C)]
struct Synthesis {
    values: [i32; 160],
    newest: usize,
}

unsafe extern "C" {
    fn rattle_checksum(frame: *const u8, length: usize, side_bits: usize) -> u8;
    fn rattle_quantize(sample: i32, scale_factor: u8, bits: u8) -> u32;
    fn rattle_reconstruct(quantized: u32, scale_factor: u8, bits: u8) -> i32;
    fn rattle_quantize_blocks(bits: *const [u8; 8], scale_factors: *const [u8; 8], samples: *const [i32; 128], output: *mut [u32; 128]);
    fn rattle_reconstruct_blocks(bits: *const [u8; 8], scale_factors: *const [u8; 8], quantized: *const [u32; 128], output: *mut [i32; 128]);
    fn rattle_synthesize(history: *mut Synthesis, input: *const [i32; 8], output: *mut [i16; 8], subbands: usize);
    fn rattle_analyze(history: *mut [i16; 80], input: *const [i16; 8], output: *mut [i32; 8], subbands: usize);
    fn rattle_decode(input: *const u8, input_length: usize, output: *mut i16, output_length: usize, progress: *mut [u64; 2]);
    fn rattle_encode(
        rate: u32,
        mode: u8,
        blocks: u8,
        subbands: u8,
        bitpool: u8,
        input: *const i16,
        input_length: usize,
        output: *mut u8,
        output_length: usize,
        progress: *mut [u64; 2],
    );
    fn rattle_scale_factor(maximum: u32) -> u8;
    fn rattle_allocate(rate: u32, mode: u8, allocation: u8, subbands: u8, bitpool: u8, left: *mut [u8; 8], right: *mut [u8; 8]);
}

/// Numbers that look random, the same in every run.
struct Draw(u64);

impl Draw {
    fn next(&mut self) -> u64 {
        self.0 ^= self.0 << 13;
        self.0 ^= self.0 >> 7;
        self.0 ^= self.0 << 17;
        self.0
    }
}

fn mix(digest: u64, value: u64) -> u64 {
    (digest ^ value).wrapping_mul(0x9E37_79B9_7F4A_7C15).rotate_left(23)
}

const MODES: [SbcChannelMode; 4] = [SbcChannelMode::Mono, SbcChannelMode::DualChannel, SbcChannelMode::Stereo, SbcChannelMode::JointStereo];
const RATES: [u32; 4] = [16_000, 32_000, 44_100, 48_000];

fn allocate(rattle: bool, n: u64, mode: u8, subbands: u8, bitpool: u8) -> u64 {
    let mut draw = Draw(1);
    let mut digest = 0;
    for _ in 0..n {
        let rate = RATES[(draw.next() % 4) as usize];
        let allocation = (draw.next() % 2) as u8;
        let (a, b) = (draw.next(), draw.next());
        let mut left = a.to_le_bytes().map(|x| x % 16);
        let mut right = b.to_le_bytes().map(|x| x % 16);
        if rattle {
            unsafe { rattle_allocate(rate, mode, allocation, subbands, bitpool, &mut left, &mut right) };
        } else {
            let parameters = SbcParameters {
                sample_rate: rate,
                channel_mode: MODES[mode as usize],
                allocation: if allocation == 0 { SbcAllocation::Loudness } else { SbcAllocation::Snr },
                blocks: 16,
                subbands,
                bitpool,
            };
            [left, right] = exports::allocation(&parameters, &[left, right]);
        }
        digest = mix(mix(digest, u64::from_le_bytes(left)), u64::from_le_bytes(right));
    }
    digest
}

fn checksum(rattle: bool, n: u64) -> u64 {
    let mut draw = Draw(2);
    let mut digest = 0;
    let mut frame = [0u8; 119];
    for _ in 0..n {
        for chunk in frame[..16].chunks_mut(8) {
            chunk.copy_from_slice(&draw.next().to_le_bytes());
        }
        let crc = if rattle {
            unsafe { rattle_checksum(frame.as_ptr(), frame.len(), 72) }
        } else {
            exports::frame_checksum(&frame, 72)
        };
        digest = mix(digest, crc as u64);
    }
    digest
}

/// Eight values a turn, each of a draw of its own.
fn values(seed: u64, n: u64, value: impl Fn(u64) -> u64) -> u64 {
    let mut draw = Draw(seed);
    (0..8 * n).fold(0, |digest, _| mix(digest, value(draw.next())))
}

/// A factor and a width.
fn coding(a: u64) -> (u8, u8) {
    ((a % 16) as u8, (a >> 8) as u8 % 16 + 1)
}

/// A sample within the limits of a factor, below 2^(factor + 13) and not below its negation: the encoder chooses the factor by the subband's
/// greatest sample, so that no other is drawn below factor 15.
fn sample(a: u64, factor: u8) -> i32 {
    ((a >> 16) as i32) >> (18 - factor)
}

fn quantize(rattle: bool, n: u64) -> u64 {
    values(3, n, |a| {
        let (factor, bits) = coding(a);
        let sample = sample(a, factor);
        (if rattle { unsafe { rattle_quantize(sample, factor, bits) } } else { exports::quantized(sample, factor, bits) }) as u64
    })
}

fn reconstruct(rattle: bool, n: u64) -> u64 {
    values(4, n, |a| {
        let (factor, bits) = coding(a);
        let quantized = (a >> 16) as u32 % (1 << bits);
        (if rattle { unsafe { rattle_reconstruct(quantized, factor, bits) } } else { exports::reconstructed(quantized, factor, bits) }) as u64
    })
}

/// The bits of 8 subbands, 0 for an eighth of them, and their scale factors.
fn codings(draw: &mut Draw) -> ([u8; 8], [u8; 8]) {
    let (a, b) = (draw.next(), draw.next());
    (a.to_le_bytes().map(|x| if x < 32 { 0 } else { x % 16 + 1 }), b.to_le_bytes().map(|x| x % 16))
}

/// 16 blocks of 8 subbands a turn.
fn quantize_blocks(rattle: bool, n: u64) -> u64 {
    let mut draw = Draw(8);
    let mut digest = 0;
    for _ in 0..n {
        let (bits, factors) = codings(&mut draw);
        let samples: [i32; 128] = std::array::from_fn(|i| sample(draw.next(), factors[i % 8]));
        let mut output = [0u32; 128];
        if rattle {
            unsafe { rattle_quantize_blocks(&bits, &factors, &samples, &mut output) };
        } else {
            exports_of_blocks::quantized_blocks(&bits, &factors, &samples, &mut output);
        }
        digest = output.iter().fold(digest, |digest, value| mix(digest, *value as u64));
    }
    digest
}

fn reconstruct_blocks(rattle: bool, n: u64) -> u64 {
    let mut draw = Draw(9);
    let mut digest = 0;
    for _ in 0..n {
        let (bits, factors) = codings(&mut draw);
        let quantized: [u32; 128] = std::array::from_fn(|i| (draw.next() >> 16) as u32 % (1 << bits[i % 8]));
        let mut output = [0i32; 128];
        if rattle {
            unsafe { rattle_reconstruct_blocks(&bits, &factors, &quantized, &mut output) };
        } else {
            exports_of_blocks::reconstructed_blocks(&bits, &factors, &quantized, &mut output);
        }
        digest = output.iter().fold(digest, |digest, value| mix(digest, *value as u32 as u64));
    }
    digest
}

fn scale_factor(rattle: bool, n: u64) -> u64 {
    values(5, n, |a| {
        let maximum = (a >> 33) as u32 >> (a % 20);
        (if rattle { unsafe { rattle_scale_factor(maximum) } } else { exports::factor(maximum as i32) }) as u64
    })
}

/// One block a turn, of a ring that all blocks share.
fn synthesize(rattle: bool, n: u64, subbands: usize) -> u64 {
    let mut draw = Draw(6);
    let mut digest = 0;
    let mut ring = exports::Ring::new();
    let mut history = Synthesis { values: [0; 160], newest: 0 };
    for _ in 0..n {
        let (a, b) = (draw.next(), draw.next());
        let input: [i32; 8] = std::array::from_fn(|i| ((if i < 4 { a >> (8 * i) } else { b >> (8 * i - 24) }) as i32) >> 5);
        let mut output = [0i16; 8];
        if rattle {
            unsafe { rattle_synthesize(&mut history, &input, &mut output, subbands) };
        } else {
            ring.synthesize(&input[..subbands], &mut output[..subbands]);
        }
        for pair in output.chunks_exact(4) {
            digest = mix(digest, pair.iter().fold(0, |sum, sample| sum << 16 | *sample as u16 as u64));
        }
    }
    digest
}

fn analyze(rattle: bool, n: u64, subbands: usize) -> u64 {
    let mut draw = Draw(7);
    let mut digest = 0;
    let mut history = [0i16; 80];
    for _ in 0..n {
        let (a, b) = (draw.next(), draw.next());
        let input: [i16; 8] = std::array::from_fn(|i| (if i < 4 { a >> (16 * i) } else { b >> (16 * i - 64) }) as i16);
        let mut output = [0i32; 8];
        if rattle {
            unsafe { rattle_analyze(&mut history, &input, &mut output, subbands) };
        } else {
            exports::analysis(&mut history, &input[..subbands], &mut output[..subbands]);
        }
        for pair in output.chunks_exact(2) {
            digest = mix(digest, (pair[0] as u32 as u64) << 32 | pair[1] as u32 as u64);
        }
    }
    digest
}

/// The Rust's calls, in functions whose names `run` counts.
mod exports_of_calls {
    use super::*;

    #[inline(never)]
    pub fn decode(input: &[u8], output: &mut [i16]) -> [u64; 2] {
        let progress = SbcDecoder::new().decode(input, output).unwrap();
        [progress.consumed as u64, progress.produced as u64]
    }

    #[inline(never)]
    pub fn encode(parameters: &SbcParameters, input: &[i16], output: &mut [u8]) -> [u64; 2] {
        let progress = SbcEncoder::new(*parameters).unwrap().encode(input, output).unwrap();
        [progress.consumed as u64, progress.produced as u64]
    }
}

const HIGH_QUALITY: SbcParameters = SbcParameters {
    sample_rate: 44_100,
    channel_mode: SbcChannelMode::JointStereo,
    allocation: SbcAllocation::Loudness,
    blocks: 16,
    subbands: 8,
    bitpool: 53,
};

const MSBC: SbcParameters =
    SbcParameters { sample_rate: 16_000, channel_mode: SbcChannelMode::Mono, allocation: SbcAllocation::Loudness, blocks: 15, subbands: 8, bitpool: 26 };

const DUAL: SbcParameters = SbcParameters { channel_mode: SbcChannelMode::DualChannel, bitpool: 40, ..HIGH_QUALITY };

const JOINT_4: SbcParameters = SbcParameters { subbands: 4, bitpool: 30, ..HIGH_QUALITY };

/// PCM that sounds like something: a few tones that come and go, alike in both channels and not the same, and noise.
fn pcm(parameters: &SbcParameters, frames: u64) -> Vec<i16> {
    let mut draw = Draw(8);
    let channels = parameters.channels() as u64;
    let samples = frames * parameters.blocks as u64 * parameters.subbands as u64;
    (0..samples * channels)
        .map(|i| {
            let t = (i / channels) as f64 / parameters.sample_rate as f64;
            let side = (i % channels) as f64;
            let tone = |hertz: f64, slow: f64| (t * hertz * 6.283).sin() * (0.5 + 0.5 * (t * slow * 6.283 + side).sin());
            let noise = (draw.next() % 512) as f64 - 256.0;
            ((tone(220.0, 1.0) * 9000.0 + tone(1760.0 + 40.0 * side, 2.5) * 4000.0 + tone(5200.0, 0.7) * 1500.0) + noise) as i16
        })
        .collect()
}

/// One call over a stream of n frames.
fn decode(rattle: bool, n: u64, parameters: &SbcParameters) -> u64 {
    let pcm = pcm(parameters, n);
    let mut stream = vec![0u8; n as usize * parameters.frame_length()];
    SbcEncoder::new(*parameters).unwrap().encode(&pcm, &mut stream).unwrap();
    let mut output = vec![0i16; pcm.len()];
    let mut progress = [0u64; 2];
    let start = Instant::now();
    if rattle {
        unsafe { rattle_decode(stream.as_ptr(), stream.len(), output.as_mut_ptr(), output.len(), &mut progress) };
    } else {
        progress = exports_of_calls::decode(&stream, &mut output);
    }
    eprintln!("{}", start.elapsed().as_nanos());
    assert_eq!(progress, [stream.len() as u64, output.len() as u64]);
    output.iter().fold(0, |digest, sample| mix(digest, *sample as u64))
}

/// One call over PCM of n frames.
fn encode(rattle: bool, n: u64, p: &SbcParameters) -> u64 {
    let pcm = pcm(p, n);
    let mut stream = vec![0xAAu8; n as usize * p.frame_length()];
    let mut progress = [0u64; 2];
    let start = Instant::now();
    if rattle {
        let mode = MODES.iter().position(|mode| *mode == p.channel_mode).unwrap() as u8;
        let (input, output) = ((pcm.as_ptr(), pcm.len()), (stream.as_mut_ptr(), stream.len()));
        unsafe { rattle_encode(p.sample_rate, mode, p.blocks, p.subbands, p.bitpool, input.0, input.1, output.0, output.1, &mut progress) };
    } else {
        progress = exports_of_calls::encode(p, &pcm, &mut stream);
    }
    eprintln!("{}", start.elapsed().as_nanos());
    assert_eq!(progress, [pcm.len() as u64, stream.len() as u64]);
    stream.iter().fold(0, |digest, byte| mix(digest, *byte as u64))
}

fn main() {
    let words: Vec<String> = std::env::args().collect();
    let rattle = words[2] == "rattle";
    let n: u64 = words[3].parse().unwrap();
    let digest = match words[1].as_str() {
        "allocate_joint_8" => allocate(rattle, n, 3, 8, 53),
        "allocate_dual_8" => allocate(rattle, n, 1, 8, 40),
        "allocate_mono_8" => allocate(rattle, n, 0, 8, 26),
        "allocate_joint_4" => allocate(rattle, n, 3, 4, 30),
        "synthesize_8" => synthesize(rattle, n, 8),
        "synthesize_4" => synthesize(rattle, n, 4),
        "analyze_8" => analyze(rattle, n, 8),
        "analyze_4" => analyze(rattle, n, 4),
        "quantize_8_values" => quantize(rattle, n),
        "reconstruct_8_values" => reconstruct(rattle, n),
        "quantize_16_blocks" => quantize_blocks(rattle, n),
        "reconstruct_16_blocks" => reconstruct_blocks(rattle, n),
        "scale_factor_8_values" => scale_factor(rattle, n),
        "checksum" => checksum(rattle, n),
        "decode_high_quality" => decode(rattle, n, &HIGH_QUALITY),
        "decode_msbc" => decode(rattle, n, &MSBC),
        "decode_dual_8" => decode(rattle, n, &DUAL),
        "decode_joint_4" => decode(rattle, n, &JOINT_4),
        "encode_high_quality" => encode(rattle, n, &HIGH_QUALITY),
        "encode_msbc" => encode(rattle, n, &MSBC),
        "encode_dual_8" => encode(rattle, n, &DUAL),
        "encode_joint_4" => encode(rattle, n, &JOINT_4),
        other => panic!("no kernel {other}"),
    };
    println!("{digest:016x}");
}
