//! Streams with sound that is a half exactly, before it is rounded. The synthesis divides a sum by 2^h, and the sums of other streams
//! hardly ever leave a half. Only a half shows how it is rounded, and it always shows that a reconstructed value is one too small.
//!
//! In the middle of a block of S samples the sum is easy to choose. There the ring's even blocks have 0 and its odd blocks minus u, the sum
//! of the block's subband samples, so the sound is the sum of P[bS + S/2] x u over the odd b, divided by 2^h. Block b = 7 is the last of a
//! frame with a subband of one bit; b = 5 and b = 3 are in the next frame, of 16 bits a subband, and make a half; the others are silent.
use crate::generate::{Draw, seal};
use nanoaudio_sbc::{SbcAllocation, SbcChannelMode, SbcParameters, exports};

const BLOCKS: usize = 16;

/// The quantized value of 0, where all have 16 bits.
const SILENT: i32 = 32_767;

/// The greatest sum of a block's samples in the second frame: with such ones the sound is not clamped.
const GREATEST: i64 = 1 << 24;

/// How many sums are tried; one in 4,096 is good for 8 subbands, and one in 8,192 for 4.
const TRIES: usize = 1 << 20;

/// The sums of blocks 5 and 3 whose sound is a half, for that of block 7; 0 and 0 where there are none, which is not so of the prototypes.
fn sums(subbands: usize, seventh: i64, draw: &mut Draw) -> (i64, i64) {
    let half = if subbands == 4 { 1 << 37 } else { 1 << 36 };
    let weight = |block: usize| exports::prototype(subbands)[block * subbands + subbands / 2] as i64;
    // What weight(5), an odd number, is to be multiplied by to give 1, from the last bit up.
    let inverse = (0..6).fold(1i64, |inverse, _| inverse.wrapping_mul(2i64.wrapping_sub(weight(5).wrapping_mul(inverse))));
    let pair = |_| {
        let third = draw.below(2 * GREATEST as usize) as i64 - GREATEST;
        let fifth = (half - weight(7) * seventh - weight(3) * third).wrapping_mul(inverse).rem_euclid(2 * half);
        let fifth = if fifth < half { fifth } else { fifth - 2 * half };
        (fifth.abs() < GREATEST).then_some((fifth, third))
    };
    (0..TRIES).find_map(pair).unwrap_or_default()
}

/// The quantized values of subbands 0 and 1, of the factors 15 and 4, for a sum: the first comes near, and the second has a step of 1.
fn quantized(sum: i64) -> [i32; 2] {
    let first = SILENT + (sum * 65_535 >> 27) as i32;
    let rest = sum as i32 - exports::reconstructed(first as u32, 15, 16);
    [first, SILENT + rest]
}

fn set(subbands: usize, bitpool: usize) -> SbcParameters {
    SbcParameters {
        sample_rate: 48_000,
        channel_mode: SbcChannelMode::Mono,
        allocation: SbcAllocation::Snr,
        blocks: BLOCKS as u8,
        subbands: subbands as u8,
        bitpool: bitpool as u8,
    }
}

/// A frame with these first factors, the others 0, and this audio.
fn frame(set: &SbcParameters, factors: [u8; 2], audio: &[u8]) -> Vec<u8> {
    let mut frame = vec![0; 4 + set.subbands as usize / 2];
    frame[..3].copy_from_slice(&exports::header_bytes(set));
    frame[4..6].copy_from_slice(&factors);
    frame.extend(audio);
    seal(&mut frame);
    frame
}

/// Two frames for a decoder that was reset, with one sample that is a half off a whole number, and the samples of both.
pub fn stream(subbands: usize, draw: &mut Draw) -> (Vec<u8>, usize) {
    // The factors f, 15 and 15 share 3 bits as 1, 2 and 0. A block of 001 is silent, and 101 gives the first subband 2^(f+12).
    let (factor, few) = (draw.below(15), set(subbands, 3));
    let bits = format!("{}101", "001".repeat(BLOCKS - 1));
    let first: Vec<u8> = (0..6).map(|byte| u8::from_str_radix(&bits[8 * byte..][..8], 2).unwrap()).collect();
    let many = set(subbands, 16 * subbands);
    let (fifth, third) = sums(subbands, 1 << (factor + 12), draw);
    let mut values = vec![SILENT; BLOCKS * subbands];
    values[subbands..][..2].copy_from_slice(&quantized(fifth));
    values[3 * subbands..][..2].copy_from_slice(&quantized(third));
    let second: Vec<u8> = values.iter().flat_map(|value| (*value as u16).to_be_bytes()).collect();
    let frames = [frame(&few, [(factor << 4) as u8 | 15, 0xF0], &first), frame(&many, [0xF4, 0], &second)];
    (frames.concat(), 2 * many.frame_samples())
}
