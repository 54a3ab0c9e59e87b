//! PCM at the boundaries of the scale factors. A subband's factor goes from f to f + 1 where its greatest absolute value over a frame is
//! 2^(f+13). Other PCM hardly ever has exactly that number or the one below, and only these show a `<` that is a `<=`, or a maximum that is
//! one off. Here they are searched for with the Rust's own analysis. For each f from 0 to 14 and each subband, of 4 and of 8, both numbers
//! are found with either sign, so no boundary is left out; `generate` says how many were met.
use crate::generate::Draw;
use nanoaudio_sbc::exports;

/// The blocks of a frame: the ten that a value depends on, and two before them.
pub const BLOCKS: usize = 12;

/// The factors that have a boundary above them, 0 to 14.
pub const FACTORS: usize = 15;

/// How often a frame is searched for; 20 are enough for each.
const TRIES: usize = 200;

/// How often a sample is changed in one search; 700 are enough.
const CHANGES: usize = 5000;

/// The greatest value of a subband, for every factor: at the boundary, or one nearer to 0.
#[derive(Clone, Copy)]
pub struct Boundary {
    pub subbands: usize,
    pub subband: usize,
    pub negative: bool,
    pub below: bool,
}

impl Boundary {
    fn target(&self, factor: usize) -> i32 {
        let amount = (1 << (factor + 13)) - self.below as i32;
        if self.negative { -amount } else { amount }
    }

    /// The subband's value in the last of ten blocks.
    fn value(&self, blocks: &[i16]) -> i32 {
        let (older, newest) = blocks.split_at(9 * self.subbands);
        let (mut history, mut output) = ([0; 80], [0; 8]);
        history.iter_mut().zip(older.iter().rev()).for_each(|(place, sample)| *place = *sample);
        exports::analysis(&mut history, newest, &mut output[..self.subbands]);
        output[self.subband]
    }

    /// The subband's greatest absolute value in the last frame, where all begins with silence.
    fn maximum(&self, pcm: &[i16]) -> i32 {
        let mut history = [0; 80];
        let analyzed = pcm.chunks(self.subbands).map(|block| {
            let mut output = [0; 8];
            exports::analysis(&mut history, block, &mut output[..self.subbands]);
            output[self.subband].abs()
        });
        analyzed.skip(pcm.len() / self.subbands - BLOCKS).max().unwrap()
    }

    /// Ten blocks whose value is near the target: all samples are as loud, and each has the sign that counts.
    fn near(&self, target: i32) -> Vec<i16> {
        let weight = |place: usize| {
            let mut blocks = vec![0; 10 * self.subbands];
            blocks[place] = 1 << 14;
            self.value(&blocks) as f64 / (1 << 14) as f64
        };
        let weights: Vec<f64> = (0..10 * self.subbands).map(weight).collect();
        let loud = target as f64 / weights.iter().map(|weight| weight.abs()).sum::<f64>();
        weights.iter().map(|weight| (loud * weight.signum()) as i16).collect()
    }

    /// Makes the value of ten blocks the target: single samples go up or down by one, as long as it comes no less near.
    fn hit(&self, blocks: &mut [i16], target: i32, draw: &mut Draw) {
        let mut value = self.value(blocks);
        for _ in 0..CHANGES {
            if value == target {
                return;
            }
            let place = draw.below(blocks.len());
            let old = blocks[place];
            blocks[place] = old.saturating_add(draw.of(&[1, -1]));
            let new = self.value(blocks);
            if new.abs_diff(target) <= value.abs_diff(target) { value = new } else { blocks[place] = old }
        }
    }

    /// The samples of one channel: a frame for each factor, loudest last, and how many of them have the target as their greatest value.
    pub fn pcm(&self) -> (Vec<i16>, usize) {
        let (mut pcm, mut met) = (Vec::new(), 0);
        let mut draw = Draw(1);
        for factor in 0..FACTORS {
            let target = self.target(factor);
            let near = self.near(target);
            for turn in 1.. {
                let mut blocks = near.clone();
                self.hit(&mut blocks, target, &mut draw);
                pcm.resize((factor * BLOCKS + BLOCKS - 10) * self.subbands, 0);
                pcm.extend(blocks);
                let reached = self.maximum(&pcm) == target.abs();
                met += reached as usize;
                if reached || turn == TRIES {
                    break;
                }
            }
        }
        (pcm, met)
    }
}
