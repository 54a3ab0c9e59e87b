// Appended to the oracle's lib.rs for a build of its own (tools/bench/run): the Rust's side of the kernels over 16 blocks of 8 subbands. Within
// the oracle itself it would change how rustc inlines the other kernels (synthesis of 8 subbands, 1512 instructions in place of 1071).
pub mod exports_of_blocks {
    use super::*;

    /// As the encoder quantizes them.
    #[inline(never)]

    pub fn quantized_blocks(bits: &[u8; 8], scale_factors: &[u8; 8], samples: &[i32; 128], output: &mut [u32; 128]) {
        for block in 0..16 {
            for subband in 0..8 {
                if bits[subband] == 0 {
                    continue;
                }

                output[8 * block + subband] = quantize(samples[8 * block + subband], scale_factors[subband], bits[subband]);
            }
        }
    }

    /// As the decoder reconstructs them: a `Dequantizer` is made once a subband.
    #[inline(never)]

    pub fn reconstructed_blocks(bits: &[u8; 8], scale_factors: &[u8; 8], quantized: &[u32; 128], output: &mut [i32; 128]) {
        let mut dequantizers = [Dequantizer::default(); 8];

        for subband in 0..8 {
            if bits[subband] != 0 {
                dequantizers[subband] = Dequantizer::new(bits[subband], scale_factors[subband]);
            }
        }

        for block in 0..16 {
            for subband in 0..8 {
                if bits[subband] == 0 {
                    continue;
                }

                output[8 * block + subband] = dequantizers[subband].apply(quantized[8 * block + subband]);
            }
        }
    }
}
