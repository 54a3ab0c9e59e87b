
// Appended to the codec's lib.rs: what its private functions give, for the comparisons and the benchmarks. None is inlined, since the
// calls into the proved library are not either.
pub mod exports {
    use super::*;

    #[inline(never)]

    pub fn need(parameters: &SbcParameters, scale_factor: u8, subband: usize) -> i32 {
        bit_need(parameters, scale_factor, subband)
    }

    #[inline(never)]

    pub fn allocation(parameters: &SbcParameters, scale_factors: &[[u8; 8]; 2]) -> [[u8; 8]; 2] {
        allocate(parameters, scale_factors)
    }

    #[inline(never)]

    pub fn frame_checksum(frame: &[u8], side_bits: usize) -> u8 {
        checksum(frame, side_bits)
    }

    #[inline(never)]

    pub fn header_bytes(parameters: &SbcParameters) -> [u8; 3] {
        parameters.header()
    }

    #[inline(never)]

    pub fn side(parameters: &SbcParameters) -> usize {
        parameters.side_bits()
    }

    #[inline(never)]

    pub fn factor(maximum: i32) -> u8 {
        scale_factor(maximum)
    }

    #[inline(never)]

    pub fn quantized(sample: i32, scale_factor: u8, bits: u8) -> u32 {
        quantize(sample, scale_factor, bits)
    }

    #[inline(never)]

    pub fn reconstructed(quantized: u32, scale_factor: u8, bits: u8) -> i32 {
        if bits == 0 {
            return 0;
        }

        Dequantizer::new(bits, scale_factor).apply(quantized)
    }

    pub fn prototype(subbands: usize) -> &'static [i32] {
        if subbands == 4 { &PROTOTYPE_4 } else { &PROTOTYPE_8 }
    }

    pub struct Ring(Synthesis);

    impl Ring {
        pub fn new() -> Self {
            Self(Synthesis::new())
        }

        #[inline(never)]

        pub fn synthesize(&mut self, samples: &[i32], output: &mut [i16]) {
            super::synthesize(&mut self.0, samples, output);
        }
    }

    #[inline(never)]

    pub fn analysis(history: &mut [i16; 80], input: &[i16], output: &mut [i32]) {
        super::analyze(history, input.iter().copied(), output);
    }
}
