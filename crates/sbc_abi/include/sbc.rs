//! The proved SBC and mSBC codec for Rust: safe calls over libsbc_abi.a, which `rt lib` in crates/sbc_abi writes. `sbc.h` says what is proved, and what is
//! assumed of a caller. Of that, Rust's references and slices give all that concerns pointers, lengths, overlap and threads; what is left is x86-64
//! Linux, and that the structs below have the fields of `sbc.h` in its order.

/// The parameters of a stream.
#[repr(C)]
#[derive(Clone, Copy, Debug, Default, PartialEq, Eq)]
pub struct Parameters {
    pub sample_rate: u32,
    /// 0 mono, 1 dual channel, 2 stereo, 3 joint stereo.
    pub channel_mode: u8,
    /// 0 loudness, 1 SNR.
    pub allocation: u8,
    pub blocks: u8,
    pub subbands: u8,
    pub bitpool: u8,
}

/// A decoder. Only `parameters` is of use to a caller: read it where `has_parameters` is 1.
#[repr(C)]
#[derive(Clone, Copy, Debug, PartialEq, Eq)]
pub struct Decoder {
    left: [i32; 160],
    right: [i32; 160],
    left_newest: usize,
    right_newest: usize,
    skip: usize,
    pub parameters: Parameters,
    pub has_parameters: u8,
    finishing: u8,
}

/// An encoder.
#[repr(C)]
#[derive(Clone, Copy, Debug, PartialEq, Eq)]
pub struct Encoder {
    left: [i16; 80],
    right: [i16; 80],
    parameters: Parameters,
}

/// Why a call was refused, by document 01's numbers: 1 Incomplete, 2 InvalidHeader, 3 InvalidParameter, 4 InvalidData, 5 BufferTooSmall.
#[derive(Clone, Copy, Debug, PartialEq, Eq)]
pub struct Refusal(pub u8);

/// How much a call consumed and produced: bytes and samples for a decoder, samples and bytes for an encoder.
#[derive(Clone, Copy, Debug, PartialEq, Eq)]
pub struct Progress {
    pub consumed: usize,
    pub produced: usize,
}

/// Where to go on after a seek, and the samples of each channel that the decoder then drops by itself.
#[derive(Clone, Copy, Debug, PartialEq, Eq)]
pub struct SeekRequest {
    pub byte_offset: u64,
    pub skip_frames: u32,
}

#[repr(C)]
struct Coded {
    consumed: usize,
    produced: usize,
    refusal: u8,
}

#[repr(C)]
struct Sought {
    byte_offset: u64,
    skip_frames: u32,
    refusal: u8,
}

#[repr(C)]
struct Parsed {
    parameters: Parameters,
    refusal: u8,
}

unsafe extern "C" {
    fn sbc_decoder_reset(decoder: &mut Decoder);
    fn sbc_decoder_finish(decoder: &mut Decoder);
    fn sbc_decoder_decode(decoder: &mut Decoder, input: *const u8, input_length: usize, output: *mut i16, output_length: usize) -> Coded;
    fn sbc_decoder_seek(decoder: &mut Decoder, position: u64) -> Sought;
    fn sbc_encoder_new(encoder: &mut Encoder, parameters: Parameters) -> u8;
    fn sbc_encoder_reset(encoder: &mut Encoder);
    fn sbc_encoder_encode(encoder: &mut Encoder, input: *const i16, input_length: usize, output: *mut u8, output_length: usize) -> Coded;
    fn sbc_parameters_parse(header: *const u8, header_length: usize) -> Parsed;
    fn sbc_parameters_frame_length(parameters: Parameters) -> usize;
    fn sbc_parameters_frame_samples(parameters: Parameters) -> usize;
}

fn answer<A>(refusal: u8, given: A) -> Result<A, Refusal> {
    if refusal == 0 { Ok(given) } else { Err(Refusal(refusal)) }
}

fn progress(coded: Coded) -> Result<Progress, Refusal> {
    answer(coded.refusal, Progress { consumed: coded.consumed, produced: coded.produced })
}

impl Parameters {
    /// A2DP's high quality.
    pub const HIGH_QUALITY: Parameters = Parameters { sample_rate: 44_100, channel_mode: 3, allocation: 0, blocks: 16, subbands: 8, bitpool: 53 };

    /// The hands-free profile's mSBC.
    pub const MSBC: Parameters = Parameters { sample_rate: 16_000, channel_mode: 0, allocation: 0, blocks: 15, subbands: 8, bitpool: 26 };

    /// Reads the parameters from the first three bytes of a frame.
    pub fn parse(header: &[u8]) -> Result<Parameters, Refusal> {
        let parsed = unsafe { sbc_parameters_parse(header.as_ptr(), header.len()) };
        answer(parsed.refusal, parsed.parameters)
    }

    /// The bytes of a frame; 0 where the parameters are not accepted.
    pub fn frame_length(self) -> usize {
        unsafe { sbc_parameters_frame_length(self) }
    }

    /// The samples that a frame decodes to, all channels together; 0 where the parameters are not accepted.
    pub fn frame_samples(self) -> usize {
        unsafe { sbc_parameters_frame_samples(self) }
    }
}

impl Decoder {
    /// A decoder that has seen no frame.
    pub const fn new() -> Decoder {
        Decoder {
            left: [0; 160],
            right: [0; 160],
            left_newest: 0,
            right_newest: 0,
            skip: 0,
            parameters: Parameters { sample_rate: 0, channel_mode: 0, allocation: 0, blocks: 0, subbands: 0, bitpool: 0 },
            has_parameters: 0,
            finishing: 0,
        }
    }

    /// Makes the decoder as created.
    pub fn reset(&mut self) {
        unsafe { sbc_decoder_reset(self) }
    }

    /// Says that the input has ended.
    pub fn finish(&mut self) {
        unsafe { sbc_decoder_finish(self) }
    }

    /// Decodes frames until no whole one is left or one is refused.
    pub fn decode(&mut self, input: &[u8], output: &mut [i16]) -> Result<Progress, Refusal> {
        progress(unsafe { sbc_decoder_decode(self, input.as_ptr(), input.len(), output.as_mut_ptr(), output.len()) })
    }

    /// Seeks to a position, counted in samples of one channel from the start of the audio.
    pub fn seek(&mut self, position: u64) -> Result<SeekRequest, Refusal> {
        let sought = unsafe { sbc_decoder_seek(self, position) };
        answer(sought.refusal, SeekRequest { byte_offset: sought.byte_offset, skip_frames: sought.skip_frames })
    }
}

impl Encoder {
    /// A new encoder, where the parameters are accepted.
    pub fn new(parameters: Parameters) -> Result<Encoder, Refusal> {
        let mut encoder = Encoder { left: [0; 80], right: [0; 80], parameters: Parameters::default() };
        let refusal = unsafe { sbc_encoder_new(&mut encoder, parameters) };
        answer(refusal, encoder)
    }

    /// Silence again; the parameters stay.
    pub fn reset(&mut self) {
        unsafe { sbc_encoder_reset(self) }
    }

    /// Encodes as many whole frames as the input has samples for and the output has room for.
    pub fn encode(&mut self, input: &[i16], output: &mut [u8]) -> Result<Progress, Refusal> {
        progress(unsafe { sbc_encoder_encode(self, input.as_ptr(), input.len(), output.as_mut_ptr(), output.len()) })
    }
}
