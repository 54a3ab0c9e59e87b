/*
 * The proved SBC and mSBC codec for C: declares the functions of libsbc_abi.a, which `rt lib` in crates/sbc_abi writes.
 *
 * The caller owns every state and every buffer; nothing is allocated, kept or freed, and there is no global state. A call gives back refusal 0, or
 * the number of its refusal, and a refused call changes nothing: neither the state nor the output. Samples are 16 bits, the two channels' alternating, left
 * first.
 *
 * What is proved: for all numbers and lengths each function returns, reads and writes nothing beyond what it is lent, and does what its contract in
 * crates/sbc_abi/src says. What is assumed of a caller, and checked by nothing:
 * - x86-64 and System V's C calling convention, as on Linux.
 * - Each pointer is not null, is aligned as its type is, and points to as many elements as the length says. A pointer to no elements is not null and
 *   aligned too. No buffer has 2^63 bytes or more.
 * - What is lent to be written overlaps nothing else that the same call is lent.
 * - During the call no other thread and no signal handler writes what is lent, or reads what is lent to be written. Calls on different states may
 *   run at the same time.
 * - What is read is initialised: inputs and states. A state that sbc_decoder_new or sbc_encoder_new makes, and an output, may hold anything before.
 * Bytes of padding in the structs have no meaning and are not kept: compare states field by field.
 */
#ifndef SBC_ABI_H
#define SBC_ABI_H

#include <stddef.h>
#include <stdint.h>

#ifdef __cplusplus
extern "C" {
#endif

/* Refusals. */
enum {
    SBC_INCOMPLETE = 1,        /* the input ends before its frame */
    SBC_INVALID_HEADER = 2,    /* no header of a frame */
    SBC_INVALID_PARAMETER = 3, /* parameters that no frame has, or a state whose numbers stand for none */
    SBC_INVALID_DATA = 4,      /* a checksum that does not match */
    SBC_BUFFER_TOO_SMALL = 5   /* the output does not hold one frame */
};

/* Channel modes. */
enum { SBC_MONO = 0, SBC_DUAL_CHANNEL = 1, SBC_STEREO = 2, SBC_JOINT_STEREO = 3 };

/* Allocations. */
enum { SBC_LOUDNESS = 0, SBC_SNR = 1 };

/* The largest frame: its bytes, and the samples that it decodes to. */
#define SBC_MAXIMUM_FRAME_LENGTH 524
#define SBC_MAXIMUM_FRAME_SAMPLES 256

/* The parameters of a stream. */
typedef struct {
    uint32_t sample_rate; /* 16000, 32000, 44100 or 48000 */
    uint8_t channel_mode;
    uint8_t allocation;
    uint8_t blocks;   /* 4, 8, 12 or 16; 15 for mSBC only */
    uint8_t subbands; /* 4 or 8 */
    uint8_t bitpool;  /* 2 to 16 * subbands in mono and dual channel, to 32 * subbands in the others; at most 255 */
} sbc_parameters;

/* Two common sets: `sbc_parameters p = SBC_HIGH_QUALITY;` is A2DP's high quality, SBC_MSBC the hands-free profile's mSBC. */
#define SBC_HIGH_QUALITY { 44100, SBC_JOINT_STEREO, SBC_LOUDNESS, 16, 8, 53 }
#define SBC_MSBC { 16000, SBC_MONO, SBC_LOUDNESS, 15, 8, 26 }

/* A decoder. Only `parameters` is of use to a caller: read it where `has_parameters` is 1. A decoder of zeros is a new one. */
typedef struct {
    int32_t left[160];
    int32_t right[160];
    size_t left_newest;
    size_t right_newest;
    size_t skip;               /* samples of each channel still to be dropped after a seek */
    sbc_parameters parameters; /* of the last accepted frame, or zeros */
    uint8_t has_parameters;    /* 1 where there was one, else 0 */
    uint8_t finishing;         /* 1 after sbc_decoder_finish, else 0 */
} sbc_decoder;

/* An encoder. */
typedef struct {
    int16_t left[80];
    int16_t right[80];
    sbc_parameters parameters;
} sbc_encoder;

/* How much a call consumed and produced: bytes and samples for a decoder, samples and bytes for an encoder. Zeros with a refusal. */
typedef struct {
    size_t consumed;
    size_t produced;
    uint8_t refusal;
} sbc_coded;

/* Where to go on after a seek, and the samples of each channel that the decoder then drops by itself. Zeros with a refusal. */
typedef struct {
    uint64_t byte_offset;
    uint32_t skip_frames;
    uint8_t refusal;
} sbc_sought;

/* The parameters of a header. Zeros with a refusal. */
typedef struct {
    sbc_parameters parameters;
    uint8_t refusal;
} sbc_parsed;

/* Makes a new decoder. */
void sbc_decoder_new(sbc_decoder *decoder);

/* Makes the decoder as created. A state that stands for no decoder stays as it is. */
void sbc_decoder_reset(sbc_decoder *decoder);

/* Says that the input has ended: from here on input that ends before its frame is SBC_INCOMPLETE. A state that stands for no decoder stays as it is. */
void sbc_decoder_finish(sbc_decoder *decoder);

/*
 * Decodes frames until no whole one is left or one is refused: the answer is its refusal where no frame was accepted before it, and the progress
 * otherwise. Go on behind `consumed` bytes of the input. The output holds `produced` samples; those behind them, up to SBC_MAXIMUM_FRAME_SAMPLES, may be
 * overwritten while a seek's samples are dropped.
 */
sbc_coded sbc_decoder_decode(sbc_decoder *decoder, const uint8_t *input, size_t input_length, int16_t *output, size_t output_length);

/*
 * Seeks to a position, counted in samples of one channel from the start of the audio, as if every frame had the parameters of the last: feed the
 * decoder from `byte_offset` of the stream on. Before the first frame position 0 gives zeros, and every other is SBC_INCOMPLETE.
 */
sbc_sought sbc_decoder_seek(sbc_decoder *decoder, uint64_t position);

/* Makes a new encoder: 0, or SBC_INVALID_PARAMETER where the parameters are not accepted. */
uint8_t sbc_encoder_new(sbc_encoder *encoder, sbc_parameters parameters);

/* Silence again; the parameters stay. A state that stands for no encoder stays as it is. */
void sbc_encoder_reset(sbc_encoder *encoder);

/* Encodes as many whole frames as the input has samples for and the output has room for. An output under one frame is SBC_BUFFER_TOO_SMALL, even with no input. */
sbc_coded sbc_encoder_encode(sbc_encoder *encoder, const int16_t *input, size_t input_length, uint8_t *output, size_t output_length);

/* Reads the parameters from the first three bytes of a frame. */
sbc_parsed sbc_parameters_parse(const uint8_t *header, size_t header_length);

/* The bytes of a frame, and the samples that it decodes to, all channels together; 0 where the parameters are not accepted. */
size_t sbc_parameters_frame_length(sbc_parameters parameters);
size_t sbc_parameters_frame_samples(sbc_parameters parameters);

#ifdef __cplusplus
}
#endif

#endif
