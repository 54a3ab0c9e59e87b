/* A test of libsbc_abi.a from C: test DATA, the folder of the recorded streams (crates/sbc_figures/data). Writes `ok`, or what failed. */
#include <stdio.h>
#include <stdlib.h>
#include <string.h>

#include "sbc.h"

_Static_assert(sizeof(size_t) == 8, "x86-64");
_Static_assert(sizeof(sbc_parameters) == 12 && sizeof(sbc_parsed) == 16, "layout of the parameters");
_Static_assert(sizeof(sbc_decoder) == 1320 && offsetof(sbc_decoder, finishing) == 1317, "layout of a decoder");
_Static_assert(sizeof(sbc_encoder) == 332 && offsetof(sbc_encoder, parameters) == 320, "layout of an encoder");
_Static_assert(sizeof(sbc_coded) == 24 && sizeof(sbc_sought) == 16, "layout of the answers");

static int failures;

#define EXPECT(claim) \
    do { \
        if (!(claim)) { \
            printf("%s:%d: not so: %s\n", __FILE__, __LINE__, #claim); \
            failures++; \
        } \
    } while (0)

#define MARK 0x5A5A
#define ROOM 9000

/* The mSBC frame of silence, as HFP's drivers carry it. */
static const uint8_t SILENCE[57] = {
    0xAD, 0x00, 0x00, 0xC5, 0x00, 0x00, 0x00, 0x00, 0x77, 0x6D, 0xB6, 0xDD, 0xDB, 0x6D, 0xB7, 0x76, 0xDB, 0x6D, 0xDD,
    0xB6, 0xDB, 0x77, 0x6D, 0xB6, 0xDD, 0xDB, 0x6D, 0xB7, 0x76, 0xDB, 0x6D, 0xDD, 0xB6, 0xDB, 0x77, 0x6D, 0xB6, 0xDD,
    0xDB, 0x6D, 0xB7, 0x76, 0xDB, 0x6D, 0xDD, 0xB6, 0xDB, 0x77, 0x6D, 0xB6, 0xDD, 0xDB, 0x6D, 0xB7, 0x76, 0xDB, 0x6C,
};

static uint8_t stream[8192];
static size_t stream_length;
static int16_t expected[8192];
static size_t expected_length;
static int16_t output[ROOM];

static size_t load(const char *folder, const char *name, void *into, size_t size) {
    char path[4096];
    snprintf(path, sizeof path, "%s/%s", folder, name);
    FILE *file = fopen(path, "rb");
    if (!file) {
        perror(path);
        exit(1);
    }
    size_t length = fread(into, 1, size, file);
    fclose(file);
    return length;
}

static void mark(int16_t *samples, size_t count) {
    for (size_t i = 0; i < count; i++) samples[i] = MARK;
}

static int marked(const int16_t *samples, size_t count) {
    for (size_t i = 0; i < count; i++)
        if (samples[i] != MARK) return 0;
    return 1;
}

static int same_parameters(sbc_parameters a, sbc_parameters b) {
    return a.sample_rate == b.sample_rate && a.channel_mode == b.channel_mode && a.allocation == b.allocation && a.blocks == b.blocks &&
           a.subbands == b.subbands && a.bitpool == b.bitpool;
}

static int same_decoder(const sbc_decoder *a, const sbc_decoder *b) {
    return !memcmp(a->left, b->left, sizeof a->left) && !memcmp(a->right, b->right, sizeof a->right) && a->left_newest == b->left_newest &&
           a->right_newest == b->right_newest && a->skip == b->skip && same_parameters(a->parameters, b->parameters) &&
           a->has_parameters == b->has_parameters && a->finishing == b->finishing;
}

static int same_encoder(const sbc_encoder *a, const sbc_encoder *b) {
    return !memcmp(a->left, b->left, sizeof a->left) && !memcmp(a->right, b->right, sizeof a->right) && same_parameters(a->parameters, b->parameters);
}

static int is_refusal(sbc_coded answer, int refusal) { return answer.refusal == refusal && !answer.consumed && !answer.produced; }

/* A decode call that must be refused so, and must change nothing. */
static int decode_refuses(sbc_decoder *decoder, const uint8_t *input, size_t length, size_t room, int refusal) {
    sbc_decoder before = *decoder;
    mark(output, ROOM);
    return is_refusal(sbc_decoder_decode(decoder, input, length, output, room), refusal) && same_decoder(decoder, &before) && marked(output, ROOM);
}

/* An encode call that must be refused so, and must change nothing. */
static int encode_refuses(sbc_encoder *encoder, const int16_t *input, size_t length, size_t room, int refusal) {
    uint8_t bytes[600];
    sbc_encoder before = *encoder;
    memset(bytes, 0x5A, sizeof bytes);
    sbc_coded answer = sbc_encoder_encode(encoder, input, length, bytes, room);
    for (size_t i = 0; i < sizeof bytes; i++)
        if (bytes[i] != 0x5A) return 0;
    return is_refusal(answer, refusal) && same_encoder(encoder, &before);
}

/* The stream in one call, and in pieces of 100 bytes. */
static void test_decode(void) {
    sbc_decoder decoder, zeros;
    memset(&decoder, 0xEE, sizeof decoder);
    memset(&zeros, 0, sizeof zeros);
    sbc_decoder_new(&decoder);
    EXPECT(same_decoder(&decoder, &zeros));
    mark(output, ROOM);
    sbc_coded answer = sbc_decoder_decode(&decoder, stream, stream_length, output, ROOM);
    EXPECT(answer.refusal == 0 && answer.consumed == stream_length && answer.produced == expected_length);
    EXPECT(!memcmp(output, expected, expected_length * sizeof *expected));
    EXPECT(marked(output + expected_length, ROOM - expected_length));
    EXPECT(decoder.has_parameters == 1 && decoder.parameters.sample_rate == 44100 && decoder.parameters.channel_mode == SBC_JOINT_STEREO);
    sbc_decoder_reset(&decoder);
    EXPECT(same_decoder(&decoder, &zeros));

    size_t at = 0, end = 0, made = 0;
    while (end < stream_length) {
        end = end + 100 < stream_length ? end + 100 : stream_length;
        answer = sbc_decoder_decode(&decoder, stream + at, end - at, output + made, ROOM - made);
        EXPECT(answer.refusal == 0);
        at += answer.consumed;
        made += answer.produced;
    }
    EXPECT(at == stream_length && made == expected_length);
    EXPECT(!memcmp(output, expected, expected_length * sizeof *expected));
}

static void test_decode_refusals(void) {
    sbc_decoder decoder;
    sbc_decoder_new(&decoder);
    size_t frame = sbc_parameters_frame_length(sbc_parameters_parse(stream, 3).parameters);
    uint8_t bad[600];
    memcpy(bad, stream, frame);
    /* one frame first, so that there is a state to keep */
    EXPECT(sbc_decoder_decode(&decoder, stream, frame, output, ROOM).produced == 256);
    EXPECT(is_refusal(sbc_decoder_decode(&decoder, stream, frame - 1, output, ROOM), 0));
    EXPECT(is_refusal(sbc_decoder_decode(&decoder, stream, 0, output, 0), 0));
    EXPECT(decode_refuses(&decoder, stream, frame, 255, SBC_BUFFER_TOO_SMALL));
    bad[0] = 0x9D;
    EXPECT(decode_refuses(&decoder, bad, frame, ROOM, SBC_INVALID_HEADER));
    bad[0] = 0x9C;
    bad[3] ^= 1;
    EXPECT(decode_refuses(&decoder, bad, frame, ROOM, SBC_INVALID_DATA));
    sbc_decoder_finish(&decoder);
    EXPECT(decoder.finishing == 1);
    EXPECT(decode_refuses(&decoder, stream, frame - 1, ROOM, SBC_INCOMPLETE));
    EXPECT(is_refusal(sbc_decoder_decode(&decoder, stream, 0, output, ROOM), 0));
    EXPECT(sbc_decoder_decode(&decoder, stream, frame, output, ROOM).produced == 256);

    /* states that stand for no decoder */
    sbc_decoder wrong = decoder;
    wrong.finishing = 2;
    EXPECT(decode_refuses(&wrong, stream, frame, ROOM, SBC_INVALID_PARAMETER));
    wrong = decoder;
    wrong.has_parameters = 2;
    EXPECT(decode_refuses(&wrong, stream, frame, ROOM, SBC_INVALID_PARAMETER));
    wrong = decoder;
    wrong.has_parameters = 0;
    EXPECT(decode_refuses(&wrong, stream, frame, ROOM, SBC_INVALID_PARAMETER));
    wrong = decoder;
    wrong.parameters.channel_mode = 4;
    EXPECT(decode_refuses(&wrong, stream, frame, ROOM, SBC_INVALID_PARAMETER));
    wrong = decoder;
    wrong.parameters.allocation = 2;
    EXPECT(decode_refuses(&wrong, stream, frame, ROOM, SBC_INVALID_PARAMETER));
    sbc_decoder kept = wrong;
    sbc_sought sought = sbc_decoder_seek(&wrong, 0);
    EXPECT(sought.refusal == SBC_INVALID_PARAMETER && !sought.byte_offset && !sought.skip_frames && same_decoder(&wrong, &kept));
    sbc_decoder_finish(&wrong);
    EXPECT(same_decoder(&wrong, &kept));
    sbc_decoder_reset(&wrong);
    EXPECT(same_decoder(&wrong, &kept));
}

/* Behind a seek come the samples that a decode from the start has there. */
static void test_seek(void) {
    sbc_decoder decoder, before;
    sbc_decoder_new(&decoder);
    sbc_sought sought = sbc_decoder_seek(&decoder, 0);
    EXPECT(sought.refusal == 0 && sought.byte_offset == 0 && sought.skip_frames == 0);
    before = decoder;
    sought = sbc_decoder_seek(&decoder, 1);
    EXPECT(sought.refusal == SBC_INCOMPLETE && sought.byte_offset == 0 && sought.skip_frames == 0 && same_decoder(&decoder, &before));
    sbc_decoder_decode(&decoder, stream, stream_length, output, ROOM);
    sought = sbc_decoder_seek(&decoder, 1000);
    /* block 125, 9 back, is in frame 7 of 16 blocks of 8 samples */
    EXPECT(sought.refusal == 0 && sought.byte_offset == 7 * sbc_parameters_frame_length(decoder.parameters) && sought.skip_frames == 1000 - 7 * 128);
    EXPECT(decoder.skip == 1000 - 7 * 128);
    sbc_coded answer = sbc_decoder_decode(&decoder, stream + sought.byte_offset, stream_length - sought.byte_offset, output, ROOM);
    EXPECT(answer.refusal == 0 && answer.consumed == stream_length - sought.byte_offset && answer.produced == expected_length - 2000);
    EXPECT(!memcmp(output, expected + 2000, (expected_length - 2000) * sizeof *expected));
}

static void test_encode(void) {
    static const int16_t zeros[240];
    uint8_t bytes[200];
    sbc_encoder encoder, before;
    sbc_parameters msbc = SBC_MSBC;
    memset(&encoder, 0xEE, sizeof encoder);
    before = encoder;
    sbc_parameters wrong = msbc;
    wrong.bitpool = 27;
    EXPECT(sbc_encoder_new(&encoder, wrong) == SBC_INVALID_PARAMETER && same_encoder(&encoder, &before));
    wrong = msbc;
    wrong.channel_mode = 4;
    EXPECT(sbc_encoder_new(&encoder, wrong) == SBC_INVALID_PARAMETER && same_encoder(&encoder, &before));
    EXPECT(encode_refuses(&encoder, zeros, 120, 57, SBC_INVALID_PARAMETER));

    EXPECT(sbc_encoder_new(&encoder, msbc) == 0 && same_parameters(encoder.parameters, msbc));
    before = encoder;
    memset(bytes, 0x5A, sizeof bytes);
    sbc_coded answer = sbc_encoder_encode(&encoder, zeros, 120, bytes, sizeof bytes);
    EXPECT(answer.refusal == 0 && answer.consumed == 120 && answer.produced == 57);
    EXPECT(!memcmp(bytes, SILENCE, 57) && bytes[57] == 0x5A);
    answer = sbc_encoder_encode(&encoder, zeros, 239, bytes, sizeof bytes);
    EXPECT(answer.refusal == 0 && answer.consumed == 120 && answer.produced == 57);
    EXPECT(encode_refuses(&encoder, zeros, 120, 56, SBC_BUFFER_TOO_SMALL));
    EXPECT(encode_refuses(&encoder, zeros, 0, 0, SBC_BUFFER_TOO_SMALL));

    /* two encoders of the same samples, in one call and in two, and one that is reset */
    static uint8_t whole[8192], parts[8192];
    sbc_parameters high = SBC_HIGH_QUALITY;
    size_t frame = sbc_parameters_frame_length(high);
    EXPECT(sbc_encoder_new(&encoder, high) == 0);
    before = encoder;
    answer = sbc_encoder_encode(&encoder, expected, expected_length, whole, sizeof whole);
    EXPECT(answer.refusal == 0 && answer.consumed == expected_length && answer.produced == expected_length / 256 * frame);
    EXPECT(!same_encoder(&encoder, &before));
    sbc_encoder_reset(&encoder);
    EXPECT(same_encoder(&encoder, &before));
    sbc_coded first = sbc_encoder_encode(&encoder, expected, 5 * 256 + 100, parts, sizeof parts);
    EXPECT(first.refusal == 0 && first.consumed == 5 * 256 && first.produced == 5 * frame);
    sbc_coded rest = sbc_encoder_encode(&encoder, expected + first.consumed, expected_length - first.consumed, parts + first.produced, sizeof parts - first.produced);
    EXPECT(rest.refusal == 0 && first.produced + rest.produced == answer.produced && !memcmp(whole, parts, answer.produced));
    /* what is encoded is decoded */
    sbc_decoder decoder;
    sbc_decoder_new(&decoder);
    sbc_coded heard = sbc_decoder_decode(&decoder, whole, answer.produced, output, ROOM);
    EXPECT(heard.refusal == 0 && heard.consumed == answer.produced && heard.produced == expected_length && same_parameters(decoder.parameters, high));

    encoder.parameters.allocation = 2;
    before = encoder;
    EXPECT(encode_refuses(&encoder, zeros, 240, 600, SBC_INVALID_PARAMETER));
    sbc_encoder_reset(&encoder);
    EXPECT(same_encoder(&encoder, &before));
}

static void test_parameters(void) {
    static const sbc_parameters none;
    sbc_parameters msbc = SBC_MSBC, high = SBC_HIGH_QUALITY;
    sbc_parsed parsed = sbc_parameters_parse(SILENCE, 57);
    EXPECT(parsed.refusal == 0 && same_parameters(parsed.parameters, msbc));
    parsed = sbc_parameters_parse(SILENCE, 2);
    EXPECT(parsed.refusal == SBC_INCOMPLETE && same_parameters(parsed.parameters, none));
    parsed = sbc_parameters_parse(SILENCE + 1, 3);
    EXPECT(parsed.refusal == SBC_INVALID_HEADER && same_parameters(parsed.parameters, none));
    EXPECT(sbc_parameters_frame_length(msbc) == 57 && sbc_parameters_frame_samples(msbc) == 120);
    EXPECT(sbc_parameters_frame_length(high) == 119 && sbc_parameters_frame_samples(high) == 256);
    EXPECT(sbc_parameters_frame_length(none) == 0 && sbc_parameters_frame_samples(none) == 0);
    high.channel_mode = 4;
    EXPECT(sbc_parameters_frame_length(high) == 0 && sbc_parameters_frame_samples(high) == 0);
}

int main(int count, char **words) {
    if (count != 2) {
        fprintf(stderr, "test DATA\n");
        return 2;
    }
    stream_length = load(words[1], "joint.sbc", stream, sizeof stream);
    expected_length = load(words[1], "joint.rust.pcm", expected, sizeof expected) / sizeof *expected;
    test_parameters();
    test_decode();
    test_decode_refusals();
    test_seek();
    test_encode();
    if (failures) return 1;
    puts("ok");
    return 0;
}
