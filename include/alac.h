/* alac.h: reads and packs ALAC packets. Every function is proved to do what docs/01-scope.md, document 01, says.
 *
 * A slice is a pointer and how many elements it has. No pointer is NULL, not even to no elements, and what a function
 * writes into overlaps nothing else that it is handed. Each function returns 0, or the number in document 01's table
 * that says why not. Nothing is kept between calls, so any number of threads may call at once.
 *
 * Link with the archive that tools/archive makes, target/archive/libalac.a. */
#ifndef ALAC_H
#define ALAC_H

#include <stddef.h>
#include <stdint.h>

#ifdef __cplusplus
extern "C" {
#endif

/* The places of `fields`. */
enum alac_field {
    ALAC_FRAME_LENGTH, /* samples of each channel in a whole packet */
    ALAC_COMPATIBLE_VERSION,
    ALAC_BIT_DEPTH,
    ALAC_PB,
    ALAC_MB,
    ALAC_KB,
    ALAC_NUM_CHANNELS,
    ALAC_MAX_RUN,
    ALAC_MAX_FRAME_BYTES,
    ALAC_AVG_BIT_RATE,
    ALAC_SAMPLE_RATE
};

/* The places of `answer`; two more are 0. A refusal's count is 0. */
enum alac_answer { ALAC_NUMBER, ALAC_COUNT };

/* How many places of scratch a reader or a writer is lent. */
#define ALAC_SCRATCH(frame_length) (2 * (size_t)(frame_length))

/* The writer's settings: mix_bits, mix_res, then 33 places for each channel. docs/01-scope.md has their ranges. */
#define ALAC_SETTINGS(channels) (2 + 33 * (channels))

/* Where a channel's settings begin, the first being channel 0; pb_factor is there, the others after it. */
#define ALAC_CHANNEL(channel) (2 + 33 * (channel))
enum alac_setting { ALAC_PB_FACTOR, ALAC_QUANT, ALAC_ORDER, ALAC_COEFS }; /* 30 coefficients, newest sample's first */

/* No packet has more bytes. `orders` is the sum of the channels' orders, `samples` how many each channel has. */
#define ALAC_MAX_PACKET_BYTES(channels, orders, samples) \
    ((74 + (size_t)(channels) * (16 + 51 * (size_t)(samples)) + 16 * (size_t)(orders) + 7) / 8)

/* Reads a cookie's fields. Number 1 leaves them as they were. No field is judged. */
uint32_t alac_stream_info(const uint8_t *cookie, size_t cookie_len, uint64_t fields[11]);

/* Reads a packet into `out`, channels interleaved; the count is that of the samples. `out` needs frame length x
 * channels places. A packet that is refused for its own bits, 4 to 18, makes that many places zero; 1 to 3 change
 * nothing. */
uint32_t alac_decode_packet_i16(const uint8_t *cookie, size_t cookie_len,
                                const uint8_t *packet, size_t packet_len,
                                int16_t *out, size_t out_len,
                                int32_t *scratch, size_t scratch_len,
                                uint64_t answer[4]);

/* The same, with each sample in the upper bits of 32. */
uint32_t alac_decode_packet_i32(const uint8_t *cookie, size_t cookie_len,
                                const uint8_t *packet, size_t packet_len,
                                int32_t *out, size_t out_len,
                                int32_t *scratch, size_t scratch_len,
                                uint64_t answer[4]);

/* Packs a passage of interleaved samples; the count is that of the packet's bytes. With ALAC_MAX_PACKET_BYTES of bytes
 * it is packed in one go, with fewer it is measured first. A refusal leaves `bytes` as they were. */
uint32_t alac_encode_packet_i16(const uint8_t *cookie, size_t cookie_len,
                                const int16_t *settings, size_t settings_len,
                                const int16_t *passage, size_t passage_len,
                                uint8_t *bytes, size_t bytes_len,
                                int32_t *scratch, size_t scratch_len,
                                uint64_t answer[4]);

#ifdef __cplusplus
}
#endif

#endif
