/* roundtrip: packs passages and reads them back, in both widths, through alac.h. Exit status 1 where one differs. */
#include <stdio.h>
#include <string.h>

#include "alac.h"

enum { FRAME = 1024, PASSAGES = 1000, PLACES = ALAC_SCRATCH(FRAME), LIMIT = ALAC_MAX_PACKET_BYTES(2, 16, FRAME) };

static int32_t scratch[PLACES];
static uint64_t state = 1;

/* Numbers that look random and are the same for everyone. */
static uint32_t next_number(void) {
    state = state * 6364136223846793005u + 1442695040888963407u;
    return (uint32_t)(state >> 33);
}

static void fill_cookie(uint8_t cookie[24], unsigned channels) {
    static const uint8_t plain[24] = {0, 0, FRAME / 256, 0, 0, 16, 40, 10, 14, 0, 0, 255, [22] = 0xAC, [23] = 0x44};
    memcpy(cookie, plain, sizeof plain);
    cookie[9] = (uint8_t)channels;
}

/* The usual settings, and halves mixed for a pair. */
static void fill_settings(int16_t *settings, unsigned channels) {
    static const int16_t usual[] = {4, 9, 8, 1216, -928, -64};
    memset(settings, 0, ALAC_SETTINGS(2) * sizeof *settings);
    if (channels == 2) {
        settings[0] = 2;
        settings[1] = 2;
    }
    for (unsigned channel = 0; channel < channels; channel++)
        memcpy(settings + ALAC_CHANNEL(channel), usual, sizeof usual);
}

/* Silence, a murmur or noise. */
static void fill_passage(int16_t *passage, size_t length) {
    uint32_t loudness = next_number() % 17;
    for (size_t i = 0; i < length; i++)
        passage[i] = (int16_t)((int32_t)(next_number() % (1u << loudness)) - (1 << loudness) / 2);
}

/* 1 where both widths read the packet as the passage. */
static int reads_as(const uint8_t *cookie, const uint8_t *packet, size_t bytes, const int16_t *passage, size_t length) {
    static int16_t narrow[2 * FRAME];
    static int32_t wide[2 * FRAME];
    uint64_t answer[4];
    if (alac_decode_packet_i16(cookie, 24, packet, bytes, narrow, 2 * FRAME, scratch, PLACES, answer) != 0)
        return 0;
    if (answer[ALAC_COUNT] != length || memcmp(narrow, passage, length * sizeof *passage) != 0)
        return 0;
    if (alac_decode_packet_i32(cookie, 24, packet, bytes, wide, 2 * FRAME, scratch, PLACES, answer) != 0)
        return 0;
    for (size_t i = 0; i < length; i++)
        if (wide[i] != passage[i] * 65536)
            return 0;
    return answer[ALAC_COUNT] == length;
}

/* 1 where the passage is packed and comes back. */
static int comes_back(unsigned channels, const int16_t *passage, size_t length) {
    static uint8_t bytes[LIMIT];
    uint8_t cookie[24];
    int16_t settings[ALAC_SETTINGS(2)];
    uint64_t answer[4];
    fill_cookie(cookie, channels);
    fill_settings(settings, channels);
    if (alac_encode_packet_i16(cookie, 24, settings, ALAC_SETTINGS(channels), passage, length, bytes, LIMIT, scratch,
                               PLACES, answer) != 0)
        return 0;
    return reads_as(cookie, bytes, answer[ALAC_COUNT], passage, length);
}

/* 1 where the fields and two refusals are as they should be. */
static int tells(void) {
    uint8_t cookie[24];
    uint64_t fields[11], answer[4];
    int16_t out[FRAME];
    fill_cookie(cookie, 1);
    return alac_stream_info(cookie, 23, fields) == 1
        && alac_stream_info(cookie, 24, fields) == 0
        && fields[ALAC_FRAME_LENGTH] == FRAME && fields[ALAC_NUM_CHANNELS] == 1 && fields[ALAC_SAMPLE_RATE] == 44100
        && alac_decode_packet_i16(cookie, 24, cookie, 0, out, FRAME, scratch, PLACES, answer) == 4
        && answer[ALAC_NUMBER] == 4 && answer[ALAC_COUNT] == 0;
}

int main(void) {
    static int16_t passage[2 * FRAME];
    int differ = 0;
    for (int i = 0; i < PASSAGES; i++) {
        unsigned channels = 1 + (unsigned)i % 2;
        size_t length = channels * (next_number() % (FRAME + 1));
        fill_passage(passage, length);
        differ += !comes_back(channels, passage, length);
    }
    int told = tells();
    printf("C: %d passages packed and read back, %d differ; fields and refusals %s\n", PASSAGES, differ,
           told ? "as they should be" : "differ");
    return differ > 0 || !told;
}
