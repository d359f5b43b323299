/*
 * A scheduler's commands over a serial line, chopped anywhere: each is answered when its last byte has come. Every command is lent the room behind the last
 * section, so that the day's sections lie end to end. host/rust/examples/stream.rs prints the same lines, host/stream.txt.
 */
#include <stdio.h>
#include <string.h>

#include "pasetone.h"

static const uint8_t sent[] = {
    2, 0x00, 0x40, 0x1f, 0, 0, 0, 0, 0,          /* rate 2,048,000 */
    6, 0xf4, 0xff, 0xff, 0xff, 0, 0, 0, 0,       /* correction -12 */
    8, 0, 0, 0, 0, 0, 0, 0, 0,                   /* no such operation */
    4, 28, 1, 0, 0, 0, 0, 0, 0,                  /* an index has one byte */
    1, 0x60, 0xf9, 0x18, 0x06, 0, 0, 0, 0,       /* 102,300,000 Hz: its write of register 0x14 fails */
    7, 0, 0, 0, 0, 0, 0, 0, 0,                   /* reload */
    1, 0, 0, 0, 0, 0, 0, 0, 0,                   /* 0 Hz */
    4, 28, 0, 0, 0, 0, 0, 0, 0,                  /* the highest gain */
    1, 0x60, 0xf9, 0x18, 0x06, 0, 0, 0, 0,       /* 102,300,000 Hz */
    5, 0x20, 0x2e, 0x63, 0x00,                   /* a bandwidth, of which the line gives five bytes */
};

/* All that a host keeps. */
static uint8_t stream[PASETONE_STREAM_SIZE], tuner[PASETONE_TUNER_SIZE], driver[PASETONE_DRIVER_SIZE], table[PASETONE_V4_TABLE_SIZE];
static uint8_t outcomes[PASETONE_TUNE_ENTRIES], replies[PASETONE_TUNE_REPLIES], day[10 * PASETONE_TUNE_ROOM];
static size_t used;
static unsigned number;

static void print_answer(uint8_t operation, pasetone_feed_reply reply)
{
    printf("command %u, operation %u: ", number, (unsigned)operation);
    if (reply.refusal == PASETONE_DONE) {
        printf("done");
    } else {
        printf("refusal %u (%s)", (unsigned)reply.refusal, pasetone_refusal_word(reply.refusal));
    }
    if (reply.refusal == PASETONE_STEP) {
        printf(" at entry %llu", (unsigned long long)reply.index);
    }
    printf(", %u entries\n", (unsigned)reply.count);
}

/* The header's loop; 0 where the stream bytes are none. */
static int feed(const uint8_t *bytes, size_t n)
{
    while (n > 0) {
        pasetone_feed_reply reply;
        outcomes[13] = number == 4; /* the fifth command's */
        reply = pasetone_feed(stream, sizeof stream, driver, sizeof driver, tuner, sizeof tuner, table, sizeof table, bytes, n, outcomes,
                              sizeof outcomes, replies, sizeof replies, day + used, sizeof day - used);
        if (!reply.completed && reply.refusal != PASETONE_DONE) {
            return 0;
        }
        bytes += reply.used;
        n -= reply.used;
        if (reply.completed) {
            used += reply.count > 0 ? PASETONE_ROOM_FOR(reply.count) : 0;
            print_answer(sent[9 * number++], reply);
        }
    }
    return 1;
}

static int prepare(void)
{
    uint8_t fresh[PASETONE_TUNER_SIZE], room[PASETONE_INITIALIZE_ROOM];
    return pasetone_board_table(PASETONE_V4, table, sizeof table).refusal == 0 &&
           pasetone_driver_new(PASETONE_V4, 28800000, 0, 0, 0, driver, sizeof driver).refusal == 0 &&
           pasetone_tuner_new(PASETONE_R828D, 0x74, 28800000, fresh, sizeof fresh).refusal == 0 &&
           pasetone_initialize(fresh, sizeof fresh, outcomes, sizeof outcomes, room, sizeof room, tuner, sizeof tuner).refusal == 0;
}

static long signed_at(const uint8_t *bytes)
{
    return (int32_t)((uint32_t)bytes[3] << 24 | (uint32_t)bytes[2] << 16 | (uint32_t)bytes[1] << 8 | bytes[0]);
}

int main(void)
{
    uint8_t list[PASETONE_RESTORE_ROOM];
    size_t at = 0, chunk, length;
    uint32_t bits;
    float db;
    if (!prepare()) {
        return 1;
    }
    for (chunk = 0; at < sizeof sent; chunk++) {
        length = chunk * 5 % 13;
        length = length < sizeof sent - at ? length : sizeof sent - at;
        if (!feed(sent + at, length)) {
            return 1;
        }
        at += length;
    }
    printf("pending at the end: %u bytes\n", (unsigned)pasetone_stream_pending(stream, sizeof stream).value);
    bits = (uint32_t)pasetone_get_gain(tuner, sizeof tuner).value;
    memcpy(&db, &bits, sizeof db);
    printf("correction %ld ppm, rate %ld, gain %.1f dB\n", signed_at(driver + PASETONE_DRIVER_PPM), signed_at(driver + PASETONE_DRIVER_RATE),
           (double)db);
    printf("restored by %u writes\n", (unsigned)(pasetone_restore(day, used, 0x74, list, sizeof list).value / PASETONE_ENTRY_SIZE));
    return 0;
}
