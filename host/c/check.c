/*
 * Whether pasetone.h says what libpasetone.a is, and pasetone_host.h what it says: sizes, every declaration linked and called, and document 01's worked numbers. Prints the count
 * of checks and of faults; exits 1 on a fault. What it does not do: damaged input, which is hostile.c's.
 */
#include <stddef.h>
#include <stdio.h>
#include <string.h>

#include "pasetone_host.h"

/* C99 has no static assertion: a size below zero is an error. */
#define SAME_AT_COMPILE_TIME(name, a, b) typedef char name[(a) == (b) ? 1 : -1]
SAME_AT_COMPILE_TIME(reply_is_24, sizeof(pasetone_reply), 24);
SAME_AT_COMPILE_TIME(tune_reply_is_32, sizeof(pasetone_tune_reply), 32);
SAME_AT_COMPILE_TIME(feed_reply_is_48, sizeof(pasetone_feed_reply), 48);
SAME_AT_COMPILE_TIME(feed_reply_refusal_at_24, offsetof(pasetone_feed_reply, refusal), 24);
SAME_AT_COMPILE_TIME(feed_reply_pending_at_44, offsetof(pasetone_feed_reply, pending), 44);
SAME_AT_COMPILE_TIME(section_is_24, sizeof(pasetone_section), 24);
SAME_AT_COMPILE_TIME(settings_1_is_48, sizeof(pasetone_settings_1), 48);
SAME_AT_COMPILE_TIME(settings_1_refusal_at_40, offsetof(pasetone_settings_1, refusal), 40);
SAME_AT_COMPILE_TIME(settings_2_is_48, sizeof(pasetone_settings_2), 48);
SAME_AT_COMPILE_TIME(settings_2_refusal_at_44, offsetof(pasetone_settings_2, refusal), 44);
SAME_AT_COMPILE_TIME(part_is_32, sizeof(pasetone_part), 32);
SAME_AT_COMPILE_TIME(part_whose_at_24, offsetof(pasetone_part, whose), 24);
SAME_AT_COMPILE_TIME(reply_refusal_at_16, offsetof(pasetone_reply, refusal), 16);
SAME_AT_COMPILE_TIME(reply_count_at_20, offsetof(pasetone_reply, count), 20);
SAME_AT_COMPILE_TIME(tune_reply_count_at_20, offsetof(pasetone_tune_reply, count), 20);
SAME_AT_COMPILE_TIME(tune_reply_tries_at_24, offsetof(pasetone_tune_reply, tries), 24);
SAME_AT_COMPILE_TIME(tune_reply_locked_at_28, offsetof(pasetone_tune_reply, locked), 28);
SAME_AT_COMPILE_TIME(section_refusal_at_16, offsetof(pasetone_section, refusal), 16);
SAME_AT_COMPILE_TIME(tuner_record_ends, PASETONE_TUNER_DOUBTFUL + PASETONE_REGISTER_COUNT, PASETONE_TUNER_SIZE);
SAME_AT_COMPILE_TIME(driver_record_ends, PASETONE_DRIVER_TRUE_RATE + 8, PASETONE_DRIVER_SIZE);
SAME_AT_COMPILE_TIME(tune_room_is_856, PASETONE_TUNE_ROOM, 856);
SAME_AT_COMPILE_TIME(tune_board_room_is_1032, PASETONE_TUNE_BOARD_ROOM, 1032);

static unsigned checks, faults;
static uint8_t tuner[PASETONE_TUNER_SIZE], driver[PASETONE_DRIVER_SIZE];
static uint8_t next[PASETONE_TUNER_SIZE], next_driver[PASETONE_DRIVER_SIZE];
static uint8_t outcomes[PASETONE_TUNE_BOARD_ENTRIES], replies[PASETONE_TUNE_BOARD_REPLIES], room[PASETONE_TUNE_BOARD_ROOM];
static uint8_t v4[PASETONE_V4_TABLE_SIZE];

#define TUNER tuner, sizeof tuner
#define DRIVER driver, sizeof driver
#define NEXT next, sizeof next
#define OUTCOMES outcomes, sizeof outcomes
#define REPLIES replies, sizeof replies
#define ROOM room, sizeof room
#define TABLE v4, sizeof v4

static void same(const char *what, uint64_t is, uint64_t must)
{
    checks++;
    if (is != must) {
        faults++;
        printf("%s: is %llu, must be %llu\n", what, (unsigned long long)is, (unsigned long long)must);
    }
}

static void same_bytes(const char *what, const uint8_t *is, const uint8_t *must, size_t n)
{
    size_t i;
    for (i = 0; i < n && is[i] == must[i]; i++) {
    }
    same(what, i, n);
}

/* A call that is done: its value and how many entries it made. */
static void done(const char *what, pasetone_reply reply, uint64_t value, uint32_t count)
{
    same(what, reply.refusal, PASETONE_DONE);
    same(what, reply.value, value);
    same(what, reply.index, 0);
    same(what, reply.count, count);
}

static void refused(const char *what, pasetone_reply reply, uint32_t number)
{
    same(what, reply.refusal, number);
    same(what, reply.value | reply.index | reply.count, 0);
}

static void looked(const char *what, pasetone_tune_reply reply, uint32_t tries, uint32_t locked)
{
    same(what, reply.tries, tries);
    same(what, reply.locked, locked);
}

static void check_making(void)
{
    uint8_t old[105] = {0};
    same("version", pasetone_version(), PASETONE_VERSION);
    done("fresh tuner", pasetone_tuner_new(PASETONE_R828D, 0x74, 28800000, TUNER), 0, 0);
    same("fresh kind", tuner[PASETONE_TUNER_KIND], PASETONE_R828D);
    same("fresh address", tuner[PASETONE_TUNER_ADDRESS], 0x74);
    same("fresh shadow", tuner[PASETONE_TUNER_SHADOW], 0x83);
    same("fresh doubt", tuner[PASETONE_TUNER_DOUBTFUL + 26], 1);
    same("fresh shadow, last", tuner[PASETONE_TUNER_SHADOW + 26], 0xc0);
    same("fresh doubt, first", tuner[PASETONE_TUNER_DOUBTFUL], 1);
    done("fresh driver", pasetone_driver_new(PASETONE_V4, 28800000, 0, 102300000, 2048000, DRIVER), 0, 0);
    done("IF", pasetone_get_if_freq(TUNER), 2300000, 0);
    done("gain", pasetone_get_gain(TUNER), 0, 0);
    refused("kind 2", pasetone_tuner_new(2, 0x74, 28800000, NEXT), PASETONE_SETUP);
    refused("nominal 0", pasetone_tuner_new(PASETONE_R828D, 0x74, 0, NEXT), PASETONE_SETUP);
    refused("driver, nominal 0", pasetone_driver_new(PASETONE_V4, 0, 0, 0, 0, next_driver, sizeof next_driver), PASETONE_SETUP);
    refused("driver, nominal 2^32", pasetone_driver_new(PASETONE_V4, 4294967296u, 0, 0, 0, next_driver, sizeof next_driver), PASETONE_SETUP);
    refused("driver, nominal 0 and a bad correction", pasetone_driver_new(PASETONE_V4, 0, -1000000, 0, 0, next_driver, sizeof next_driver),
            PASETONE_SETUP);
    refused("short next", pasetone_tuner_new(PASETONE_R828D, 0x74, 28800000, next, 77), PASETONE_ROOM);
    refused("no record", pasetone_get_gain(tuner, 77), PASETONE_SETUP);
    memcpy(old, tuner, sizeof tuner);
    refused("a record as long as before 5.0.0", pasetone_get_gain(old, sizeof old), PASETONE_SETUP);
}

/* Document 01: bandwidth 2,048,000, a fresh R828D at 0x74, all done. */
static void check_bandwidth(void)
{
    static const uint8_t section[56] = {
        1, 0, 0,    1, 0, 0, 0, 0, 1,    0,    0, 0, 0, 0, 0, 0, /* opens */
        2, 0, 0x74, 2, 0, 0, 0, 0, 0x0a, 0xd8, 0, 0, 0, 0, 0, 0, /* register 0x0a */
        1, 0, 0,    1, 0, 0, 0, 0, 0,    0,    0, 0, 0, 0, 0, 0, /* closes */
        3, 0, 0,    0, 0x30, 0, 0, 0,
    };
    pasetone_section read;
    memset(room, 0xa5, sizeof room);
    done("bandwidth", pasetone_set_bandwidth(TUNER, 2048000, OUTCOMES, ROOM, NEXT), 0, 3);
    same_bytes("bandwidth's section", room, section, sizeof section);
    same("past the section", room[56], 0xa5);
    same("bandwidth's doubt", next[PASETONE_TUNER_DOUBTFUL + 5], 0);
    read = pasetone_read_section(room, sizeof section);
    same("reader", read.refusal, PASETONE_DONE);
    same("reader's count", read.count, 3);
    same("reader's start", read.start, 0);
    read = pasetone_read_section(section + 1, sizeof section - 1);
    same("reader, a byte too few", read.refusal, PASETONE_SECTION);
}

static void check_tuning(void)
{
    pasetone_tune_reply reply = pasetone_set_frequency(TUNER, 100000000, OUTCOMES, REPLIES, ROOM, NEXT);
    same("tune", reply.refusal, PASETONE_DONE);
    same("tune's value", reply.value, 100000000);
    same("tune's entries", reply.count, 53);
    looked("no lock", reply, 10, 0);
    same("LO 102,300,000: 0x14", room[16 * 13 + 8] << 8 | room[16 * 13 + 9], 0x14ca);
    same("LO 102,300,000: 0x16", room[16 * 14 + 8] << 8 | room[16 * 14 + 9], 0x16d5);
    same("LO 102,300,000: 0x15", room[16 * 15 + 8] << 8 | room[16 * 15 + 9], 0x1556);
    reply = pasetone_set_frequency(TUNER, 27656250 - 2300000 - 1, OUTCOMES, REPLIES, ROOM, NEXT);
    same("LO 27,656,249", reply.refusal, PASETONE_FREQUENCY);
    same("a PLL refusal's entries", reply.count, 13);
    looked("a PLL refusal", reply, 0, 0);
    reply = pasetone_set_frequency(TUNER, 0, OUTCOMES, REPLIES, ROOM, NEXT);
    same("0 Hz", reply.refusal, PASETONE_FREQUENCY);
    same("0 Hz, entries", reply.count, 0);
    looked("0 Hz", reply, 0, 0);
    outcomes[5] = 1;
    reply = pasetone_set_frequency(TUNER, 100000000, OUTCOMES, REPLIES, ROOM, NEXT);
    outcomes[5] = 0;
    same("a step failed", reply.refusal, PASETONE_STEP);
    same("a step failed: index", reply.index, 5);
    same("a step failed: entries", reply.count, 7);
    same("a step failed: value", reply.value, 0);
    looked("a step failed", reply, 0, 0);
}

/* What a tuning tells of the lock. The third try reads the bit (a status byte has its bits reversed): entries 28 and 29 are that try, 30 is the
 * write behind the lock. The record given has lock, so that a tuning cut before its first try is told apart from it. */
static void check_lock(void)
{
    static const struct {
        uint32_t failing, refusal, tries, locked, lock;
    } runs[] = {
        {99, PASETONE_DONE, 3, 1, 1}, /* no step fails */
        {30, PASETONE_STEP, 3, 1, 1}, /* the write behind the lock: locked all the same */
        {29, PASETONE_STEP, 2, 0, 1}, /* the third read */
        {22, PASETONE_STEP, 0, 0, 1}, /* the first read: the record's lock stays */
    };
    pasetone_tune_reply reply;
    size_t i;
    replies[13] = 0x02;
    for (i = 0; i < sizeof runs / sizeof runs[0]; i++) {
        tuner[PASETONE_TUNER_LOCK] = i > 0;
        if (runs[i].failing < sizeof outcomes) {
            outcomes[runs[i].failing] = 1;
        }
        reply = pasetone_set_frequency(TUNER, 100000000, OUTCOMES, REPLIES, ROOM, NEXT);
        memset(outcomes, 0, sizeof outcomes);
        same("lock: refusal", reply.refusal, runs[i].refusal);
        looked("lock", reply, runs[i].tries, runs[i].locked);
        same("lock: the record's", next[PASETONE_TUNER_LOCK], runs[i].lock);
    }
    memset(replies, 0, sizeof replies);
    tuner[PASETONE_TUNER_LOCK] = 0;
}

/* Whether a next record was written, by the bytes that lay there before. */
static int written(void)
{
    size_t i;
    for (i = 0; i < sizeof next && next[i] == 0xa5; i++) {
    }
    return i < sizeof next;
}

static void stands(const char *what, int told, int must)
{
    same(what, (uint64_t)told, (uint64_t)must);
    same(what, (uint64_t)written(), (uint64_t)must);
    memset(next, 0xa5, sizeof next);
}

/* `pasetone_stands` says whether the next record was written: done, refused before any step, by a step, in the PLL, and done with no step. */
static void check_stands(void)
{
    uint8_t small[PASETONE_TUNER_SIZE];
    memset(next, 0xa5, sizeof next);
    stands("stands: done", pasetone_stands(pasetone_initialize(TUNER, OUTCOMES, ROOM, NEXT)), 1);
    stands("stands: no outcomes", pasetone_stands(pasetone_initialize(TUNER, outcomes, 0, ROOM, NEXT)), 0);
    stands("stands: no record", pasetone_stands(pasetone_initialize(tuner, 0, OUTCOMES, ROOM, NEXT)), 0);
    outcomes[0] = 1;
    stands("stands: opening failed", pasetone_stands(pasetone_initialize(TUNER, OUTCOMES, ROOM, NEXT)), 1);
    stands("stands: tune, opening failed", pasetone_tune_stands(pasetone_set_frequency(TUNER, 100000000, OUTCOMES, REPLIES, ROOM, NEXT)), 1);
    outcomes[0] = 0;
    stands("stands: tune", pasetone_tune_stands(pasetone_set_frequency(TUNER, 100000000, OUTCOMES, REPLIES, ROOM, NEXT)), 1);
    stands("stands: 0 Hz", pasetone_tune_stands(pasetone_set_frequency(TUNER, 0, OUTCOMES, REPLIES, ROOM, NEXT)), 0);
    stands("stands: PLL", pasetone_tune_stands(pasetone_set_frequency(TUNER, 1, OUTCOMES, REPLIES, ROOM, NEXT)), 1);
    done("R820T", pasetone_tuner_new(PASETONE_R820T, 0x34, 28800000, small, sizeof small), 0, 0);
    stands("stands: R820T's path", pasetone_stands(pasetone_set_input_path(small, sizeof small, PASETONE_HF, outcomes, 0, room, 0, NEXT)), 1);
}

#define SHADOW(record, reg) (record)[PASETONE_TUNER_SHADOW + (reg) - PASETONE_FIRST_REGISTER]

/* Document 02, change request 106: what was sent is in the shadow, whether it was done or not, and nothing else is. */
static void check_shadow(void)
{
    static uint8_t used[PASETONE_TUNER_SIZE];
    pasetone_tune_reply reply = pasetone_set_frequency(TUNER, 100000000, OUTCOMES, REPLIES, ROOM, used, sizeof used);
    same("tuned, for the shadow", reply.refusal, PASETONE_DONE);
    same("shadow of 0x14, 0x16, 0x15", SHADOW(used, 0x14) << 16 | SHADOW(used, 0x16) << 8 | SHADOW(used, 0x15), 0xcad556);
    done("gain, for the shadow", pasetone_set_gain_by_index(used, sizeof used, 28, OUTCOMES, ROOM, NEXT), 0x42466666, 7);
    memcpy(used, next, sizeof used);
    same("shadow of 0x05, 0x0c, 0x1a", SHADOW(used, 0x05) << 16 | SHADOW(used, 0x0c) << 8 | SHADOW(used, 0x1a), 0x9fff22);
    done("reload of it", pasetone_reload(used, sizeof used, OUTCOMES, ROOM, NEXT), 0, 9);
    same_bytes("reload sends the shadow", room + 16 * 1 + 9, used + PASETONE_TUNER_SHADOW, 7);
    same_bytes("reload leaves the shadow", next + PASETONE_TUNER_SHADOW, used + PASETONE_TUNER_SHADOW, PASETONE_REGISTER_COUNT);
    outcomes[0] = 1;
    same("opening failed", pasetone_initialize(used, sizeof used, OUTCOMES, ROOM, NEXT).refusal, PASETONE_STEP);
    same_bytes("opening failed: nothing was tried", next, used, sizeof used);
    outcomes[0] = 0;
    outcomes[1] = 1;
    same("first chunk failed", pasetone_initialize(used, sizeof used, OUTCOMES, ROOM, NEXT).refusal, PASETONE_STEP);
    outcomes[1] = 0;
    same("first chunk: tried", SHADOW(next, 0x05) << 8 | SHADOW(next, 0x0b), 0x836c);
    same_bytes("the others: not tried", &SHADOW(next, 0x0c), &SHADOW(used, 0x0c), 0x1f - 0x0c + 1);
    done("a second initialise", pasetone_initialize(used, sizeof used, OUTCOMES, ROOM, NEXT), 0, 19);
    same("it stands on its own bytes", room[16 * 10 + 8] << 8 | room[16 * 10 + 9], 0x1a60);
    same("shadow of 0x05, 0x0c, 0x14", SHADOW(next, 0x05) << 16 | SHADOW(next, 0x0c) << 8 | SHADOW(next, 0x14), 0x83f00f);
}

static void check_tuner(void)
{
    uint8_t table[PASETONE_GAIN_TABLE_SIZE];
    done("initialise", pasetone_initialize(TUNER, OUTCOMES, ROOM, NEXT), 0, 19);
    done("gain 3.2 dB", pasetone_set_gain(TUNER, 3.2f, OUTCOMES, ROOM, NEXT), 0x402ccccd, 7);
    /* Whole tenths first: 0.46 is 4, nearer to 0 than to 9; 3.25 is 32, in the middle of 27 and 37. */
    done("gain 0.46 dB", pasetone_set_gain(TUNER, 0.46f, OUTCOMES, ROOM, NEXT), 0, 7);
    done("gain 3.25 dB", pasetone_set_gain(TUNER, 3.25f, OUTCOMES, ROOM, NEXT), 0x402ccccd, 7);
    done("gain by index", pasetone_set_gain_by_index(TUNER, 99, OUTCOMES, ROOM, NEXT), 0x42466666, 7);
    done("IF", pasetone_set_if_freq(TUNER, 3570000, OUTCOMES, ROOM, NEXT), 0, 4);
    done("IF set", pasetone_get_if_freq(NEXT), 3570000, 0);
    done("input path", pasetone_set_input_path(TUNER, PASETONE_UHF, OUTCOMES, ROOM, NEXT), 0, 4);
    refused("path 3", pasetone_set_input_path(TUNER, 3, OUTCOMES, ROOM, NEXT), PASETONE_SETUP);
    refused("path 256", pasetone_set_input_path(TUNER, 256, OUTCOMES, ROOM, NEXT), PASETONE_SETUP);
    done("reload", pasetone_reload(TUNER, OUTCOMES, ROOM, NEXT), 0, 9);
    same("reload's doubt", next[PASETONE_TUNER_DOUBTFUL], 0);
    done("gain table", pasetone_get_gain_table(TUNER, table, sizeof table), 0, 0);
    same("gain 28", table[112] | table[113] << 8, 496);
    memcpy(next, tuner, sizeof next);
    done("notch", pasetone_apply_notch(NEXT, 2), 0, 0);
    same("notch", next[PASETONE_TUNER_NOTCH], 1);
}

/* Document 02, #109: both records or neither; 1 before 4. */
static void check_correction(void)
{
    uint8_t kept[PASETONE_TUNER_SIZE], kept_driver[PASETONE_DRIVER_SIZE];
    memcpy(next, tuner, sizeof next);
    memcpy(next_driver, driver, sizeof next_driver);
    done("ppm -1", pasetone_set_ppm(NEXT, next_driver, sizeof next_driver, -1), 0, 0);
    same("the tuner's 28,799,972", next[33] | next[34] << 8 | next[35] << 16 | (uint32_t)next[36] << 24, 28799972);
    done("the driver's reference", pasetone_corrected_xtal_hz(next_driver, sizeof next_driver), 28799972, 0);
    memcpy(kept, next, sizeof kept);
    memcpy(kept_driver, next_driver, sizeof kept_driver);
    refused("ppm -1,000,000", pasetone_set_ppm(NEXT, next_driver, sizeof next_driver, -1000000), PASETONE_CORRECTION);
    next[PASETONE_TUNER_NOMINAL + 3] = kept[PASETONE_TUNER_NOMINAL + 3] = 0x7f; /* 2,142,729,216 Hz: its corrected one is past 32 bits */
    refused("ppm 1,100,000 for the tuner's alone", pasetone_set_ppm(NEXT, next_driver, sizeof next_driver, 1100000), PASETONE_CORRECTION);
    refused("a short driver record", pasetone_set_ppm(NEXT, next_driver, sizeof next_driver - 1, -1000000), PASETONE_SETUP);
    refused("a short tuner record", pasetone_set_ppm(next, sizeof next - 1, next_driver, sizeof next_driver, -1000000), PASETONE_SETUP);
    same_bytes("the refused tuner record", next, kept, sizeof kept);
    same_bytes("the refused driver record", next_driver, kept_driver, sizeof kept_driver);
}

/* Where the oscillator stands, by registers that are set here by hand, and the middle of a recording. 7 MHz on a V4: m 64, N 42, S 21,846; 28.8 MHz are taken back. */
static void check_standing(void)
{
    static const uint8_t five[5][2] = {{0x10, 0xa0}, {0x12, 0x00}, {0x14, 0x47}, {0x15, 0x56}, {0x16, 0x55}}; /* 42 is 13 + 4 * 7 + 1 */
    static const uint8_t none[1] = {0};
    uint8_t at[PASETONE_TUNER_SIZE], of[PASETONE_DRIVER_SIZE];
    unsigned i;
    refused("a fresh record stands nowhere", pasetone_oscillator(TUNER), PASETONE_DOUBTFUL);
    memcpy(at, tuner, sizeof at);
    for (i = 0; i < 5; i++) {
        at[PASETONE_TUNER_SHADOW + five[i][0] - PASETONE_FIRST_REGISTER] = five[i][1];
        refused("doubt until the fifth", pasetone_oscillator(at, sizeof at), PASETONE_DOUBTFUL);
        at[PASETONE_TUNER_DOUBTFUL + five[i][0] - PASETONE_FIRST_REGISTER] = 0;
    }
    done("38.1 MHz", pasetone_oscillator(at, sizeof at), 38100009, 0);
    refused("a short record", pasetone_oscillator(at, sizeof at - 1), PASETONE_SETUP);
    done("a driver at 7 MHz", pasetone_driver_new(PASETONE_V4, 28800000, 0, 7000000, 0, of, sizeof of), 0, 0);
    done("its centre", pasetone_centre(of, sizeof of, at, sizeof at, TABLE), 7000009, 0);
    done("at 102.3 MHz nothing is taken back", pasetone_centre(DRIVER, at, sizeof at, TABLE), 35800009, 0);
    at[PASETONE_TUNER_SHADOW + 0x12 - PASETONE_FIRST_REGISTER] = 0x08;
    done("the fraction off", pasetone_oscillator(at, sizeof at), 37800000, 0);
    at[PASETONE_TUNER_SHADOW + 0x10 - PASETONE_FIRST_REGISTER] = 0xe0;
    done("m 256", pasetone_oscillator(at, sizeof at), 9450000, 0);
    refused("a centre below 0", pasetone_centre(of, sizeof of, at, sizeof at, TABLE), PASETONE_FREQUENCY);
    refused("no band", pasetone_centre(of, sizeof of, at, sizeof at, none, 0), PASETONE_FREQUENCY);
    at[PASETONE_TUNER_DOUBTFUL + 0x15 - PASETONE_FIRST_REGISTER] = 1;
    refused("doubt before that", pasetone_centre(of, sizeof of, at, sizeof at, none, 0), PASETONE_DOUBTFUL);
    refused("the table before doubt", pasetone_centre(of, sizeof of, at, sizeof at, none, 1), PASETONE_TABLE);
    refused("the tuner's record before the table", pasetone_centre(of, sizeof of, at, sizeof at - 1, none, 1), PASETONE_SETUP);
    refused("and the driver's", pasetone_centre(of, sizeof of - 1, at, sizeof at, none, 1), PASETONE_SETUP);
    same("its word", strcmp(pasetone_refusal_word(PASETONE_DOUBTFUL), "doubtful") == 0 && strcmp(pasetone_refusal_word(21), "unknown") == 0, 1);
}

/* The board's tuning: its longest run, its records, and which refusal stands first. */
static void check_board_tune(void)
{
    static const uint8_t none[1] = {0};
    pasetone_tune_reply reply = pasetone_tune_board(DRIVER, TUNER, TABLE, 7000000, OUTCOMES, REPLIES, ROOM, next_driver, sizeof next_driver, NEXT);
    same("board tune", reply.refusal, PASETONE_DONE);
    same("its value", reply.value, 7000000);
    same("its entries", reply.count, PASETONE_TUNE_BOARD_ENTRIES);
    same("its tries", reply.tries, 10);
    same("its last entry's register", room[16 * 63 + 4], 0x15);
    same("its spectrum", room[16 * 63 + 8], 0x05);
    same("its frequency", next_driver[PASETONE_DRIVER_FREQUENCY] | next_driver[PASETONE_DRIVER_FREQUENCY + 1] << 8, 7000000 & 0xffff);
    reply = pasetone_tune_board(DRIVER, TUNER, TABLE, 1900000000, OUTCOMES, REPLIES, ROOM, next_driver, sizeof next_driver, NEXT);
    same("refused in the PLL", reply.refusal, PASETONE_FREQUENCY);
    same("its entries", reply.count, 23);
    same_bytes("the driver's record", next_driver, driver, sizeof driver);
    reply = pasetone_tune_board(driver, 28, TUNER, none, 1, 0, outcomes, 0, replies, 0, room, 0, next_driver, 0, next, 0);
    same("a record first", reply.refusal, PASETONE_SETUP);
    reply = pasetone_tune_board(DRIVER, TUNER, none, 1, 0, outcomes, 0, replies, 0, room, 0, next_driver, 0, next, 0);
    same("then the table", reply.refusal, PASETONE_TABLE);
    reply = pasetone_tune_board(DRIVER, TUNER, none, 0, 7000000, outcomes, 0, replies, 0, room, 0, next_driver, 0, next, 0);
    same("then the frequency", reply.refusal, PASETONE_FREQUENCY);
    reply = pasetone_tune_board(DRIVER, TUNER, TABLE, 7000000, OUTCOMES, REPLIES, ROOM, next_driver, 28, NEXT);
    same("then the slice for the driver", reply.refusal, PASETONE_ROOM);
    reply = pasetone_tune_board(DRIVER, TUNER, TABLE, 7000000, OUTCOMES, REPLIES, ROOM, next_driver, sizeof next_driver, next, 77);
    same("that for the tuner", reply.refusal, PASETONE_ROOM);
    reply = pasetone_tune_board(DRIVER, TUNER, TABLE, 7000000, outcomes, 0, REPLIES, room, 1031, next_driver, sizeof next_driver, NEXT);
    same("the room", reply.refusal, PASETONE_ROOM);
    reply = pasetone_tune_board(DRIVER, TUNER, TABLE, 7000000, outcomes, 63, replies, 0, ROOM, next_driver, sizeof next_driver, NEXT);
    same("outcomes", reply.refusal, PASETONE_OUTCOMES);
    reply = pasetone_tune_board(DRIVER, TUNER, TABLE, 7000000, OUTCOMES, replies, 37, ROOM, next_driver, sizeof next_driver, NEXT);
    same("replies", reply.refusal, PASETONE_REPLIES);
}

static void check_driver(void)
{
    done("V4's table", pasetone_board_table(PASETONE_V4, TABLE), sizeof v4, 0);
    check_board_tune();
    check_standing();
    refused("rate 0, no table", pasetone_set_sample_rate(DRIVER, TUNER, v4, 1, 0, OUTCOMES, ROOM, next_driver, 0, NEXT), PASETONE_TABLE);
    done("sample rate", pasetone_set_sample_rate(DRIVER, TUNER, TABLE, 3200000, OUTCOMES, ROOM, next_driver, sizeof next_driver, NEXT), 0, 17);
    done("its IF", pasetone_get_if_freq(NEXT), 3570000, 0);
    same("its rate", next_driver[PASETONE_DRIVER_RATE] | next_driver[PASETONE_DRIVER_RATE + 1] << 8, 3200000 & 0xffff);
    done("rate 5,497,289", pasetone_set_sample_rate(DRIVER, TUNER, TABLE, 5497289, OUTCOMES, ROOM, next_driver, sizeof next_driver, NEXT), 0, 17);
    same("its true rate", next_driver[PASETONE_DRIVER_TRUE_RATE] | next_driver[PASETONE_DRIVER_TRUE_RATE + 1] << 8, 5497290 & 0xffff);
    refused("rate 0", pasetone_set_sample_rate(DRIVER, TUNER, TABLE, 0, OUTCOMES, ROOM, next_driver, sizeof next_driver, NEXT), PASETONE_RATE);
    refused("rate 300,001, a short slice", pasetone_set_sample_rate(DRIVER, TUNER, TABLE, 300001, OUTCOMES, ROOM, next_driver, 0, NEXT), PASETONE_RATIO);
    done("board path", pasetone_apply_input_path(TUNER, PASETONE_VHF, OUTCOMES, REPLIES, ROOM, NEXT), 0, 10);
    refused("board path 257", pasetone_apply_input_path(TUNER, 257, OUTCOMES, REPLIES, ROOM, NEXT), PASETONE_SETUP);
    refused("board path, room", pasetone_apply_input_path(TUNER, 0, OUTCOMES, REPLIES, room, 167, NEXT), PASETONE_ROOM);
    refused("board path, outcomes", pasetone_apply_input_path(TUNER, 0, outcomes, 9, REPLIES, ROOM, NEXT), PASETONE_OUTCOMES);
    refused("board path, replies", pasetone_apply_input_path(TUNER, 0, OUTCOMES, replies, 2, ROOM, NEXT), PASETONE_REPLIES);
}

static void check_demod(void)
{
    done("baseband", pasetone_init_baseband(OUTCOMES, ROOM), 0, 45);
    same("FIR's first byte", room[16 * 16 + 8], 0xca);
    same("FIR's last byte", room[16 * 35 + 8], 0xa5);
    done("power on", pasetone_power_on(OUTCOMES, ROOM), 0, 45);
    done("reset", pasetone_reset_demod(OUTCOMES, ROOM), 0, 2);
    done("low IF", pasetone_set_tuner_low_if(OUTCOMES, ROOM), 0, 2);
    done("zero IF", pasetone_set_tuner_zero_if(OUTCOMES, ROOM), 0, 2);
    done("start", pasetone_start_streaming(OUTCOMES, ROOM), 0, 2);
    done("stop", pasetone_stop_streaming(OUTCOMES, ROOM), 0, 2);
    done("direct", pasetone_write_reg_direct(1, 0x1234, 0x56, OUTCOMES, ROOM), 0, 1);
    same("direct's entry", room[2] << 24 | room[4] << 16 | room[5] << 8 | room[8], 0x01341256);
    done("IF by reference", pasetone_set_if_freq_xtal(3570000, 28800000, OUTCOMES, ROOM), 0, 3);
    same("38 11 12", room[8] << 16 | room[24] << 8 | room[40], 0x381112);
    refused("reference 0", pasetone_set_if_freq_xtal(1, 0, OUTCOMES, ROOM), PASETONE_CORRECTION);
    done("rate by reference", pasetone_set_sample_rate_xtal(2048000, 28800000, OUTCOMES, ROOM), 0, 4);
    same("0x03840000", (uint32_t)room[8] << 24 | room[9] << 16 | room[24] << 8 | room[25], 0x03840000);
    refused("rate 225,000", pasetone_set_sample_rate_xtal(225000, 28800000, OUTCOMES, ROOM), PASETONE_RATIO);
    done("rate 225,001", pasetone_set_sample_rate_xtal(225001, 28800000, OUTCOMES, ROOM), 0, 4);
    same("0x1ffff6ac", (uint32_t)room[8] << 24 | room[9] << 16 | room[24] << 8 | room[25], 0x1ffff6ac);
    refused("rate 900,000, no room", pasetone_set_sample_rate_xtal(900000, 28800000, OUTCOMES, room, 0), PASETONE_RATIO);
    refused("rate 0, reference 0", pasetone_set_sample_rate_xtal(0, 0, OUTCOMES, ROOM), PASETONE_RATE);
    done("GPIO output", pasetone_set_gpio_output(5, OUTCOMES, REPLIES, ROOM), 0, 4);
    done("GPIO bit", pasetone_set_gpio_bit(7, 1, OUTCOMES, REPLIES, ROOM), 0, 2);
    refused("GPIO 8", pasetone_set_gpio_bit(8, 1, OUTCOMES, REPLIES, ROOM), PASETONE_PIN);
}

/* Document 02's worked packet both ways, and each refusal. */
static void check_packets(void)
{
    static const uint8_t packets[17] = {0x40, 0, 0x20, 0x15, 0x11, 0, 1, 0, 0x05, 0xc0, 0, 0x20, 0x01, 0x0a, 0, 1, 0};
    uint8_t outcome = 0, section[PASETONE_ROOM_FOR(1)], back[PASETONE_PACKETS_BACK(17)], out[PASETONE_PACKETS_FOR(1)];
    pasetone_reply r = pasetone_write_reg_direct(1, 0x15, 0x05, &outcome, 1, section, sizeof section);
    same("a write for packets", r.refusal, 0);
    r = pasetone_expand(section, sizeof section, out, sizeof out);
    same("packets, refusal", r.refusal, 0);
    same("packets, length", r.value, 17);
    same("packets", memcmp(out, packets, 17), 0);
    r = pasetone_read_packets(packets, 17, back, sizeof back);
    same("packets back, length", r.value, sizeof section);
    same("packets back", memcmp(back, section, sizeof section), 0);
    same("packets, room", pasetone_expand(section, sizeof section, out, 16).refusal, PASETONE_ROOM);
    same("packets of no section", pasetone_expand(section, 23, out, sizeof out).refusal, PASETONE_SECTION);
    same("a stray read", pasetone_read_packets(packets + 9, 8, back, sizeof back).refusal, PASETONE_EXPANSION);
    section[2] = 16;
    same("page 16", pasetone_expand(section, sizeof section, out, sizeof out).refusal, PASETONE_EXPANSION);
}

/* The list of a bandwidth call, of one whose write failed, and of no bytes; each refusal. */
static void check_restore(void)
{
    static const uint8_t none[8] = {0};
    uint8_t fresh[PASETONE_TUNER_SIZE], day[2 * PASETONE_BANDWIDTH_ROOM], list[PASETONE_RESTORE_ROOM], outcomes[3] = {0};
    pasetone_reply r = pasetone_tuner_new(PASETONE_R828D, 0x74, 28800000, fresh, sizeof fresh);
    same("a tuner for a list", r.refusal, 0);
    r = pasetone_set_bandwidth(fresh, sizeof fresh, 2048000, outcomes, 3, day, PASETONE_BANDWIDTH_ROOM, next, sizeof next);
    same("a call for a list", r.refusal, 0);
    r = pasetone_restore(day, PASETONE_BANDWIDTH_ROOM, 0x74, list, sizeof list);
    same("a list, refusal", r.refusal, 0);
    same("a list, length", r.value, 24);
    same("a list is the call's write", memcmp(list, day + 16, 16), 0);
    same("a list is a section", pasetone_read_section(list, 24).count, 1);
    same("a list, room", pasetone_restore(day, PASETONE_BANDWIDTH_ROOM, 0x74, list, 23).refusal, PASETONE_ROOM);
    same("the list of another chip", pasetone_restore(day, PASETONE_BANDWIDTH_ROOM, 0x34, list, sizeof list).value, 8);
    outcomes[1] = 1;
    r = pasetone_set_bandwidth(fresh, sizeof fresh, 2048000, outcomes, 3, day + PASETONE_BANDWIDTH_ROOM, PASETONE_BANDWIDTH_ROOM, next, sizeof next);
    same("a failed call for a list", r.refusal, PASETONE_STEP);
    r = pasetone_restore(day, sizeof day, 0x74, list, sizeof list);
    same("a doubtful register is in no list", r.value, 8);
    same("no writes", memcmp(list, none, 8), 0);
    same("no bytes", pasetone_restore(day, 0, 0x74, list, sizeof list).value, 8);
    same("bytes before the sections", pasetone_restore(day + 1, sizeof day - 1, 0x74, list, sizeof list).refusal, PASETONE_SECTION);
}

/* A tuning to 102.3 MHz, then a rate's IF: each mark, the centre, and each refusal. */
static void check_evidence(void)
{
    uint8_t fresh[PASETONE_TUNER_SIZE], night[PASETONE_TUNE_ROOM], out[PASETONE_EVIDENCE_SIZE + 1], outcomes[64] = {0}, replies[64];
    pasetone_tune_reply tuned;
    uint64_t length;
    memset(replies, 0xff, sizeof replies);
    memset(out, 0xa5, sizeof out);
    same("a tuner for evidence", pasetone_tuner_new(PASETONE_R828D, 0x74, 28800000, fresh, sizeof fresh).refusal, 0);
    tuned = pasetone_set_frequency(fresh, sizeof fresh, 102300000, outcomes, sizeof outcomes, replies, sizeof replies, night, sizeof night, next, sizeof next);
    same("a tuning for evidence", tuned.refusal, 0);
    length = 16 * tuned.count + 8;
    done("evidence", pasetone_evidence(night, length, 0x74, 28800000, 28800000, out, sizeof out), 0, 0);
    same("marks of a tuning", out[0] << 20 | out[1] << 16 | out[2] << 12 | out[3] << 8 | out[4] << 4 | out[5], 0x200021);
    same("its tries", out[8], 1);
    same("its centre is not sure", out[44] | out[45] | out[46] | out[47], 0);
    same("a byte past the answer", out[PASETONE_EVIDENCE_SIZE], 0xa5);
    same("no tuner's reference", pasetone_evidence(night, length, 0x74, 0, 1, out, sizeof out).refusal, PASETONE_CORRECTION);
    same("no driver's reference", pasetone_evidence(night, length, 0x74, 1, 0, out, sizeof out).refusal, PASETONE_CORRECTION);
    same("no section", pasetone_evidence(night + 1, length - 1, 0x74, 1, 1, out, sizeof out).refusal, PASETONE_SECTION);
    same("evidence, room", pasetone_evidence(night, length, 0x74, 1, 1, out, PASETONE_EVIDENCE_SIZE - 1).refusal, PASETONE_ROOM);
    done("of another chip", pasetone_evidence(night, length, 0x34, 1, 1, out, PASETONE_EVIDENCE_SIZE), 0, 0);
    same("nothing is told of it", out[0] | out[4], 0);
}

/* Both built-in tables, the plan by one, and each refusal. */
static void check_tables(void)
{
    uint8_t table[PASETONE_TABLE_FOR(PASETONE_TABLE_BANDS)], out[PASETONE_PLAN_SIZE];
    done("the V4's table", pasetone_board_table(PASETONE_V4, table, PASETONE_V4_TABLE_SIZE), PASETONE_V4_TABLE_SIZE, 0);
    done("by it, 28,799,999", pasetone_plan_by_table(table, PASETONE_V4_TABLE_SIZE, 28799999, out, 3), 57599999, 0);
    same("inverted, HF, no notch", out[0] << 16 | out[1] << 8 | out[2], 0x010000);
    done("by it, 85,000,000", pasetone_plan_by_table(table, PASETONE_V4_TABLE_SIZE, 85000000, out, 3), 85000000, 0);
    same("VHF, notch", out[0] << 16 | out[1] << 8 | out[2], 0x000101);
    refused("a cut table", pasetone_plan_by_table(table, PASETONE_V4_TABLE_SIZE - 1, 1, out, 3), PASETONE_TABLE);
    refused("in no band", pasetone_plan_by_table(table + PASETONE_BAND_SIZE, PASETONE_BAND_SIZE, 1, out, 3), PASETONE_FREQUENCY);
    refused("no bands", pasetone_plan_by_table(table, 0, 1, out, 3), PASETONE_FREQUENCY);
    refused("a plan's room", pasetone_plan_by_table(table, PASETONE_V4_TABLE_SIZE, 1, out, 2), PASETONE_ROOM);
    memset(table + PASETONE_BAND_SHIFT, 0xff, 8);
    done("shifted by -1", pasetone_plan_by_table(table, PASETONE_BAND_SIZE, 1, out, 3), 0, 0);
    refused("shifted below 0", pasetone_plan_by_table(table, PASETONE_BAND_SIZE, 0, out, 3), PASETONE_FREQUENCY);
    table[PASETONE_BAND_PATH] = 4;
    refused("path 4", pasetone_plan_by_table(table, PASETONE_BAND_SIZE, 1, out, 3), PASETONE_TABLE);
    done("the generic table", pasetone_board_table(PASETONE_GENERIC, table, sizeof table), PASETONE_GENERIC_TABLE_SIZE, 0);
    refused("a table's room", pasetone_board_table(PASETONE_GENERIC, table, 26), PASETONE_ROOM);
    refused("the table of board 2", pasetone_board_table(2, table, sizeof table), PASETONE_SETUP);
}

/* Both engines, at document 01's worked numbers and at the least N. */
static void check_pll(void)
{
    static const uint8_t broadcast[PASETONE_PLL_SIZE] = {32, 56, 0xca, 0x56, 0xd5};
    pasetone_reply (*const engines[2])(uint64_t, uint64_t, uint32_t, uint8_t *, size_t) = {pasetone_plan_pll, pasetone_plan_pll_by_worksheet};
    uint8_t out[PASETONE_PLL_SIZE];
    int i;
    for (i = 0; i < 2; i++) {
        done("lo 102,300,000", engines[i](PASETONE_R828D, 102300000, 28800000, out, sizeof out), 1, 0);
        same_bytes("its numbers", out, broadcast, sizeof out);
        refused("kind 2", engines[i](2, 0, 0, out, 0), PASETONE_SETUP);
        refused("reference 0", engines[i](PASETONE_R820T, 0, 0, out, 0), PASETONE_CORRECTION);
        refused("N 12", engines[i](PASETONE_R820T, 885000000, 68076924, out, 0), PASETONE_FREQUENCY);
        refused("four bytes", engines[i](PASETONE_R820T, 885000000, 68076923, out, 4), PASETONE_ROOM);
        same_bytes("as it was", out, broadcast, sizeof out);
    }
}

static void check_numbers(void)
{
    static const uint8_t if_regs[] = {0x07, 0xee, 0xee}, resample[] = {0x03, 0x84, 0, 0};
    uint8_t out[4];
    check_pll();
    check_packets();
    check_restore();
    check_evidence();
    check_tables();
    done("V4, 28,799,999", pasetone_plan_tuning(PASETONE_V4, 28799999, out, 3), 57599999, 0);
    same("inverted, HF, no notch", out[0] << 16 | out[1] << 8 | out[2], 0x010000);
    done("V4, 28,800,000", pasetone_plan_tuning(PASETONE_V4, 28800000, out, 3), 28800000, 0);
    done("V4, 112,000,000", pasetone_plan_tuning(PASETONE_V4, 112000000, out, 3), 112000000, 0);
    same("VHF, notch", out[0] << 16 | out[1] << 8 | out[2], 0x000101);
    done("V4, 112,000,001", pasetone_plan_tuning(PASETONE_V4, 112000001, out, 3), 112000001, 0);
    same("VHF, no notch", out[0] << 16 | out[1] << 8 | out[2], 0x000100);
    done("generic", pasetone_plan_tuning(PASETONE_GENERIC, 1, out, 3), 1, 0);
    same("no path", out[1], PASETONE_NO_PATH);
    refused("board 2", pasetone_plan_tuning(2, 1, out, 3), PASETONE_SETUP);
    refused("board 257", pasetone_plan_tuning(257, 1, out, 3), PASETONE_SETUP);
    done("IF's bytes", pasetone_if_freq_regs(3570000, 28800000, out, 3), 0, 0);
    same_bytes("07 ee ee", out, if_regs, 3);
    done("rate's bytes", pasetone_resample_regs(2048000, 28800000, out, 4), 0, 0);
    same_bytes("03 84 00 00", out, resample, 4);
}

static void check_fir(void)
{
    static const int values[16] = {-54, -36, -41, -40, -32, -14, 14, 53, 101, 156, 215, 273, 327, 372, 404, 421};
    static const uint8_t packed[PASETONE_FIR_SIZE] = {0xca, 0xdc, 0xd7, 0xd8, 0xe0, 0xf2, 0x0e, 0x35, 0x06, 0x50,
                                                      0x9c, 0x0d, 0x71, 0x11, 0x14, 0x71, 0x74, 0x19, 0x41, 0xa5};
    uint8_t given[PASETONE_FIR_VALUES_SIZE], back[PASETONE_FIR_VALUES_SIZE], out[PASETONE_FIR_SIZE];
    int i;
    for (i = 0; i < 64; i++) {
        given[i] = (uint8_t)((uint32_t)values[i / 4] >> 8 * (i % 4));
    }
    done("FIR", pasetone_pack_fir(given, sizeof given, out, sizeof out), 0, 0);
    same_bytes("FIR's bytes", out, packed, sizeof packed);
    done("FIR back", pasetone_unpack_fir(packed, sizeof packed, back, sizeof back), 0, 0);
    same_bytes("FIR's values", back, given, sizeof given);
    given[1] = 0;
    refused("FIR, 202 in 8 bits", pasetone_pack_fir(given, sizeof given, out, sizeof out), PASETONE_COEFFICIENT);
    refused("FIR, 19 bytes", pasetone_unpack_fir(packed, 19, back, sizeof back), PASETONE_COEFFICIENT);
}

/* Two nights that part at their second entry: a bandwidth of 2,048,000 and one of 6,500,000. */
static void check_parting(void)
{
    uint8_t other[PASETONE_BANDWIDTH_ROOM];
    pasetone_part part;
    done("last night", pasetone_set_bandwidth(TUNER, 2048000, OUTCOMES, ROOM, NEXT), 0, 3);
    done("tonight", pasetone_set_bandwidth(TUNER, 6500000, OUTCOMES, other, sizeof other, NEXT), 0, 3);
    part = pasetone_parting(room, sizeof other, other, sizeof other);
    same("they part", part.whose << 24 | part.start << 16 | part.count << 8 | part.index, 2u << 24 | 16 << 16 | 2 << 8 | 1);
    same("not refused", part.refusal, 0);
    other[17] = 1;
    other[25] = room[25];
    part = pasetone_parting(room, sizeof other, other, sizeof other);
    same("an outcome is no difference", part.whose << 24 | part.start << 16 | part.count << 8 | part.index, 2u << 24 | 48 << 16 | 3);
    part = pasetone_parting(other, 7, room, sizeof other);
    same("seven bytes", part.refusal, PASETONE_SECTION);
    same("nobody's", part.start | part.count | part.index | part.whose, 0);
}

/* Settings of edition 1: an image byte for byte, read back behind other bytes, and what is refused. */
static void check_settings_1(void)
{
    static const uint8_t image[PASETONE_SETTINGS_1_SIZE] = {1,    1,    0xfd, 0xff, 0xff, 0xff, 0,  0x40, 0x1f, 0,  0, 0xe1,
                                                            0xf5, 0x05, 0,    0,    0,    0,    28, 1,    0,    19, 0};
    uint8_t file[PASETONE_SETTINGS_1_SIZE + 8] = {7, 7, 7, 7, 7, 7, 7, 7};
    pasetone_settings_1 read;
    done("settings", pasetone_write_settings_1(PASETONE_R828D, PASETONE_V4, -3, 2048000, 100000000, 28, file + 3, 26), 23, 0);
    same_bytes("their image", file + 3, image, sizeof image);
    read = pasetone_read_settings_1(file, 26);
    same("read", read.refusal, 0);
    same("kind, board, gain", read.kind << 16 | read.board << 8 | read.gain, 0x01011c);
    same("correction", (uint64_t)(int64_t)read.correction, (uint64_t)-3);
    same("rate", read.rate, 2048000);
    same("frequency", read.frequency, 100000000);
    refused("gain 29", pasetone_write_settings_1(0, 0, 0, 0, 0, 29, file, 23), PASETONE_SETTINGS);
    refused("kind 2", pasetone_write_settings_1(2, 0, 0, 0, 0, 0, file, 0), PASETONE_SETTINGS);
    refused("22 bytes", pasetone_write_settings_1(0, 0, 0, 0, 0, 0, file, 22), PASETONE_ROOM);
    same_bytes("as it was", file + 3, image, sizeof image);
    file[3 + 19] = 2;
    file[3] = 9;
    same("edition 2, before its kind", pasetone_read_settings_1(file, 26).refusal, PASETONE_EDITION);
    same("three bytes", pasetone_read_settings_1(file + 23, 3).refusal, PASETONE_SETTINGS);
    file[3 + 19] = 1;
    same("kind 9", pasetone_read_settings_1(file, 26).refusal, PASETONE_SETTINGS);
}

/* Edition 2, there and back, and an IF that edition 1 cannot say. */
static void check_settings_2(void)
{
    static const uint8_t last[] = {0x60, 0x18, 0x23, 0, 2, 0, 23, 0};
    static const uint8_t other[] = {0x90, 0xbb, 0x45, 0, 2, 0, 23, 0};
    uint8_t one[PASETONE_SETTINGS_1_SIZE], two[PASETONE_SETTINGS_2_SIZE], back[PASETONE_SETTINGS_1_SIZE];
    pasetone_settings_2 read;
    done("edition 1", pasetone_write_settings_1(PASETONE_R820T, PASETONE_V4, -3, 2048000, 100000000, 28, one, sizeof one), 23, 0);
    done("moved", pasetone_move_settings_1_to_2(one, sizeof one, two, sizeof two), 27, 0);
    same_bytes("the fields stay", two, one, 19);
    same_bytes("IF 2,300,000 and the trailer", two + 19, last, sizeof last);
    done("moved back", pasetone_move_settings_2_to_1(two, sizeof two, back, sizeof back), 23, 0);
    same_bytes("the same bytes", back, one, sizeof one);
    same("edition 1 to edition 2", pasetone_read_settings_1(two, sizeof two).refusal, PASETONE_EDITION);
    read = pasetone_read_settings_2(one, sizeof one);
    same("the new reader and edition 1", read.refusal, 0);
    same("its IF", read.intermediate, 2300000);
    done("another IF", pasetone_write_settings_2(PASETONE_R820T, PASETONE_V4, -3, 2048000, 100000000, 28, 4570000, two, sizeof two), 27, 0);
    same_bytes("its fields", two, one, 19);
    same_bytes("IF 4,570,000 and the trailer", two + 19, other, sizeof other);
    same("read", pasetone_read_settings_2(two, sizeof two).intermediate, 4570000);
    refused("it", pasetone_move_settings_2_to_1(two, sizeof two, back, 0), PASETONE_NOT_EXPRESSIBLE);
    refused("edition 2", pasetone_move_settings_1_to_2(two, sizeof two, back, 0), PASETONE_EDITION);
    refused("edition 1", pasetone_move_settings_2_to_1(one, sizeof one, back, 0), PASETONE_EDITION);
    refused("26 bytes", pasetone_move_settings_1_to_2(one, sizeof one, two, 26), PASETONE_ROOM);
    same_bytes("as it was", back, one, sizeof one);
}

static uint8_t stream[PASETONE_STREAM_SIZE];

static pasetone_feed_reply fed(const uint8_t *chunk, size_t n)
{
    return pasetone_feed(stream, sizeof stream, DRIVER, TUNER, TABLE, chunk, n, OUTCOMES, REPLIES, ROOM);
}

/* Of one feeding: its refusal, entries, bytes used, whether a command was completed, bytes pending. */
static void answered(const char *what, pasetone_feed_reply reply, uint32_t refusal, uint32_t count, uint64_t used, uint32_t completed, uint32_t pending)
{
    same(what, reply.refusal, refusal);
    same(what, reply.count, count);
    same(what, reply.used, used);
    same(what, reply.completed, completed);
    same(what, reply.pending, pending);
    done(what, pasetone_stream_pending(stream, sizeof stream), pending, 0);
}

/* Document 02, #105: a command in two chunks and the next one behind it, and stream bytes that are none. */
static void check_stream(void)
{
    static const uint8_t two[18] = {5, 0x00, 0x40, 0x1f, 0, 0, 0, 0, 0, 4, 99}, held[PASETONE_STREAM_SIZE] = {4, 5, 0x00, 0x40, 0x1f};
    static const uint8_t none[][PASETONE_STREAM_SIZE] = {{9}, {255}, {0, 1}, {4, 5, 6, 7, 8, 9}, {8, 0, 0, 0, 0, 0, 0, 0, 0}};
    uint8_t direct[PASETONE_TUNER_SIZE], section[PASETONE_TUNE_ROOM];
    size_t i;
    done("bandwidth, by itself", pasetone_set_bandwidth(TUNER, 2048000, OUTCOMES, section, sizeof section, direct, sizeof direct), 0, 3);
    answered("four bytes", fed(two, 4), PASETONE_DONE, 0, 4, 0, 4);
    same_bytes("four bytes are pending", stream, held, sizeof held);
    answered("the other five, of fourteen", fed(two + 4, 14), PASETONE_DONE, 3, 5, 1, 0);
    same_bytes("its section", room, section, PASETONE_BANDWIDTH_ROOM);
    same_bytes("its record", tuner, direct, sizeof tuner);
    answered("gain index 99", fed(two + 9, 9), PASETONE_DONE, 7, 9, 1, 0);
    done("is index 28", pasetone_get_gain(TUNER), 0x42466666, 0);
    for (i = 0; i < sizeof none / sizeof none[0] - 1; i++) {
        memcpy(stream, none[i], sizeof stream);
        same("no stream", fed(two, 18).refusal, PASETONE_SETUP);
        same("no stream: nothing is used", fed(two, 18).used | fed(two, 18).completed, 0);
        same_bytes("no stream: as it was", stream, none[i], sizeof stream);
        refused("no stream: pending", pasetone_stream_pending(stream, sizeof stream), PASETONE_SETUP);
    }
    memcpy(stream, none[i], sizeof stream);
    done("eight zeros are pending", pasetone_stream_pending(stream, sizeof stream), 8, 0);
    answered("operation 0", fed(two + 8, 1), PASETONE_COMMAND, 0, 1, 1, 0);
    refused("eight bytes are no stream", pasetone_stream_pending(stream, 8), PASETONE_SETUP);
}

/* What a command is refused by, in order: 14 before a record that is none, that before its call's own; the stream is empty behind each. */
static void check_commands(void)
{
    static const struct {
        uint8_t bytes[9];
        uint32_t refusal;
    } all[] = {
        {{8}, PASETONE_COMMAND},
        {{7, 1}, PASETONE_COMMAND},
        {{4, 0, 1}, PASETONE_COMMAND},
        {{6, 0xff, 0xff, 0xff, 0xff, 0xff, 0xff, 0xff, 0xff}, PASETONE_COMMAND},
        {{2, 0, 0, 0, 0, 1}, PASETONE_COMMAND},
        {{1}, PASETONE_FREQUENCY},
        {{1, 0xff, 0xff, 0xff, 0xff, 0xff, 0xff, 0xff, 0xff}, PASETONE_FREQUENCY},
        {{2}, PASETONE_RATE},
        {{2, 1}, PASETONE_RATIO},
        {{6, 0, 0, 0, 0x80}, PASETONE_CORRECTION},
    };
    uint8_t before[PASETONE_TUNER_SIZE];
    size_t i;
    memcpy(before, tuner, sizeof before);
    for (i = 0; i < sizeof all / sizeof all[0]; i++) {
        answered("a refused command", fed(all[i].bytes, 9), all[i].refusal, 0, 9, 1, 0);
        same_bytes("a refused command: the record", tuner, before, sizeof tuner);
        driver[0] = 2;
        answered("no driver", fed(all[i].bytes, 9), all[i].refusal == PASETONE_COMMAND ? PASETONE_COMMAND : PASETONE_SETUP, 0, 9, 1, 0);
        driver[0] = PASETONE_V4;
    }
    v4[24] = 2;
    answered("no table, and no rate", fed(all[7].bytes, 9), PASETONE_TABLE, 0, 9, 1, 0);
    answered("no table, no matter", fed(all[5].bytes, 9), PASETONE_FREQUENCY, 0, 9, 1, 0);
    v4[24] = 1;
}

/* pasetone_host.h's own part: what it refuses, what it keeps, and that no number is cut in silence. host/c/rounds.c has its driving. */
static void check_host(void)
{
    static pasetone_host host, other;
    const uint64_t past = (uint64_t)1 << 32;
    unsigned i, doubtful = 0;
    same("host: no reference", pasetone_host_open(&host, PASETONE_R828D, 0x74, PASETONE_V4, 0).refusal, PASETONE_SETUP);
    same("host: no board", pasetone_host_open(&host, PASETONE_R828D, 0x74, 2, 28800000).refusal, PASETONE_SETUP);
    same("host: opened", pasetone_host_open(&host, PASETONE_R828D, 0x74, PASETONE_V4, 28800000).refusal, PASETONE_DONE);
    same("host: its table", host.table_size, PASETONE_V4_TABLE_SIZE);
    for (i = 0; i < 256; i++) {
        doubtful += (unsigned)pasetone_host_doubtful(&host, i);
    }
    same("host: every register is doubtful, and no other", doubtful, PASETONE_REGISTER_COUNT);
    other = host;
    same("host: a try", pasetone_host_try(&host, pasetone_host_initialize, 0).count, PASETONE_INITIALIZE_ENTRIES);
    same_bytes("host: a try leaves the record", host.tuner, other.tuner, sizeof host.tuner);
    same("host: a call", pasetone_host_make(&host, pasetone_host_initialize, 0).refusal, PASETONE_DONE);
    same("host: a call keeps the next record", (uint64_t)pasetone_host_doubtful(&host, 0x05), 0);
    other = host;
    same("host: a rate past 32 bits", pasetone_host_make(&host, pasetone_host_set_sample_rate, past + 2048000).refusal, PASETONE_RATE);
    same_bytes("host: refused, the driver stays", host.driver, other.driver, sizeof host.driver);
    same("host: a rate", pasetone_host_make(&host, pasetone_host_set_sample_rate, 2048000).refusal, PASETONE_DONE);
    same("host: the rate is kept", host.driver[PASETONE_DRIVER_RATE] | (uint64_t)host.driver[PASETONE_DRIVER_RATE + 1] << 8, 2048000 & 0xffff);
    same("host: a bandwidth past 32 bits", pasetone_host_make(&host, pasetone_host_set_bandwidth, past).refusal, PASETONE_DONE);
    same("host: the highest bandwidth", pasetone_host_make(&other, pasetone_host_set_bandwidth, 0xffffffff).refusal, PASETONE_DONE);
    same_bytes("host: their filter", host.room, other.room, PASETONE_BANDWIDTH_ROOM);
    host.outcomes[1] = 1;
    same("host: a step that fails", pasetone_host_make(&host, pasetone_host_reload, 0).refusal, PASETONE_STEP);
    same("host: and its record is kept", (uint64_t)pasetone_host_doubtful(&host, 0x05), 1);
}

int main(void)
{
    check_host();
    check_making();
    check_bandwidth();
    check_tuning();
    check_shadow();
    check_lock();
    check_stands();
    check_tuner();
    check_correction();
    check_driver();
    check_demod();
    check_numbers();
    check_fir();
    check_parting();
    check_settings_1();
    check_settings_2();
    check_stream();
    check_commands();
    printf("check: %u checks, %u faults\n", checks, faults);
    return faults == 0 ? 0 : 1;
}
