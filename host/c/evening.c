/*
 * An evening from C: the requests of document 02 as a host makes them, but #105, which is stream.c. The settings of a site, two stations by the board's own table, the second one with a failing
 * step; what is in doubt, where tonight parts from last night, the restore list and its packets, the way back. host/rust/examples/evening.rs prints the same lines.
 */
#include <stdio.h>
#include <stdlib.h>
#include <string.h>

#include "pasetone.h"

/* All that a receiver is on the host's side: two records, and the table of its board, which they do not name. */
struct receiver {
    uint8_t tuner[PASETONE_TUNER_SIZE];
    uint8_t driver[PASETONE_DRIVER_SIZE];
    uint8_t table[PASETONE_V4_TABLE_SIZE];
};

/* A section, as a call has left it in its room. */
struct section {
    uint8_t bytes[PASETONE_TUNE_BOARD_ROOM];
    size_t length;
};

/* What the calls are lent: enough for the longest, a board's tuning. */
static uint8_t outcomes[PASETONE_TUNE_BOARD_ENTRIES];
static uint8_t replies[PASETONE_TUNE_BOARD_REPLIES];
static uint8_t room[PASETONE_TUNE_BOARD_ROOM];

static uint64_t number(const uint8_t *bytes, int width)
{
    uint64_t value = 0;
    while (width-- > 0) {
        value = value << 8 | bytes[width];
    }
    return value;
}

static void print_refusal(uint32_t refusal, uint64_t index)
{
    if (refusal == PASETONE_DONE) {
        printf("done");
    } else if (refusal == PASETONE_STEP) {
        printf("refusal %u (%s) at entry %llu", (unsigned)refusal, pasetone_refusal_word(refusal), (unsigned long long)index);
    } else {
        printf("refusal %u (%s)", (unsigned)refusal, pasetone_refusal_word(refusal));
    }
}

static void print_reply(const char *what, pasetone_reply reply)
{
    printf("%s: ", what);
    print_refusal(reply.refusal, reply.index);
    printf(", %u entries\n", (unsigned)reply.count);
}

static void print_tuning(const char *what, pasetone_tune_reply reply)
{
    printf("%s: ", what);
    print_refusal(reply.refusal, reply.index);
    printf(", %u entries, ", (unsigned)reply.count);
    printf(reply.locked ? "locked at try %u\n" : "not locked after %u tries\n", (unsigned)reply.tries);
}

static void print_doubtful(const struct receiver *r)
{
    int i, none = 1;
    printf("doubtful:");
    for (i = 0; i < PASETONE_REGISTER_COUNT; i++) {
        if (r->tuner[PASETONE_TUNER_DOUBTFUL + i] != 0) {
            printf(" 0x%02x", (unsigned)(PASETONE_FIRST_REGISTER + i));
            none = 0;
        }
    }
    printf(none ? " none\n" : "\n");
}

/* #108 and #112: settings as a site keeps them, moved to edition 2 and back. */
static pasetone_settings_2 settings(void)
{
    uint8_t first[PASETONE_SETTINGS_1_SIZE], second[PASETONE_SETTINGS_2_SIZE], back[PASETONE_SETTINGS_1_SIZE];
    pasetone_reply one = pasetone_write_settings_1(PASETONE_R828D, PASETONE_V4, -3, 2048000, 102300000, 16, first, sizeof first);
    pasetone_reply two = pasetone_move_settings_1_to_2(first, sizeof first, second, sizeof second);
    pasetone_settings_2 read = pasetone_read_settings_2(second, sizeof second);
    printf("settings: edition 1 has %u bytes, edition 2 %u, IF %u Hz\n", (unsigned)one.value, (unsigned)two.value, (unsigned)read.intermediate);
    pasetone_move_settings_2_to_1(second, sizeof second, back, sizeof back);
    printf("there and back: %s\n", memcmp(back, first, sizeof first) == 0 ? "the same" : "another");
    printf("edition 1's reader: ");
    print_refusal(pasetone_read_settings_1(second, sizeof second).refusal, 0);
    printf("\n");
    return read;
}

static void set_rate(struct receiver *r, uint32_t rate)
{
    uint8_t next_tuner[PASETONE_TUNER_SIZE], next_driver[PASETONE_DRIVER_SIZE];
    char what[32];
    pasetone_reply reply = pasetone_set_sample_rate(r->driver, sizeof r->driver, r->tuner, sizeof r->tuner, r->table, sizeof r->table, rate,
                                                    outcomes, sizeof outcomes, room, sizeof room, next_driver, sizeof next_driver,
                                                    next_tuner, sizeof next_tuner);
    if (pasetone_stands(reply)) {
        memcpy(r->tuner, next_tuner, sizeof r->tuner);
        memcpy(r->driver, next_driver, sizeof r->driver);
    }
    snprintf(what, sizeof what, "sample rate %u", (unsigned)rate);
    print_reply(what, reply);
}

/* #109, #103, #104: one correction for both records; a rate that the resampler cannot hold; the rate that samples truly come at. */
static void set_up(struct receiver *r, const pasetone_settings_2 *site)
{
    uint8_t next[PASETONE_TUNER_SIZE];
    uint32_t bits;
    float db;
    pasetone_reply reply;
    pasetone_tuner_new(site->kind, 0x74, 28800000, r->tuner, sizeof r->tuner);
    pasetone_driver_new(site->board, 28800000, 0, site->frequency, 0, r->driver, sizeof r->driver);
    pasetone_board_table(site->board, r->table, sizeof r->table);
    pasetone_set_ppm(r->tuner, sizeof r->tuner, r->driver, sizeof r->driver, site->correction);
    printf("correction %d ppm: tuner %u Hz, driver %u Hz\n", (int)site->correction, (unsigned)number(r->tuner + PASETONE_TUNER_CORRECTED, 4),
           (unsigned)pasetone_corrected_xtal_hz(r->driver, sizeof r->driver).value);
    reply = pasetone_initialize(r->tuner, sizeof r->tuner, outcomes, sizeof outcomes, room, sizeof room, next, sizeof next);
    memcpy(r->tuner, next, sizeof next);
    print_reply("initialise", reply);
    set_rate(r, 600000);
    set_rate(r, site->rate);
    printf("true rate %llu\n", (unsigned long long)number(r->driver + PASETONE_DRIVER_TRUE_RATE, 8));
    reply = pasetone_set_gain_by_index(r->tuner, sizeof r->tuner, site->gain, outcomes, sizeof outcomes, room, sizeof room, next, sizeof next);
    memcpy(r->tuner, next, sizeof next);
    print_reply("gain", reply);
    bits = (uint32_t)reply.value;
    memcpy(&db, &bits, sizeof db);
    printf("gain set: %.1f dB\n", (double)db);
}

/* #113 and #111: the plan by the board's table, and the PLL's numbers by both engines. */
static void plan(const struct receiver *r, const pasetone_settings_2 *site)
{
    uint8_t how[PASETONE_PLAN_SIZE], pll[PASETONE_PLL_SIZE], sheet[PASETONE_PLL_SIZE];
    uint32_t reference = (uint32_t)number(r->tuner + PASETONE_TUNER_CORRECTED, 4);
    pasetone_reply planned = pasetone_plan_by_table(r->table, sizeof r->table, site->frequency, how, sizeof how);
    uint64_t lo = planned.value + site->intermediate;
    pasetone_reply rest = pasetone_plan_pll(site->kind, lo, reference, pll, sizeof pll);
    pasetone_reply other = pasetone_plan_pll_by_worksheet(site->kind, lo, reference, sheet, sizeof sheet);
    printf("%u bands, tuner to %llu Hz, notch %u\n", (unsigned)(sizeof r->table / PASETONE_BAND_SIZE), (unsigned long long)planned.value,
           (unsigned)how[2]);
    printf("lo %llu Hz: divider %u, N %u, 0x14 %02x, sum %u, rest %llu\n", (unsigned long long)lo, (unsigned)pll[0], (unsigned)pll[1],
           (unsigned)pll[2], (unsigned)number(pll + 3, 2), (unsigned long long)rest.value);
    printf("worksheet: %s\n", memcmp(pll, sheet, sizeof pll) == 0 && rest.value == other.value ? "the same" : "another");
}

/* #113 and #101: the board is tuned, and the reply says how the waiting for a lock went. */
static struct section tune(struct receiver *r, const char *what, uint64_t hz)
{
    struct section section;
    uint8_t next_tuner[PASETONE_TUNER_SIZE], next_driver[PASETONE_DRIVER_SIZE];
    pasetone_tune_reply reply = pasetone_tune_board(r->driver, sizeof r->driver, r->tuner, sizeof r->tuner, r->table, sizeof r->table, hz,
                                                    outcomes, sizeof outcomes, replies, sizeof replies, section.bytes, sizeof section.bytes,
                                                    next_driver, sizeof next_driver, next_tuner, sizeof next_tuner);
    section.length = reply.count > 0 ? PASETONE_ROOM_FOR(reply.count) : 0;
    if (pasetone_tune_stands(reply)) {
        memcpy(r->tuner, next_tuner, sizeof r->tuner);
        memcpy(r->driver, next_driver, sizeof r->driver);
    }
    print_tuning(what, reply);
    return section;
}

/* #114: where the second of two sections parts from the first. */
static void compare(const struct section *last_night, const struct section *tonight)
{
    pasetone_part part = pasetone_parting(last_night->bytes, last_night->length, tonight->bytes, tonight->length);
    printf("parting: %s, %llu steps the same, %llu from there\n", part.whose == 1 ? "last night's" : "tonight's",
           (unsigned long long)part.index, (unsigned long long)part.count);
}

/* #110 and #107: where the sections left the chip, as writes, and those as packets for the replay box. */
static void restore(const struct section *first, const struct section *second)
{
    uint8_t day[2 * PASETONE_TUNE_BOARD_ROOM], list[PASETONE_RESTORE_ROOM], back[PASETONE_RESTORE_ROOM], packets[PASETONE_PACKETS_FOR(14)];
    pasetone_reply made, sent;
    size_t at, writes, registers = 0, count = 0;
    memcpy(day, first->bytes, first->length);
    memcpy(day + first->length, second->bytes, second->length);
    made = pasetone_restore(day, first->length + second->length, 0x74, list, sizeof list);
    writes = (size_t)pasetone_read_section(list, made.value).count;
    for (at = 0; at < writes; at++) {
        registers += list[PASETONE_ENTRY_SIZE * at + 3] - 1u; /* the first data byte is the register */
    }
    printf("restore: %u writes for %u registers\n", (unsigned)writes, (unsigned)registers);
    sent = pasetone_expand(list, made.value, packets, sizeof packets);
    for (at = 0; at < sent.value; at += 8 + number(packets + at + 6, 2)) {
        count++; /* writes alone: each has 8 bytes, and its data behind them */
    }
    printf("packets: %u in %u bytes\n", (unsigned)count, (unsigned)sent.value);
    made = pasetone_read_packets(packets, sent.value, back, sizeof back);
    printf("back: %s\n", memcmp(back, list, made.value) == 0 ? "the same" : "another");
}

static void reload(struct receiver *r)
{
    uint8_t next[PASETONE_TUNER_SIZE];
    pasetone_reply reply = pasetone_reload(r->tuner, sizeof r->tuner, outcomes, sizeof outcomes, room, sizeof room, next, sizeof next);
    if (pasetone_stands(reply)) {
        memcpy(r->tuner, next, sizeof next);
    }
    print_reply("reload", reply);
}

int main(void)
{
    struct receiver r, before;
    struct section first, last_night, tonight;
    pasetone_settings_2 site = settings();
    set_up(&r, &site);
    plan(&r, &site);
    memset(replies, 0x0a, sizeof replies); /* a lock at the first try: status bytes come with their bits reversed */
    first = tune(&r, "tune 88000000 Hz", 88000000);
    before = r;
    last_night = tune(&before, "last night's tune 102300000 Hz", site.frequency);
    outcomes[23] = 1; /* the write of register 0x14; #106: the shadow has the byte that was tried */
    tonight = tune(&r, "tonight's tune 102300000 Hz", site.frequency);
    outcomes[23] = 0;
    printf("frequency: %llu Hz\n", (unsigned long long)number(r.driver + PASETONE_DRIVER_FREQUENCY, 8));
    print_doubtful(&r);
    compare(&last_night, &tonight);
    restore(&first, &tonight);
    reload(&r); /* half of the way back: N is the new station's, the sum the old one's */
    print_doubtful(&r);
    tune(&r, "the same tune again", site.frequency);
    printf("frequency: %llu Hz\n", (unsigned long long)number(r.driver + PASETONE_DRIVER_FREQUENCY, 8));
    return EXIT_SUCCESS;
}
