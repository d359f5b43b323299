/*
 * A C host's own part, over pasetone.h: a receiver's records with all that its calls are lent, in one struct, and the rounds of a call on a receiver that says how a
 * step ended when it is taken. Functions of C alone: nothing more to link, nothing allocated, nothing kept outside of the struct.
 *
 *   static uint8_t take(void *usb, const uint8_t *entry, uint8_t *bytes);   the transfer of host/README.md's table; 0 done, any other failed
 *   ..
 *   pasetone_host host;
 *   if (pasetone_host_open(&host, PASETONE_R828D, 0x74, PASETONE_V4, 28800000).refusal == PASETONE_DONE) {
 *       pasetone_tune_reply reply = pasetone_host_drive(&host, pasetone_host_initialize, 0, take, usb);
 *       if (reply.refusal == PASETONE_DONE) {
 *           reply = pasetone_host_drive(&host, pasetone_host_tune_board, 102300000, take, usb);
 *       }
 *       printf("%s\n", pasetone_refusal_word(reply.refusal));
 *   }
 *
 * host/c/rounds.c drives every call so, on simulated receivers; host/c/receiver.c makes calls with scripts; host/c/crash.c kills a host that keeps what it does.
 */
#ifndef PASETONE_HOST_H
#define PASETONE_HOST_H

#include <string.h>

#include "pasetone.h"

#ifdef __cplusplus
extern "C" {
#endif

/* An array as the two arguments of a slice. */
#define PASETONE_LEND(array) (array), sizeof(array)

/*
 * What a host keeps of a receiver: both records and its board's table. Then what it lends to a call: a script, long enough for every call; room, whose section
 * is the last call's; and the next records, which take the place of the others when the call has written them.
 */
typedef struct {
    uint8_t tuner[PASETONE_TUNER_SIZE], driver[PASETONE_DRIVER_SIZE];
    uint8_t table[PASETONE_TABLE_FOR(PASETONE_TABLE_BANDS)];
    size_t table_size; /* of the table's bytes, those that are used */
    uint8_t outcomes[PASETONE_TUNE_BOARD_ENTRIES], replies[PASETONE_TUNE_BOARD_REPLIES], room[PASETONE_TUNE_BOARD_ROOM];
    uint8_t next_tuner[PASETONE_TUNER_SIZE], next_driver[PASETONE_DRIVER_SIZE];
} pasetone_host;

/* A call over what the host lends, with the one number that it takes. It reads the records and writes the next ones; those that it does not write are copies. */
typedef pasetone_tune_reply pasetone_host_call(pasetone_host *host, uint64_t argument);

/* Takes a step on the receiver: 0 done, any other failed. A read's entry[3] bytes go into `bytes`, which has room for 8. */
typedef uint8_t pasetone_host_take(void *receiver, const uint8_t *entry, uint8_t *bytes);

/* A reply as a tuning's: no tries, no lock. */
static inline pasetone_tune_reply pasetone_host_widened(pasetone_reply reply)
{
    pasetone_tune_reply wide;
    memset(&wide, 0, sizeof wide);
    wide.value = reply.value;
    wide.index = reply.index;
    wide.refusal = reply.refusal;
    wide.count = reply.count;
    return wide;
}

/* A script of every step done and every reply 0. */
static inline void pasetone_host_all_done(pasetone_host *host)
{
    memset(host->outcomes, 0, sizeof host->outcomes);
    memset(host->replies, 0, sizeof host->replies);
}

/* A receiver before it is initialised: every register is doubtful, no correction, frequency and rate 0, the script all done. Refuses 1. */
static inline pasetone_reply pasetone_host_open(pasetone_host *host, uint64_t kind, uint8_t address, uint64_t board, uint64_t nominal)
{
    pasetone_reply reply = pasetone_tuner_new(kind, address, nominal, PASETONE_LEND(host->tuner));
    if (reply.refusal == PASETONE_DONE) {
        reply = pasetone_driver_new(board, nominal, 0, 0, 0, PASETONE_LEND(host->driver));
    }
    if (reply.refusal == PASETONE_DONE) {
        reply = pasetone_board_table(board, PASETONE_LEND(host->table));
        host->table_size = (size_t)reply.value;
    }
    pasetone_host_all_done(host);
    return reply;
}

/* A call with the script that stands in the host; the records stay. */
static inline pasetone_tune_reply pasetone_host_try(pasetone_host *host, pasetone_host_call *call, uint64_t argument)
{
    memcpy(host->next_tuner, host->tuner, sizeof host->tuner);
    memcpy(host->next_driver, host->driver, sizeof host->driver);
    return call(host, argument);
}

/* The next records take the place of the others, where the call has written them: done, or refused by a step, since the steps taken stand. */
static inline pasetone_tune_reply pasetone_host_keep(pasetone_host *host, pasetone_tune_reply reply)
{
    if (pasetone_tune_stands(reply)) {
        memcpy(host->tuner, host->next_tuner, sizeof host->tuner);
        memcpy(host->driver, host->next_driver, sizeof host->driver);
    }
    return reply;
}

/* A call with the script that stands in the host, and its records kept. */
static inline pasetone_tune_reply pasetone_host_make(pasetone_host *host, pasetone_host_call *call, uint64_t argument)
{
    return pasetone_host_keep(host, pasetone_host_try(host, call, argument));
}

/* Whether an entry is a read: its bytes come from the receiver. */
static inline int pasetone_host_reads(const uint8_t *entry)
{
    return entry[0] == 3 || entry[0] == 8;
}

/*
 * A call on a receiver, in rounds: made with what is known so far, the first step that was not taken yet is taken, until there is none. Its section is then in
 * host->room, and its script in the host. The records are those before the call until it has ended.
 */
static inline pasetone_tune_reply pasetone_host_drive(pasetone_host *host, pasetone_host_call *call, uint64_t argument, pasetone_host_take *take, void *receiver)
{
    pasetone_tune_reply reply;
    uint32_t taken = 0;
    size_t used = 0;
    pasetone_host_all_done(host);
    for (reply = pasetone_host_try(host, call, argument); taken < reply.count; reply = pasetone_host_try(host, call, argument)) {
        const uint8_t *entry = host->room + PASETONE_ENTRY_SIZE * taken;
        uint8_t bytes[8] = {0};
        host->outcomes[taken] = take(receiver, entry, bytes);
        if (pasetone_host_reads(entry) && host->outcomes[taken] == 0) {
            memcpy(host->replies + used, bytes, entry[3]);
            used += entry[3];
        }
        taken++;
    }
    return pasetone_host_keep(host, reply);
}

/*
 * What outlives a host that dies: a shared mapping of a file, or of memory that another process has too. Theorem `crashed` of crates/rounds asks for this order:
 *
 *   1. before the first transfer: the call, its records, and a script whose outcomes are all 1;
 *   2. a step that is done: its replies, then its own outcome turned to 0. Nothing is stored before a step, and nothing of one that failed;
 *   3. when the call has ended: its records, and that no call is under way.
 *
 * Whenever the host died, pasetone_host_recover makes the same call with the stored script, by the library alone: its record calls no register sure that may hold
 * another byte. Reload, then make the same call again. Nothing is synced per step: a process that dies loses no store, and a machine that dies has taken the receiver's
 * power, so note the boot's identity beside it and begin from a fresh record where that is another.
 */
typedef struct {
    uint8_t tuner[2][PASETONE_TUNER_SIZE], driver[2][PASETONE_DRIVER_SIZE]; /* two of each: `head` says which counts */
    uint64_t argument;
    uint8_t outcomes[PASETONE_TUNE_BOARD_ENTRIES], replies[PASETONE_TUNE_BOARD_REPLIES];
    uint32_t head; /* the host's own number of the call under way, 0 none, times 2; plus which records count. One store changes both */
} pasetone_kept;

/* Stores in the order of the program, whatever the compiler would rather do. */
static inline void pasetone_kept_store(volatile uint8_t *to, const uint8_t *from, size_t size)
{
    size_t i;
    for (i = 0; i < size; i++) {
        to[i] = from[i];
    }
}

/* The host's records, and no call under way: rule 3. */
static inline void pasetone_kept_end(pasetone_kept *kept, const pasetone_host *host)
{
    uint32_t other = (kept->head & 1) ^ 1;
    pasetone_kept_store(kept->tuner[other], host->tuner, sizeof host->tuner);
    pasetone_kept_store(kept->driver[other], host->driver, sizeof host->driver);
    *(volatile uint32_t *)&kept->head = other;
}

/* A call, by the host's own number for it, from 1 to 2^31 - 1: rule 1. The host's records are those that were kept last. */
static inline void pasetone_kept_begin(pasetone_kept *kept, uint32_t number, uint64_t argument)
{
    size_t i;
    for (i = 0; i < sizeof kept->outcomes; i++) {
        ((volatile uint8_t *)kept->outcomes)[i] = 1;
    }
    *(volatile uint64_t *)&kept->argument = argument;
    *(volatile uint32_t *)&kept->head = number * 2 + (kept->head & 1);
}

/* Step `step` is done, and has read `n` bytes behind `used` others: rule 2. */
static inline void pasetone_kept_done(pasetone_kept *kept, uint32_t step, size_t used, const uint8_t *bytes, size_t n)
{
    pasetone_kept_store(kept->replies + used, bytes, n);
    ((volatile uint8_t *)kept->outcomes)[step] = 0;
}

/* pasetone_host_drive, kept: the host may die at any moment. Before its first call, and where the records are changed by other calls, pasetone_kept_end keeps them. */
static inline pasetone_tune_reply pasetone_host_drive_kept(pasetone_host *host, pasetone_kept *kept, uint32_t number, pasetone_host_call *call, uint64_t argument,
                                                           pasetone_host_take *take, void *receiver)
{
    pasetone_tune_reply reply;
    uint32_t taken = 0;
    size_t used = 0;
    pasetone_host_all_done(host);
    pasetone_kept_begin(kept, number, argument);
    for (reply = pasetone_host_try(host, call, argument); taken < reply.count; reply = pasetone_host_try(host, call, argument)) {
        const uint8_t *entry = host->room + PASETONE_ENTRY_SIZE * taken;
        size_t n = pasetone_host_reads(entry) ? entry[3] : 0;
        uint8_t bytes[8] = {0};
        host->outcomes[taken] = take(receiver, entry, bytes);
        if (host->outcomes[taken] == 0) {
            memcpy(host->replies + used, bytes, n);
            pasetone_kept_done(kept, taken, used, bytes, n);
            used += n;
        }
        taken++;
    }
    reply = pasetone_host_keep(host, reply);
    pasetone_kept_end(kept, host);
    return reply;
}

/* The number of the call under way, 0 where there is none. */
static inline uint32_t pasetone_kept_under_way(const pasetone_kept *kept)
{
    return kept->head / 2;
}

/* The host's records as they were kept; where a call is under way they are those before it, and pasetone_host_recover comes next. */
static inline void pasetone_host_take_up(pasetone_host *host, const pasetone_kept *kept)
{
    memcpy(host->tuner, kept->tuner[kept->head & 1], sizeof host->tuner);
    memcpy(host->driver, kept->driver[kept->head & 1], sizeof host->driver);
}

/* The call under way once more, by the library alone, with what was stored of it; `call` is that of its number. Its section is in host->room. The host keeps it by
   pasetone_kept_end when all that belongs to it is put away: to there each recovery comes to the same. */
static inline pasetone_tune_reply pasetone_host_recover(pasetone_host *host, const pasetone_kept *kept, pasetone_host_call *call)
{
    memcpy(host->outcomes, kept->outcomes, sizeof host->outcomes);
    memcpy(host->replies, kept->replies, sizeof host->replies);
    return pasetone_host_make(host, call, kept->argument);
}

/* Whether the chip may hold another byte in a register than was last sent to it; 0 out of 0x05 to 0x1f, of which nothing is kept. */
static inline int pasetone_host_doubtful(const pasetone_host *host, unsigned number)
{
    unsigned place = number - PASETONE_FIRST_REGISTER;
    return place < PASETONE_REGISTER_COUNT && host->tuner[PASETONE_TUNER_DOUBTFUL + place] != 0;
}

/* The calls of a receiver's records, by the names of their numbers. pasetone.h has what they take, answer and refuse; a gain in dB is no whole number, so a host
   writes that call itself, as host/c/receiver.c does. */

#define PASETONE_HOST_SCRIPT PASETONE_LEND(host->outcomes)
#define PASETONE_HOST_REPLIES PASETONE_LEND(host->replies), PASETONE_LEND(host->room)

static inline pasetone_tune_reply pasetone_host_initialize(pasetone_host *host, uint64_t nothing)
{
    (void)nothing;
    return pasetone_host_widened(pasetone_initialize(PASETONE_LEND(host->tuner), PASETONE_HOST_SCRIPT, PASETONE_LEND(host->room), PASETONE_LEND(host->next_tuner)));
}

static inline pasetone_tune_reply pasetone_host_set_frequency(pasetone_host *host, uint64_t hz)
{
    return pasetone_set_frequency(PASETONE_LEND(host->tuner), hz, PASETONE_HOST_SCRIPT, PASETONE_HOST_REPLIES, PASETONE_LEND(host->next_tuner));
}

static inline pasetone_tune_reply pasetone_host_set_gain_by_index(pasetone_host *host, uint64_t index)
{
    return pasetone_host_widened(
        pasetone_set_gain_by_index(PASETONE_LEND(host->tuner), index, PASETONE_HOST_SCRIPT, PASETONE_LEND(host->room), PASETONE_LEND(host->next_tuner)));
}

/* Hz past 32 bits have the filter of the highest. */
static inline pasetone_tune_reply pasetone_host_set_bandwidth(pasetone_host *host, uint64_t hz)
{
    return pasetone_host_widened(
        pasetone_set_bandwidth(PASETONE_LEND(host->tuner), hz > UINT32_MAX ? UINT32_MAX : (uint32_t)hz, PASETONE_HOST_SCRIPT, PASETONE_LEND(host->room), PASETONE_LEND(host->next_tuner)));
}

static inline pasetone_tune_reply pasetone_host_set_if_freq(pasetone_host *host, uint64_t hz)
{
    return pasetone_host_widened(
        pasetone_set_if_freq(PASETONE_LEND(host->tuner), hz, PASETONE_HOST_SCRIPT, PASETONE_LEND(host->room), PASETONE_LEND(host->next_tuner)));
}

static inline pasetone_tune_reply pasetone_host_set_input_path(pasetone_host *host, uint64_t path)
{
    return pasetone_host_widened(
        pasetone_set_input_path(PASETONE_LEND(host->tuner), path, PASETONE_HOST_SCRIPT, PASETONE_LEND(host->room), PASETONE_LEND(host->next_tuner)));
}

static inline pasetone_tune_reply pasetone_host_apply_input_path(pasetone_host *host, uint64_t path)
{
    return pasetone_host_widened(
        pasetone_apply_input_path(PASETONE_LEND(host->tuner), path, PASETONE_HOST_SCRIPT, PASETONE_HOST_REPLIES, PASETONE_LEND(host->next_tuner)));
}

static inline pasetone_tune_reply pasetone_host_reload(pasetone_host *host, uint64_t nothing)
{
    (void)nothing;
    return pasetone_host_widened(pasetone_reload(PASETONE_LEND(host->tuner), PASETONE_HOST_SCRIPT, PASETONE_LEND(host->room), PASETONE_LEND(host->next_tuner)));
}

/* A rate past 32 bits is refused as a rate of 0 is, with 3. */
static inline pasetone_tune_reply pasetone_host_set_sample_rate(pasetone_host *host, uint64_t rate)
{
    rate = rate > UINT32_MAX ? 0 : rate;
    return pasetone_host_widened(pasetone_set_sample_rate(PASETONE_LEND(host->driver), PASETONE_LEND(host->tuner), host->table, host->table_size, (uint32_t)rate,
                                                          PASETONE_HOST_SCRIPT, PASETONE_LEND(host->room), PASETONE_LEND(host->next_driver),
                                                          PASETONE_LEND(host->next_tuner)));
}

static inline pasetone_tune_reply pasetone_host_tune_board(pasetone_host *host, uint64_t hz)
{
    return pasetone_tune_board(PASETONE_LEND(host->driver), PASETONE_LEND(host->tuner), host->table, host->table_size, hz, PASETONE_HOST_SCRIPT, PASETONE_HOST_REPLIES,
                               PASETONE_LEND(host->next_driver), PASETONE_LEND(host->next_tuner));
}

#undef PASETONE_HOST_SCRIPT
#undef PASETONE_HOST_REPLIES

#ifdef __cplusplus
}
#endif

#endif
