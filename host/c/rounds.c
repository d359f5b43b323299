/*
 * Every call with steps, driven step by step on simulated receivers that fail nowhere, at one step, or from one step on: pasetone.h's rounds. Each must end as
 * the one call does that is told in advance how the receiver will behave. The driving is pasetone_host.h's. host/rust/examples/rounds.rs prints the same lines,
 * host/rounds.txt. As `rounds lie` a receiver tells another outcome of its first step than it had, and faults must be found.
 */
#include <stdio.h>
#include <string.h>

#include "pasetone_host.h"

#define ENTRIES PASETONE_TUNE_BOARD_ENTRIES
#define NEVER 1000

/* A receiver with a will of its own: registers of its chip, bytes of its GPIO, a PLL that finds a lock at some try or never. */
struct receiver {
    uint8_t address, registers[256], gpio[256];
    int open, astray; /* the repeater; a step for the chip came while it was closed, or for another chip */
    unsigned locks_at, tries, first, last; /* the steps from first to last fail, by the order in which it is asked for them */
    /* what it was asked for, and how it behaved, as a script has it */
    uint8_t asked[ENTRIES][PASETONE_ENTRY_SIZE], outcomes[ENTRIES], replies[PASETONE_TUNE_BOARD_REPLIES];
    unsigned steps, read;
};

struct call {
    const char *name;
    pasetone_host_call *make;
    uint64_t argument;
};

static unsigned checks, faults, runs, steps;
static int lies;

/* An entry without its outcome and what it read. */
static void bare(uint8_t *to, const uint8_t *entry)
{
    memcpy(to, entry, PASETONE_ENTRY_SIZE);
    to[1] = 0;
    if (pasetone_host_reads(entry)) {
        memset(to + 8, 0, 8);
    }
}

/* What a step does to the receiver; a read's bytes come into `bytes`. */
static void act(struct receiver *r, const uint8_t *entry, int failed, uint8_t *bytes)
{
    static const uint8_t status[5] = {0x69, 0, 0, 0, 0x08}; /* bits reversed: the VCO as it should be */
    int i;
    r->astray |= (entry[0] == 2 || entry[0] == 3) && (!r->open || entry[2] != r->address);
    for (i = 1; entry[0] == 2 && i < entry[3]; i++) {
        r->registers[(entry[8] + i - 1) & 255] = entry[8 + i] ^ (failed ? 0x33 : 0); /* nobody knows what a write that failed has left */
    }
    if (entry[0] == 1 && !failed) {
        r->open = entry[8];
    } else if (entry[0] == 3) {
        r->tries += entry[3] == 3 && !failed;
        memcpy(bytes, status, entry[3]);
        bytes[2] = r->tries >= r->locks_at ? 0x02 : 0;
    } else if (entry[0] == 6 && !failed) {
        r->gpio[entry[4]] = entry[8];
    } else if (entry[0] == 8) {
        bytes[0] = r->gpio[entry[4]];
    }
}

/* Takes a step: 0 done, 1 failed. On hardware this is the USB transfer of host/README.md's table. */
static uint8_t take(void *receiver, const uint8_t *entry, uint8_t *bytes)
{
    struct receiver *r = receiver;
    int failed = r->steps >= r->first && r->steps <= r->last;
    bare(r->asked[r->steps], entry);
    r->outcomes[r->steps++] = (uint8_t)failed;
    act(r, entry, failed, bytes);
    if (pasetone_host_reads(entry) && !failed) {
        memcpy(r->replies + r->read, bytes, entry[3]);
        r->read += entry[3];
    }
    return (uint8_t)failed;
}

/* The one call, told all that the receiver did; behind it every step would fail and every read give 0xff, which no call comes to. */
static pasetone_tune_reply at_once(pasetone_host *h, const struct call *call, const struct receiver *r)
{
    memset(h->outcomes, 1, sizeof h->outcomes);
    memset(h->replies, 0xff, sizeof h->replies);
    memcpy(h->outcomes, r->outcomes, r->steps);
    h->outcomes[0] ^= (uint8_t)lies;
    memcpy(h->replies, r->replies, r->read);
    return pasetone_host_make(h, call->make, call->argument);
}

static void that(int good, const char *what, const struct call *call, const struct receiver *r)
{
    checks++;
    if (!good) {
        faults++;
        printf("%s, locks at %u, failing %u to %u: %s\n", call->name, r->locks_at, r->first, r->last, what);
    }
}

static int same_reply(pasetone_tune_reply a, pasetone_tune_reply b)
{
    return a.value == b.value && a.index == b.index && a.refusal == b.refusal && a.count == b.count && a.tries == b.tries && a.locked == b.locked;
}

/* The section's entries are what the receiver was asked for, and their outcomes its own; a wait is done whatever the receiver says of it. */
static void check_steps(const uint8_t *room, uint32_t count, const struct call *call, const struct receiver *r)
{
    int shown = count == r->steps, followed = 1;
    uint32_t i;
    for (i = 0; i < count && shown; i++) {
        const uint8_t *entry = room + PASETONE_ENTRY_SIZE * i;
        uint8_t asks[PASETONE_ENTRY_SIZE];
        bare(asks, entry);
        shown = memcmp(asks, r->asked[i], sizeof asks) == 0;
        followed &= entry[1] == (r->outcomes[i] && entry[0] != 9);
    }
    that(shown, "other steps were shown", call, r);
    that(followed, "other outcomes", call, r);
}

/* A register that is not doubtful holds its shadow byte. */
static int holds(const struct receiver *r, const uint8_t *tuner)
{
    int i, good = 1;
    for (i = 0; i < PASETONE_REGISTER_COUNT; i++) {
        good &= tuner[PASETONE_TUNER_DOUBTFUL + i] || tuner[PASETONE_TUNER_SHADOW + i] == r->registers[PASETONE_FIRST_REGISTER + i];
    }
    return good;
}

/* One call in rounds on a receiver, then at once with what the receiver did; how many steps there were. */
static uint32_t run(const struct call *call, const pasetone_host *given, const struct receiver *fresh, unsigned first, unsigned last)
{
    pasetone_host driven = *given, other = *given;
    struct receiver r = *fresh;
    pasetone_tune_reply found, wanted;
    r.first = first;
    r.last = last;
    r.steps = r.read = 0;
    found = pasetone_host_drive(&driven, call->make, call->argument, take, &r);
    wanted = at_once(&other, call, &r);
    that(same_reply(found, wanted), "another answer", call, &r);
    that(found.count == 0 || memcmp(driven.room, other.room, PASETONE_ROOM_FOR(found.count)) == 0, "another section", call, &r);
    that(memcmp(driven.tuner, other.tuner, sizeof driven.tuner) == 0 && memcmp(driven.driver, other.driver, sizeof driven.driver) == 0,
         "other records", call, &r);
    check_steps(driven.room, found.count, call, &r);
    that(!r.astray, "a step for the chip went astray", call, &r);
    that(holds(&r, driven.tuner), "the chip holds another byte than the record says", call, &r);
    runs++;
    steps += found.count;
    return found.count;
}

/* The calls that pasetone_host.h does not have: a gain in dB, those without a record, and a command. */

#define OUTCOMES PASETONE_LEND(h->outcomes)
#define REPLIES PASETONE_LEND(h->replies)
#define ROOM PASETONE_LEND(h->room)
#define CALL(name, expression) \
    static pasetone_tune_reply name(pasetone_host *h, uint64_t number) { return (void)number, pasetone_host_widened(expression); }

CALL(gain, pasetone_set_gain(PASETONE_LEND(h->tuner), 29.7f, OUTCOMES, ROOM, PASETONE_LEND(h->next_tuner)))
CALL(baseband, pasetone_init_baseband(OUTCOMES, ROOM))
CALL(power_on, pasetone_power_on(OUTCOMES, ROOM))
CALL(reset, pasetone_reset_demod(OUTCOMES, ROOM))
CALL(low_if, pasetone_set_tuner_low_if(OUTCOMES, ROOM))
CALL(zero_if, pasetone_set_tuner_zero_if(OUTCOMES, ROOM))
CALL(start, pasetone_start_streaming(OUTCOMES, ROOM))
CALL(stop, pasetone_stop_streaming(OUTCOMES, ROOM))
CALL(direct, pasetone_write_reg_direct(1, 0x15, 1, OUTCOMES, ROOM))
CALL(if_xtal, pasetone_set_if_freq_xtal((uint32_t)number, 28800000, OUTCOMES, ROOM))
CALL(rate_xtal, pasetone_set_sample_rate_xtal((uint32_t)number, 28800000, OUTCOMES, ROOM))
CALL(gpio_output, pasetone_set_gpio_output((uint8_t)number, OUTCOMES, REPLIES, ROOM))
CALL(gpio_bit, pasetone_set_gpio_bit((uint8_t)number, 1, OUTCOMES, REPLIES, ROOM))

/* A command changes its records where they lie, so each round has copies of them, which pasetone_host_try has laid out. */
static pasetone_tune_reply feed(pasetone_host *h, uint64_t nothing)
{
    static const uint8_t command[PASETONE_COMMAND_SIZE] = {PASETONE_OPERATION_FREQUENCY, 0x60, 0xf9, 0x18, 0x06}; /* 102,300,000 Hz */
    uint8_t stream[PASETONE_STREAM_SIZE] = {0};
    pasetone_feed_reply r =
        pasetone_feed(PASETONE_LEND(stream), PASETONE_LEND(h->next_driver), PASETONE_LEND(h->next_tuner), h->table, h->table_size, PASETONE_LEND(command), OUTCOMES,
                      REPLIES, ROOM);
    pasetone_tune_reply reply = {r.value, r.index, r.refusal, r.count, r.tries, r.locked};
    (void)nothing;
    return reply;
}

/* In the order of pasetone.h. */
static const struct call calls[] = {
    {"initialize", pasetone_host_initialize, 0},
    {"set_frequency", pasetone_host_set_frequency, 102300000},
    {"set_frequency, refused in the PLL", pasetone_host_set_frequency, 1},
    {"set_gain", gain, 0},
    {"set_gain_by_index", pasetone_host_set_gain_by_index, 28},
    {"set_bandwidth", pasetone_host_set_bandwidth, 2048000},
    {"set_if_freq", pasetone_host_set_if_freq, 3570000},
    {"set_input_path", pasetone_host_set_input_path, PASETONE_HF},
    {"reload", pasetone_host_reload, 0},
    {"set_sample_rate", pasetone_host_set_sample_rate, 2048000},
    {"tune_board", pasetone_host_tune_board, 7000000},
    {"apply_input_path", pasetone_host_apply_input_path, PASETONE_UHF},
    {"init_baseband", baseband, 0},
    {"power_on", power_on, 0},
    {"reset_demod", reset, 0},
    {"set_tuner_low_if", low_if, 0},
    {"set_tuner_zero_if", zero_if, 0},
    {"start_streaming", start, 0},
    {"stop_streaming", stop, 0},
    {"write_reg_direct", direct, 0},
    {"set_if_freq_xtal", if_xtal, 2300000},
    {"set_sample_rate_xtal", rate_xtal, 2048000},
    {"set_gpio_output", gpio_output, 5},
    {"set_gpio_bit", gpio_bit, 5},
    {"feed, operation 1", feed, 0},
};

/* A receiver whose chip is initialised, and its host. */
static int prepare(pasetone_host *h, struct receiver *r, uint64_t kind, uint8_t address, unsigned locks_at)
{
    memset(r, 0, sizeof *r);
    memset(r->registers, 0xa5, sizeof r->registers);
    memset(r->gpio, 0x5a, sizeof r->gpio);
    r->address = address;
    r->locks_at = locks_at;
    r->first = NEVER;
    return pasetone_host_open(h, kind, address, PASETONE_V4, 28800000).refusal == 0 && pasetone_host_drive(h, pasetone_host_initialize, 0, take, r).refusal == 0;
}

int main(int argc, char **argv)
{
    static pasetone_host hosts[3];
    static struct receiver receivers[3];
    size_t i, k;
    lies = argc > 1 && strcmp(argv[1], "lie") == 0;
    if (!prepare(&hosts[0], &receivers[0], PASETONE_R828D, 0x74, 1) || !prepare(&hosts[1], &receivers[1], PASETONE_R828D, 0x74, 3) ||
        !prepare(&hosts[2], &receivers[2], PASETONE_R820T, 0x34, NEVER)) {
        return 1;
    }
    for (i = 0; i < sizeof calls / sizeof calls[0]; i++) {
        unsigned before = faults;
        runs = steps = 0;
        for (k = 0; k < 3; k++) {
            uint32_t step, count = run(&calls[i], &hosts[k], &receivers[k], NEVER, NEVER);
            for (step = 0; step < count; step++) {
                run(&calls[i], &hosts[k], &receivers[k], step, step);
                run(&calls[i], &hosts[k], &receivers[k], step, NEVER);
            }
        }
        printf("%s: %u runs, %u steps, %u faults\n", calls[i].name, runs, steps, faults - before);
    }
    printf("rounds: %u checks, %u faults\n", checks, faults);
    return faults == 0 ? 0 : 1;
}
