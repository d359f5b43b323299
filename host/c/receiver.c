/*
 * A receiver from C: set up, tuned with one step failing, and brought back. It talks to no hardware: the script says how each step ends.
 * host/rust/examples/receiver.rs prints the same lines.
 */
#include <stdio.h>
#include <stdlib.h>
#include <string.h>

#include "pasetone_host.h"

static void print_answer(const char *what, pasetone_tune_reply reply)
{
    printf("%s: ", what);
    if (reply.refusal == PASETONE_STEP) {
        printf("refusal %u (%s) at entry %llu", (unsigned)reply.refusal, pasetone_refusal_word(reply.refusal), (unsigned long long)reply.index);
    } else if (reply.refusal != PASETONE_DONE) {
        printf("refusal %u (%s)", (unsigned)reply.refusal, pasetone_refusal_word(reply.refusal));
    } else {
        printf("done");
    }
    printf(", %u entries\n", (unsigned)reply.count);
}

static void print_doubtful(const pasetone_host *host)
{
    unsigned i;
    int none = 1;
    printf("doubtful:");
    for (i = PASETONE_FIRST_REGISTER; i < PASETONE_FIRST_REGISTER + PASETONE_REGISTER_COUNT; i++) {
        if (pasetone_host_doubtful(host, i)) {
            printf(" 0x%02x", i);
            none = 0;
        }
    }
    printf(none ? " none\n" : "\n");
}

/* Entry k of the last call's section. */
static void print_entry(const pasetone_host *host, uint64_t k)
{
    const uint8_t *entry = host->room + PASETONE_ENTRY_SIZE * k;
    int i;
    printf("entry %llu: kind %u, outcome %u, target 0x%02x, bytes", (unsigned long long)k, (unsigned)entry[0], (unsigned)entry[1],
           (unsigned)entry[2]);
    for (i = 0; i < entry[3]; i++) {
        printf(" %02x", (unsigned)entry[8 + i]);
    }
    printf("\n");
}

/* A call that pasetone_host.h does not have: its argument is no whole number. */
static pasetone_tune_reply gain(pasetone_host *host, uint64_t tenths)
{
    return pasetone_host_widened(pasetone_set_gain(PASETONE_LEND(host->tuner), (float)tenths / 10, PASETONE_LEND(host->outcomes), PASETONE_LEND(host->room),
                                                   PASETONE_LEND(host->next_tuner)));
}

static void set_gain(pasetone_host *host)
{
    pasetone_tune_reply reply = pasetone_host_make(host, gain, 297);
    uint32_t bits = (uint32_t)reply.value;
    float db;
    print_answer("gain 29.7 dB", reply);
    memcpy(&db, &bits, sizeof db);
    printf("gain set: %.1f dB\n", (double)db);
}

static void tune(pasetone_host *host, const char *what)
{
    pasetone_tune_reply reply = pasetone_host_make(host, pasetone_host_set_frequency, 102300000);
    print_answer(what, reply);
    if (reply.refusal == PASETONE_STEP) {
        print_entry(host, reply.index);
    }
    printf(reply.locked ? "lock: at try %u\n" : "lock: none in %u tries\n", (unsigned)reply.tries);
}

int main(void)
{
    pasetone_host host;
    unsigned version = pasetone_version();
    printf("pasetone %u.%u.%u\n", version >> 16, (version >> 8) & 255, version & 255);
    print_answer("R828D at 0x74 on a V4 board, 28800000 Hz", pasetone_host_widened(pasetone_host_open(&host, PASETONE_R828D, 0x74, PASETONE_V4, 28800000)));
    print_answer("initialise", pasetone_host_make(&host, pasetone_host_initialize, 0));
    print_doubtful(&host);
    print_answer("sample rate 2048000", pasetone_host_make(&host, pasetone_host_set_sample_rate, 2048000));
    set_gain(&host);
    host.outcomes[13] = 1; /* the write of register 0x14 */
    tune(&host, "tune 102300000 Hz, step 13 failing");
    host.outcomes[13] = 0;
    print_doubtful(&host);
    print_answer("reload", pasetone_host_make(&host, pasetone_host_reload, 0));
    print_doubtful(&host);
    host.replies[4] = 0x08; /* status bytes come with their bits reversed: the VCO as it should be */
    host.replies[7] = 0x02; /* and a lock at the first try */
    tune(&host, "tune 102300000 Hz");
    print_doubtful(&host);
    return EXIT_SUCCESS;
}
