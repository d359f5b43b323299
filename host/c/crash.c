/*
 * A host that drives a receiver and is killed at random moments, thousands of times: the record that pasetone_host_recover gives must call no register sure that holds
 * another byte. The same test finds five wrong hosts. Chip and pasetone_kept are in memory that the host shares with this process, which kills it. Each byte of a
 * transfer lands by itself, so that a host may die within one. host/rust/examples/crash.rs does the same with a state on file.
 *
 *   crash [KILLS [SEED]]
 */
#define _GNU_SOURCE
#include <signal.h>
#include <stdio.h>
#include <stdlib.h>
#include <string.h>
#include <sys/mman.h>
#include <sys/wait.h>
#include <time.h>
#include <unistd.h>

#include "pasetone_host.h"

enum wrong { NONE, ZEROS, MARKED_BEFORE, FORGETS, NO_REPLIES, TIMEOUT_DONE, WRONGS };
static const char *const names[WRONGS] = {"none", "script filled with 0", "marked done before the step", "recovery forgets the call", "replies not kept", "timeout taken as done"};

struct shared {
    pasetone_kept kept;
    volatile uint8_t registers[256], gpio[256];
    uint64_t random;
};

static const struct {
    pasetone_host_call *make;
    uint64_t below; /* of its argument */
} calls[] = {
    {pasetone_host_initialize, 1},          {pasetone_host_tune_board, 1700000000}, {pasetone_host_set_frequency, 1700000000},
    {pasetone_host_set_gain_by_index, 29},  {pasetone_host_set_bandwidth, 9000000}, {pasetone_host_set_if_freq, 5000000},
    {pasetone_host_set_input_path, 3},      {pasetone_host_apply_input_path, 3},    {pasetone_host_reload, 1},
    {pasetone_host_set_sample_rate, 3200000}};
#define CALLS (sizeof calls / sizeof calls[0])

static struct shared *shared;
static enum wrong wrong;
static uint32_t step; /* of the call under way, for the hosts that go wrong */

static uint64_t below(uint64_t n)
{
    shared->random = shared->random * 6364136223846793005u + 1442695040888963407u;
    return (shared->random >> 33) % n;
}

static void spin(uint64_t nanoseconds)
{
    struct timespec from, now;
    clock_gettime(CLOCK_MONOTONIC, &from);
    do {
        clock_gettime(CLOCK_MONOTONIC, &now);
    } while ((uint64_t)((now.tv_sec - from.tv_sec) * 1000000000 + now.tv_nsec - from.tv_nsec) < nanoseconds);
}

/* As much of a step as `most` registers of it. */
static void act(const uint8_t *entry, unsigned most, uint8_t mess)
{
    unsigned i;
    for (i = 1; entry[0] == 2 && i < entry[3] && i <= most; i++) {
        shared->registers[(entry[8] + i - 1) & 255] = entry[8 + i] ^ mess;
    }
    if (entry[0] == 6 && most > 0) {
        shared->gpio[entry[4]] = entry[8] ^ mess;
    }
}

/* Takes a step: done, or in one of forty failed or timed out, with some of it done or none. Status bytes have their bits reversed: the third has the lock's, the
   fifth the fine tune, by which the divider is repaired. */
static uint8_t take(void *nothing, const uint8_t *entry, uint8_t *bytes)
{
    static const uint8_t fine[3] = {0x08, 0x04, 0x0c};
    uint8_t failed = 0;
    (void)nothing;
    switch (wrong) {
    case ZEROS: memset(shared->kept.outcomes + step, 0, sizeof shared->kept.outcomes - step); break;
    case MARKED_BEFORE: shared->kept.outcomes[step] = 0; break;
    case NO_REPLIES: memset(shared->kept.replies, 0, sizeof shared->kept.replies); break;
    default: break;
    }
    step++;
    spin(2000); /* a transfer takes its time, in which most hosts die */
    if (below(40) == 0) {
        act(entry, (unsigned)below(8), below(3) == 0 ? 0x33 : 0);
        failed = below(2) == 0 || wrong != TIMEOUT_DONE;
    } else {
        act(entry, 8, 0);
    }
    if (entry[0] == 3) {
        memset(bytes, 0, 8);
        bytes[0] = 0x69;
        bytes[2] = below(2) ? 0x02 : 0;
        bytes[4] = fine[below(3)];
    } else if (entry[0] == 8) {
        bytes[0] = shared->gpio[entry[4]];
    }
    return failed;
}

static void drive(pasetone_host *host, uint32_t number, uint64_t argument)
{
    step = 0;
    pasetone_host_drive_kept(host, &shared->kept, number, calls[number - 1].make, argument, take, NULL);
}

/* Takes up what was kept, by the library alone. */
static void recover(pasetone_host *host)
{
    uint32_t number = pasetone_kept_under_way(&shared->kept);
    pasetone_host_take_up(host, &shared->kept);
    if (number != 0 && wrong != FORGETS) {
        pasetone_host_recover(host, &shared->kept, calls[number - 1].make);
    }
}

/* A host: what was cut again, then any call, until it is killed. */
static void host_until_killed(pasetone_host *host)
{
    uint32_t number = pasetone_kept_under_way(&shared->kept);
    uint64_t argument = shared->kept.argument;
    recover(host);
    pasetone_kept_end(&shared->kept, host);
    if (number != 0 && wrong != FORGETS) {
        drive(host, 9, 0);
        drive(host, number, argument);
    }
    for (;;) {
        number = 1 + (uint32_t)below(CALLS);
        drive(host, number, below(calls[number - 1].below));
    }
}

/* The registers that a record calls sure, and that hold another byte. */
static unsigned untrue(const uint8_t *tuner)
{
    unsigned i, found = 0;
    for (i = 0; i < PASETONE_REGISTER_COUNT; i++) {
        found += !tuner[PASETONE_TUNER_DOUBTFUL + i] && tuner[PASETONE_TUNER_SHADOW + i] != shared->registers[PASETONE_FIRST_REGISTER + i];
    }
    return found;
}

/* So many kills, or fewer where one finds a wrong host; how many records were untrue. Answers the kills, 0 where a host could not be made or killed. */
static unsigned kills(unsigned most, uint64_t seed, unsigned *within, unsigned *lies, unsigned *before)
{
    static pasetone_host host;
    unsigned done;
    memset(shared, 0, sizeof *shared);
    memset((void *)shared->registers, 0xa5, sizeof shared->registers);
    shared->random = seed;
    *within = *lies = *before = 0;
    if (pasetone_host_open(&host, PASETONE_R828D, 0x74, PASETONE_V4, 28800000).refusal != PASETONE_DONE) {
        return 0;
    }
    pasetone_kept_end(&shared->kept, &host);
    for (done = 0; done < most && (wrong == NONE || *lies == 0); done++) {
        uint64_t own = seed * 7919 + done; /* this process has numbers of its own: the host's go on in shared memory */
        pid_t child;
        own = (own * 6364136223846793005u) >> 33;
        child = fork();
        if (child == 0) {
            host_until_killed(&host);
        }
        spin(own % 400000);
        if (child < 0 || kill(child, SIGKILL) != 0 || waitpid(child, NULL, 0) != child) {
            return 0;
        }
        *within += pasetone_kept_under_way(&shared->kept) != 0;
        pasetone_host_take_up(&host, &shared->kept);
        *before += untrue(host.tuner) > 0;
        recover(&host);
        *lies += untrue(host.tuner) > 0;
    }
    return done;
}

int main(int argc, char **argv)
{
    unsigned most = argc > 1 ? (unsigned)strtoul(argv[1], NULL, 10) : 5000, within, lies, before, done, i;
    uint64_t seed = argc > 2 ? strtoull(argv[2], NULL, 10) : (uint64_t)getpid();
    int good = 1;
    shared = mmap(NULL, sizeof *shared, PROT_READ | PROT_WRITE, MAP_SHARED | MAP_ANONYMOUS, -1, 0);
    if (shared == MAP_FAILED) {
        return 2;
    }
    printf("crash: seed %llu\n", (unsigned long long)seed);
    fflush(stdout);
    for (i = 0; i < WRONGS; i++) {
        wrong = (enum wrong)i;
        done = kills(most, seed, &within, &lies, &before);
        if (wrong == NONE) {
            printf("%u kills, %u within a call: %u records untrue; of the records before the call %u\n", done, within, lies, before);
            /* A test that would find nothing is none. */
            good = good && done == most && lies == 0 && within > most / 4 && before > most / 20;
        } else {
            printf("%s: %s %u\n", names[i], lies ? "found at kill" : "NOT FOUND in", done);
            good = good && lies > 0;
        }
        fflush(stdout);
    }
    printf("crash: %s\n", good ? "right" : "WRONG");
    return good ? 0 : 1;
}
