/*
 * Hostile input: every function of libpasetone.a, over and over, with numbers at the bounds and past them, records damaged in all ways, and
 * slices of every length from 0 to past the need. After each call it is asked whether
 *   - the refusal is the one that document 01 gives (model.c), and a call refused before its steps left every byte as it was;
 *   - reply, section and script agree, and the reader accepts the section (judge.c);
 *   - given slices, bytes past what was written, and bytes beside each slice are as they were;
 *   - the same call, repeated over other memory, does the same (every eighth: nothing is kept between calls).
 * At the end, whether each function was met done and with each refusal that pasetone.h lists for it, and with no other (2,000,000 calls or more).
 *
 * What finds what. The archive is not built with sanitizers, so they see this program only. An access of the archive past a slice is found by
 * the pages without access (memory.c), or by valgrind with `--memory heap` in a build without sanitizers; a write that stays inside the slice's
 * page is found by the canaries.
 *
 *   hostile [--calls N] [--seed N] [--memory mixed|heap|end|start] [--self-test NAME]
 *   hostile --refusals          which refusals each function can give
 *
 * Exits 0 when no call was wrong, 1 at the first that was. A self-test damages one call on purpose: it must end with 1. A seed gives the same calls
 * in every build; `all replies` is a number made of all that was answered, to tell two runs apart.
 */
#define _GNU_SOURCE
#include <signal.h>
#include <stdio.h>
#include <stdlib.h>
#include <string.h>
#include <time.h>
#include <unistd.h>

#include "judged/judged.h"
#include "made/made.h"

/* The refusal numbers are 0 to 20; one place more is for any other, which no function lists. */
#define NUMBERS 21

static struct attempt now;
static uint8_t *first[SLOTS]; /* what the slices held after a call, for its repetition */
static uint64_t seed = 1, call_number, repeated, entries_made, digest, met[64][NUMBERS + 1];
static enum memory memory = MIXED;
static const char *self_test = "";

static void print_fault(const char *wrong)
{
    int slot;
    printf("hostile: FAULT: %s: pasetone_%s, call %llu of seed %llu\n", wrong, now.call ? now.call->name : "?",
           (unsigned long long)call_number, (unsigned long long)seed);
    printf("  refusal %u, value %llu, index %llu, count %u; arguments %llu %llu %llu %llu %llu; lengths", now.reply.refusal,
           (unsigned long long)now.reply.value, (unsigned long long)now.reply.index, now.reply.count, (unsigned long long)now.arg[0],
           (unsigned long long)now.arg[1], (unsigned long long)now.arg[2], (unsigned long long)now.arg[3], (unsigned long long)now.arg[4]);
    for (slot = 0; slot < SLOTS; slot++) {
        printf(" %zu", now.n[slot]);
    }
    printf("\n");
    fflush(stdout);
}

/* The program can't go on from here, so that printing is not safe in a handler does not matter. */
static void on_signal(int number)
{
    print_fault(number == SIGALRM ? "no end" : number == SIGSEGV || number == SIGBUS ? "an access past a slice" : "a signal");
    _exit(1);
}

static int testing(const char *name)
{
    return strcmp(self_test, name) == 0;
}

/* Self-tests that damage what a feeding left. */
static void spoil_feed(void)
{
    if (testing("used") && now.fed.completed) {
        now.fed.used++;
    } else if (testing("pending") && now.reply.refusal == 14) {
        now.at[STREAM][0] = 1;
    } else if (testing("command") && now.reply.refusal == 14) {
        now.reply.refusal = 1;
    } else if (testing("left") && now.reply.refusal == 11 && now.reply.index > 0) {
        memcpy(now.at[TUNER], now.before[TUNER], PASETONE_TUNER_SIZE);
    }
}

/* Self-tests that damage what a call left. */
static void spoil(void)
{
    if (testing("given") && (now.call->slots & HAS(OUTCOMES)) && now.n[OUTCOMES] > 0) {
        now.at[OUTCOMES][0] ^= 1;
    } else if (testing("past") && (now.call->slots & HAS(ROOM)) && now.n[ROOM] > PASETONE_ROOM_FOR(now.call->entries)) {
        now.at[ROOM][now.n[ROOM] - 1] ^= 1;
    } else if (testing("beside") && (now.call->slots & HAS(NEXT))) {
        now.at[NEXT][memory == AT_START ? (long)now.n[NEXT] : -1] ^= 1;
    } else if (testing("section") && now.reply.count > 0 && now.call->entries > 0) {
        now.at[ROOM][6] = 1;
    } else if (testing("record") && now.reply.count > 0 && (now.call->slots & HAS(NEXT))) {
        now.at[NEXT][PASETONE_TUNER_LOCK] = 2;
    } else if (testing("shadow") && now.reply.count > 0 && (now.call->slots & HAS(NEXT))) {
        now.at[NEXT][PASETONE_TUNER_SHADOW + 0x14 - PASETONE_FIRST_REGISTER] ^= 1;
    } else if (testing("mark") && now.reply.count > 0 && (now.call->slots & HAS(NEXT))) {
        now.at[NEXT][PASETONE_TUNER_DOUBTFUL] ^= 1;
    } else if (testing("correction") && now.call->way == PPM && now.reply.refusal == 0) {
        memcpy(now.at[DRIVER], now.before[DRIVER], PASETONE_DRIVER_SIZE);
    } else if (testing("index") && now.reply.refusal == 11) {
        now.reply.index++;
    } else if (testing("number") && now.reply.refusal == 9) {
        now.reply.refusal = 8;
    } else if (testing("tries") && now.reply.refusal == 11 && (now.call->way == TUNING || now.call->way == HOPPING)) {
        now.tries++;
    } else if (testing("lock") && (now.call->way == TUNING || now.call->way == HOPPING) && now.reply.count > 0) {
        now.locked = now.at[NEXT][PASETONE_TUNER_LOCK];
    } else if (testing("frequency") && now.call->way == HOPPING && now.reply.refusal == 11) {
        memcpy(now.at[NEXT_DRIVER] + PASETONE_DRIVER_FREQUENCY, &now.arg[0], 8);
    } else if (testing("notch") && now.call->way == HOPPING && now.reply.count > 0) {
        now.at[NEXT][PASETONE_TUNER_NOTCH] ^= 1;
    } else if (testing("spectrum") && now.call->way == RATING && now.reply.count == 17) {
        now.at[ROOM][16 * 16 + 8] ^= 4;
    }
}

/* A call of the demodulator or the pins with every step done: it makes its most entries. */
static int makes_all(void)
{
    uint32_t i;
    for (i = 0; i < now.call->entries && now.before[OUTCOMES][i] == 0; i++) {
    }
    return i == now.call->entries && !(now.call->slots & HAS(TUNER));
}

/*
 * Self-tests that damage a call before it, one that will write entries: its room is far shorter than told, shorter by one byte (more would damage
 * what valgrind keeps beside a block), or begins too early.
 */
static void run_once(void)
{
    int writes = self_test[0] != '\0' && refusal_before_steps(&now) == 0 && !without_steps(&now);
    if (writes && testing("length")) {
        now.n[ROOM] = 8;
    } else if (writes && testing("byte") && makes_all()) {
        now.n[ROOM] = PASETONE_ROOM_FOR(now.call->entries) - 1;
    }
    place(&now, memory);
    if (writes && testing("before")) {
        now.at[ROOM] -= 16;
    }
    now.tries = now.locked = 0;
    memset(&now.fed, 0, sizeof now.fed);
    now.reply = now.call->run(&now);
    spoil();
    if (now.call->way == FEEDING) {
        spoil_feed();
    }
}

/* Once more over other memory: reply and all bytes must be the same. */
static const char *repeat(void)
{
    pasetone_reply reply = now.reply;
    uint32_t tries = now.tries, locked = now.locked, completed = now.fed.completed, pending = now.fed.pending;
    uint64_t used = now.fed.used;
    const char *wrong = NULL;
    int slot;
    for (slot = 0; slot < SLOTS; slot++) {
        if (now.call->slots & HAS(slot)) {
            memcpy(first[slot], now.at[slot], now.n[slot]);
        }
    }
    release(&now);
    run_once();
    repeated++;
    if (testing("repeat")) {
        reply.value++;
    }
    for (slot = 0; slot < SLOTS && wrong == NULL; slot++) {
        if ((now.call->slots & HAS(slot)) && now.n[slot] > 0 && memcmp(first[slot], now.at[slot], now.n[slot]) != 0) {
            wrong = "repeated, it left other bytes";
        }
    }
    if (memcmp(&reply, &now.reply, sizeof reply) != 0 || tries != now.tries || locked != now.locked || used != now.fed.used ||
        completed != now.fed.completed || pending != now.fed.pending) {
        return "repeated, it answered something else";
    }
    return wrong;
}

static const char *one_call(void)
{
    const char *wrong;
    uint64_t which = below(call_count);
    make_attempt(&now, &calls[which]);
    run_once();
    wrong = canaries(&now);
    if (wrong == NULL) {
        wrong = judge(&now);
    }
    digest = (digest ^ now.reply.value) * 0x100000001b3u + (now.reply.index << 32 ^ (uint64_t)now.reply.refusal << 16 ^ now.reply.count);
    digest += (uint64_t)now.tries << 48 ^ (uint64_t)now.locked << 56;
    digest += now.fed.used << 8 ^ (uint64_t)now.fed.completed << 24 ^ (uint64_t)now.fed.pending << 40;
    met[which][now.reply.refusal < NUMBERS ? now.reply.refusal : NUMBERS]++;
    entries_made += now.reply.count;
    if (wrong == NULL) {
        keep_records(&now);
    }
    if (wrong == NULL && call_number % 8 == 0) {
        wrong = repeat();
    }
    if (wrong == NULL) {
        release(&now);
    }
    return wrong;
}

/* Whether the call was met done, refused by each number that it can give, and by no other; over few calls only the last. */
static const char *seen(unsigned which, int all)
{
    unsigned long listed = 1, number;
    const char *rest = calls[which].refusals;
    char *end;
    unsigned k;
    for (; *rest != '\0'; rest = end) {
        number = strtoul(rest, &end, 10);
        listed |= 1ul << number;
    }
    for (k = 0; k <= NUMBERS; k++) {
        if (met[which][k] != 0 && !(listed >> k & 1)) {
            return "refused by a number that pasetone.h does not list";
        }
        if (all && met[which][k] == 0 && (listed >> k & 1)) {
            return "never done, or a refusal that pasetone.h lists was never met";
        }
    }
    return NULL;
}

static const char *seen_all(uint64_t total)
{
    const char *wrong = NULL;
    unsigned i;
    for (i = 0; i < call_count && wrong == NULL; i++) {
        now.call = &calls[i];
        wrong = seen(i, total >= 2000000);
    }
    return wrong;
}

static void print_summary(uint64_t total, double seconds)
{
    uint64_t fewest = total, sum;
    unsigned i, k;
    printf("hostile: by refusal:");
    for (k = 0; k < NUMBERS; k++) {
        for (i = 0, sum = 0; i < call_count; i++) {
            sum += met[i][k];
        }
        printf(" %u: %llu%s", k, (unsigned long long)sum, k < NUMBERS - 1 ? "," : "\n");
    }
    for (i = 0; i < call_count; i++) {
        for (k = 0, sum = 0; k <= NUMBERS; k++) {
            sum += met[i][k];
        }
        fewest = sum < fewest ? sum : fewest;
    }
    printf("hostile: %u functions, each at least %llu times; %llu repeated; %llu entries; %.1f s\n", call_count, (unsigned long long)fewest,
           (unsigned long long)repeated, (unsigned long long)entries_made, seconds);
    printf("hostile: all replies %016llx\n", (unsigned long long)digest);
    printf("hostile: %llu checks, 0 faults\n", (unsigned long long)total);
}

/* What calls.c says that each function can refuse, to be held against pasetone.h. */
static void print_refusals(void)
{
    unsigned i;
    for (i = 0; i < call_count; i++) {
        printf("pasetone_%s: %s\n", calls[i].name, calls[i].refusals);
    }
}

static uint64_t options(int argc, char **argv)
{
    static const char *const places[] = {"mixed", "heap", "end", "start"};
    uint64_t total = 1000000;
    int i, k;
    if (argc == 2 && strcmp(argv[1], "--refusals") == 0) {
        print_refusals();
        exit(0);
    }
    for (i = 1; i + 1 < argc; i += 2) {
        if (strcmp(argv[i], "--calls") == 0) {
            total = strtoull(argv[i + 1], NULL, 10);
        } else if (strcmp(argv[i], "--seed") == 0) {
            seed = strtoull(argv[i + 1], NULL, 10);
        } else if (strcmp(argv[i], "--self-test") == 0) {
            self_test = argv[i + 1];
        } else if (strcmp(argv[i], "--memory") == 0) {
            for (k = 0; k < 4 && strcmp(argv[i + 1], places[k]) != 0; k++) {
            }
            memory = (enum memory)k;
        }
    }
    if (i < argc || memory > AT_START || total == 0) {
        fprintf(stderr, "hostile [--calls N] [--seed N] [--memory mixed|heap|end|start] [--self-test NAME]\n");
        exit(2);
    }
    printf("hostile: seed %llu, %llu calls, memory %s\n", (unsigned long long)seed, (unsigned long long)total, places[memory]);
    return total;
}

int main(int argc, char **argv)
{
    static const int signals[] = {SIGSEGV, SIGBUS, SIGILL, SIGFPE, SIGALRM};
    uint64_t total = options(argc, argv);
    const char *wrong;
    time_t began = time(NULL);
    unsigned i;
    for (i = 0; i < sizeof signals / sizeof *signals; i++) {
        signal(signals[i], on_signal);
    }
    for (i = 0; i < SLOTS; i++) {
        first[i] = malloc(LONGEST);
    }
    random_seed(seed);
    memory_open(&now);
    make_records();
    for (call_number = 1; call_number <= total; call_number++) {
        if (call_number % 65536 == 1) {
            alarm(300); /* calls are short: a call without end is one that this stops */
        }
        wrong = one_call();
        if (wrong != NULL) {
            print_fault(wrong);
            return 1;
        }
    }
    wrong = seen_all(total);
    if (wrong != NULL) {
        print_fault(wrong);
        return 1;
    }
    print_summary(total, difftime(time(NULL), began));
    return 0;
}
