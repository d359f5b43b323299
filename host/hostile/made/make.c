/* What calls are given: records that were handed back and damaged ones, scripts, sections, lengths from 0 to past the need. */
#include <string.h>

#include "made.h"

#define KEPT 64

static uint8_t tuners[KEPT][PASETONE_TUNER_SIZE];
static uint8_t drivers[KEPT][PASETONE_DRIVER_SIZE];

/* Fresh records of all kinds. Later the records that calls hand back take their places, so that runs walk through states. */
void make_records(void)
{
    int i;
    for (i = 0; i < KEPT; i++) {
        uint64_t nominal = i % 4 == 0 ? 1 + below(4294967295u) : (i % 4 == 1 ? 16000000 : 28800000);
        uint64_t hz = hostile_number(), any = random_u64();
        pasetone_tuner_new((uint64_t)(i % 2), (uint8_t)any, nominal, tuners[i], sizeof tuners[i]);
        pasetone_driver_new((uint64_t)(i / 2 % 2), nominal, 0, hz, (uint32_t)any, drivers[i], sizeof drivers[i]);
    }
}

/* A record that came back from a call that took it. Some places stay fresh, or all would end in the same states. */
void keep_records(const struct attempt *a)
{
    uint64_t i = 8 + below(KEPT - 8);
    if (!pasetone_stands(a->reply) || (a->call->way == FEEDING && !a->fed.completed)) {
        return;
    }
    if (a->call->slots & HAS(NEXT)) {
        memcpy(tuners[i], a->at[NEXT], PASETONE_TUNER_SIZE);
    } else if ((a->call->slots & HAS(TUNER)) && a->n[TUNER] == PASETONE_TUNER_SIZE) {
        memcpy(tuners[i], a->at[TUNER], PASETONE_TUNER_SIZE);
    }
    if (a->call->slots & HAS(NEXT_DRIVER)) {
        memcpy(drivers[i], a->at[NEXT_DRIVER], PASETONE_DRIVER_SIZE);
    } else if (a->call->way == PPM || a->call->way == FEEDING) {
        memcpy(drivers[i], a->at[DRIVER], PASETONE_DRIVER_SIZE);
    }
}

/* Bytes that are often no record any more: another length, wrong bytes, a NaN, zeros where none may be. */
static void damage(uint8_t *bytes, size_t *n)
{
    static const uint8_t flags[] = {0, 37, 50, 51, 63, 77};
    size_t at = below(*n), i;
    uint64_t any = random_u64();
    switch (below(7)) {
    case 0:
        *n = below(*n + 8);
        random_bytes(bytes, *n);
        break;
    case 1: /* one less, the same, one more; or as much more as a tuner's record had before change request 106 */
        *n = below(4) == 0 ? *n + PASETONE_REGISTER_COUNT : *n + below(3) - 1;
        break;
    case 2:
        bytes[at] = (uint8_t)any;
        break;
    case 3:
        bytes[flags[at % sizeof flags] % *n] = (uint8_t)(any % 4);
        break;
    case 4: /* the gain's top bits, around infinity and NaN; in a driver's record, the frequency */
        bytes[41 % *n] = (uint8_t)(0x7f + 0x80 * below(2));
        bytes[40 % *n] = (uint8_t)(0x7f + below(130));
        break;
    case 5: /* a reference: 0, or one */
        memset(bytes + (*n > 40 ? 29 + 4 * below(2) : 1), 0, 4);
        bytes[*n > 40 ? 29 : 1] |= (uint8_t)below(2);
        break;
    default:
        for (i = below(6); i > 0; i--) {
            at = below(*n);
            bytes[at] ^= (uint8_t)(1u << below(8));
        }
    }
}

static void make_tuner(struct attempt *a)
{
    a->n[TUNER] = PASETONE_TUNER_SIZE;
    memcpy(a->before[TUNER], tuners[below(KEPT)], PASETONE_TUNER_SIZE);
    if (below(6) == 0) {
        damage(a->before[TUNER], &a->n[TUNER]);
    }
}

static void make_driver(struct attempt *a)
{
    a->n[DRIVER] = PASETONE_DRIVER_SIZE;
    memcpy(a->before[DRIVER], drivers[below(KEPT)], PASETONE_DRIVER_SIZE);
    if (below(6) == 0) {
        damage(a->before[DRIVER], &a->n[DRIVER]);
    }
}

/* Bytes that end in a section, or nearly. */
static void make_section(struct attempt *a)
{
    uint8_t *bytes = a->before[INPUT];
    uint64_t count = below(4000) == 0 ? 4090 + below(8) : below(12), start = below(20), i;
    random_bytes(bytes, start);
    for (i = 0; i < count; i++) {
        make_entry(bytes + start + 16 * i);
        if (a->call->way != READER && below(16) > 0) {
            tame(bytes + start + 16 * i);
        }
    }
    a->n[INPUT] = start + 16 * count + 8;
    put_u32(bytes + a->n[INPUT] - 8, count);
    put_u32(bytes + a->n[INPUT] - 4, 16 * count);
    if (a->call->way == READER || below(3) == 0) {
        damage_section(a, INPUT);
    }
}

/* Bytes for the FIR calls and the reader. */
static void make_input(struct attempt *a)
{
    int i;
    if (a->call->way == SETTINGS_READ || a->call->way == SETTINGS_MOVE) {
        make_settings(a);
        return;
    }
    if (a->call->way == RESTORING || a->call->way == EVIDENCING) {
        make_sections(a);
        return;
    }
    if (a->call->way == BANDS || a->call->way == RATING || a->call->way == HOPPING || a->call->way == FEEDING ||
        a->call->way == CENTRING) {
        make_table(a);
        return;
    }
    if (a->call->way == READER || a->call->way == PARTING || a->call->way == EXPANDING || a->call->way == HEARING) {
        make_section(a);
        if (a->call->way == HEARING) {
            make_packets(a);
        }
        return;
    }
    a->n[INPUT] = a->call->out == PASETONE_FIR_SIZE ? PASETONE_FIR_VALUES_SIZE : PASETONE_FIR_SIZE;
    random_bytes(a->before[INPUT], 128);
    for (i = 0; i < 16 && a->call->out == PASETONE_FIR_SIZE; i++) {
        uint64_t width = i < 8 ? 256 : 4096, past = below(100) == 0 ? hostile_number() : 0;
        put_u32(a->before[INPUT] + 4 * i, below(width) - width / 2 + past);
    }
    if (below(6) == 0) {
        a->n[INPUT] = below(72);
    }
}

/* All done, one step failed, few failed, or any bytes. */
static void make_outcomes(uint8_t *bytes, size_t n)
{
    uint64_t i, any = random_u64();
    memset(bytes, 0, n);
    switch (n == 0 ? 0 : below(4)) {
    case 1:
        bytes[below(n)] = (uint8_t)(1 + any % 255);
        break;
    case 2:
        for (i = below(4); i > 0; i--) {
            bytes[below(n)] = (uint8_t)(any >> 8 * i);
        }
        break;
    case 3:
        if (below(4) == 0) {
            random_bytes(bytes, n);
        }
        break;
    default:
        break;
    }
}

/* The length of a lent slice: enough, or by one of several ways not. */
static size_t make_length(size_t need, int enough)
{
    if (enough) {
        return below(3) > 0 ? need : need + below(40);
    }
    switch (below(5)) {
    case 0:
        return 0;
    case 1:
        return need > 0 ? need - 1 : 0;
    case 2:
        return below(need + 1);
    case 3:
        return need - (need < 16 ? need : 16);
    default:
        return need + below(40);
    }
}

void make_attempt(struct attempt *a, const struct call *call)
{
    int slot, enough = below(3) > 0;
    a->call = call;
    memset(a->n, 0, sizeof a->n);
    for (slot = 0; slot < FIELDS; slot++) {
        a->arg[slot] = hostile_number();
    }
    if (call->way == SETTINGS_WRITE) {
        make_fields(a);
    }
    for (slot = 0; slot < SLOTS; slot++) {
        if (!(call->slots & HAS(slot))) {
            continue;
        }
        if (slot == TUNER) {
            make_tuner(a);
        } else if (slot == DRIVER) {
            make_driver(a);
        } else if (slot == INPUT) {
            make_input(a);
        } else if (slot == SECOND) {
            make_second(a);
        } else if (slot == STREAM) {
            make_feed(a);
        } else if (slot == CHUNK) {
            continue; /* made with the stream */
        } else {
            a->n[slot] = make_length(needed(a, (enum slot)slot), enough || below(3) > 0);
            random_bytes(a->before[slot], a->n[slot]);
        }
    }
    if (call->way == STANDING || call->way == CENTRING) {
        make_standing(a);
    }
    if (call->slots & HAS(OUTCOMES)) {
        make_outcomes(a->before[OUTCOMES], a->n[OUTCOMES]);
    }
    memcpy(a->told, a->n, sizeof a->told);
}
