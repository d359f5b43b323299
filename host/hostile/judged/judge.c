/* Whether a call did what pasetone.h says, and no more. */
#include <string.h>

#include "judged.h"

static int same_from(const struct attempt *a, int slot, size_t from)
{
    return a->n[slot] <= from || memcmp(a->at[slot] + from, a->before[slot] + from, a->n[slot] - from) == 0;
}

/* The bytes of a slot that a done or stopped call may write, from its start. */
static size_t written(const struct attempt *a, int slot)
{
    switch (slot) {
    case ROOM:
        return without_steps(a) ? 0 : PASETONE_ROOM_FOR(a->reply.count);
    case NEXT:
    case NEXT_DRIVER:
    case OUT:
        return needed(a, (enum slot)slot);
    default:
        return 0;
    }
}

/* `set_ppm` changes both given records, `apply_notch` the tuner's. */
static int in_place(const struct call *call, int slot)
{
    return (slot == TUNER && (call->way == PPM || call->way == NOTCH)) || (slot == DRIVER && call->way == PPM);
}

/* This field of a given record has changed, and no other byte of it. */
static const char *judge_field(const struct attempt *a, int slot, size_t at, unsigned width, uint64_t must)
{
    if (memcmp(a->at[slot], a->before[slot], at) != 0 || !same_from(a, slot, at + width)) {
        return "the record has changed past its field";
    }
    return number_at(a->at[slot] + at, width) == must ? NULL : "the record's field is wrong";
}

static const char *judge_in_place(const struct attempt *a)
{
    uint64_t nominal = number_at(a->before[TUNER] + PASETONE_TUNER_NOMINAL, 4);
    const char *wrong;
    if (a->call->way == NOTCH) {
        return judge_field(a, TUNER, PASETONE_TUNER_NOTCH, 1, (uint8_t)a->arg[0] != 0);
    }
    wrong = judge_field(a, TUNER, PASETONE_TUNER_CORRECTED, 4, corrected(nominal, (int32_t)(uint32_t)a->arg[0]));
    return wrong != NULL ? wrong : judge_field(a, DRIVER, PASETONE_DRIVER_PPM, 4, (uint32_t)a->arg[0]);
}

static const char *judge_bytes(const struct attempt *a, int stands)
{
    int slot;
    for (slot = 0; slot < SLOTS; slot++) {
        if (!(a->call->slots & HAS(slot)) || (stands && in_place(a->call, slot))) {
            continue;
        }
        if (!same_from(a, slot, stands ? written(a, slot) : 0)) {
            return "a byte has changed that should have stayed";
        }
    }
    return stands && in_place(a->call, TUNER) ? judge_in_place(a) : NULL;
}

/* A driver's rates: of a fresh one as given and 0; after a call that has set one as asked and the true one; else as they were. */
static const char *judge_rates(const struct attempt *a)
{
    const uint8_t *was = a->before[DRIVER], *is = a->at[NEXT_DRIVER];
    uint64_t rate, actual;
    if (!(a->call->slots & HAS(DRIVER))) {
        rate = (uint32_t)a->arg[4];
        actual = 0;
    } else if (a->call->way == RATING && a->reply.refusal == 0) {
        rate = (uint32_t)a->arg[0];
        actual = true_rate_model(rate, driver_xtal(was));
    } else {
        rate = number_at(was + PASETONE_DRIVER_RATE, 4);
        actual = number_at(was + PASETONE_DRIVER_TRUE_RATE, 8);
    }
    if (number_at(is + PASETONE_DRIVER_RATE, 4) != rate || number_at(is + PASETONE_DRIVER_TRUE_RATE, 8) != actual) {
        return "the next driver record has other rates";
    }
    return NULL;
}

/*
 * Change request 106: shadow and marks follow every write of the section, done or not, and nothing else. A write's first byte is its first register; the
 * ones behind it go upward. So a call that was done or stopped leaves, for each register, the last byte tried.
 */
static int follows_writes(const struct attempt *a)
{
    uint8_t shadow[PASETONE_REGISTER_COUNT], marks[PASETONE_REGISTER_COUNT];
    uint64_t i;
    unsigned k;
    memcpy(shadow, a->before[TUNER] + PASETONE_TUNER_SHADOW, sizeof shadow);
    memcpy(marks, a->before[TUNER] + PASETONE_TUNER_DOUBTFUL, sizeof marks);
    for (i = 0; i < a->reply.count; i++) {
        const uint8_t *e = a->at[ROOM] + 16 * i;
        for (k = 1; e[0] == 2 && k < e[3]; k++) {
            unsigned at = e[8] + k - 1 - PASETONE_FIRST_REGISTER;
            if (at < PASETONE_REGISTER_COUNT) {
                shadow[at] = e[8 + k];
                marks[at] = e[1];
            }
        }
    }
    return memcmp(a->at[NEXT] + PASETONE_TUNER_SHADOW, shadow, sizeof shadow) == 0 &&
           memcmp(a->at[NEXT] + PASETONE_TUNER_DOUBTFUL, marks, sizeof marks) == 0;
}

/* A next record is one, of the same chip or board, and a tuner's shadow is what was sent. */
static const char *judge_next(const struct attempt *a)
{
    unsigned slots = a->call->slots;
    if ((slots & HAS(NEXT)) && !tuner_is_record(a->at[NEXT], PASETONE_TUNER_SIZE)) {
        return "the next tuner record is none";
    }
    if ((slots & HAS(NEXT_DRIVER)) && !driver_is_record(a->at[NEXT_DRIVER], PASETONE_DRIVER_SIZE)) {
        return "the next driver record is none";
    }
    if ((slots & HAS(NEXT)) && (slots & HAS(TUNER)) &&
        (memcmp(a->at[NEXT], a->before[TUNER], 2) != 0 ||
         memcmp(a->at[NEXT] + PASETONE_TUNER_NOMINAL, a->before[TUNER] + PASETONE_TUNER_NOMINAL, 8) != 0)) {
        return "the next tuner record is of another chip";
    }
    if ((slots & HAS(NEXT)) && (slots & HAS(TUNER)) && !follows_writes(a)) {
        return "the shadow or a mark is not what the section sent";
    }
    if ((slots & HAS(NEXT_DRIVER)) && (slots & HAS(DRIVER)) &&
        (memcmp(a->at[NEXT_DRIVER], a->before[DRIVER], 5) != 0 ||
         (a->call->way != HOPPING &&
          memcmp(a->at[NEXT_DRIVER] + PASETONE_DRIVER_FREQUENCY, a->before[DRIVER] + PASETONE_DRIVER_FREQUENCY, 8) != 0))) {
        return "the next driver record is of another board";
    }
    return (slots & HAS(NEXT_DRIVER)) ? judge_rates(a) : NULL;
}

/* Entry i as its script has it: the outcome, and for a read the replies from *used on. */
static int by_script(const struct attempt *a, uint64_t i, size_t *used)
{
    const uint8_t *e = a->at[ROOM] + 16 * i;
    uint8_t failed = e[0] != 9 && a->before[OUTCOMES][i] != 0;
    if (e[1] != failed) {
        return 0;
    }
    if ((e[0] == 3 || e[0] == 8) && !failed) {
        *used += e[3];
        return *used <= a->n[REPLIES] && memcmp(e + 8, a->before[REPLIES] + *used - e[3], e[3]) == 0;
    }
    return 1;
}

static int is_closing(const uint8_t *e)
{
    return e[0] == 1 && e[8] == 0;
}

/* The section is one, its entries follow the script, and the refusal is the one that they show. */
static const char *judge_section(const struct attempt *a)
{
    const pasetone_reply *r = &a->reply;
    uint64_t start, count, stop = r->count, i;
    size_t used = 0;
    pasetone_section read;
    if (r->count > a->call->entries) {
        return "more entries than the call's most";
    }
    read = pasetone_read_section(a->at[ROOM], PASETONE_ROOM_FOR(r->count));
    if (read.refusal != 0 || read.start != 0 || read.count != r->count) {
        return "the reader does not accept the section";
    }
    if (read_model(a->at[ROOM], PASETONE_ROOM_FOR(r->count), &start, &count) != 0) {
        return "the section is none";
    }
    for (i = 0; i < r->count; i++) {
        const uint8_t *e = a->at[ROOM] + 16 * i;
        if (!by_script(a, i, &used)) {
            return "an entry is not as its script has it";
        }
        if (stop == r->count && e[1] == 1 && !is_closing(e)) {
            stop = i;
        }
    }
    if (stop == r->count) {
        int late = r->refusal == 2 && ((a->call->way == TUNING && r->count == 13) || (a->call->way == HOPPING && (r->count == 13 || r->count == 23)));
        return r->refusal == 0 || late ? NULL : "refused although no step failed";
    }
    if (r->refusal != 11 || r->index != stop) {
        return "a step failed, and the reply says something else";
    }
    if (r->count > stop + 2 || (r->count == stop + 2 && !is_closing(a->at[ROOM] + 16 * (stop + 1)))) {
        return "steps were taken behind the one that failed";
    }
    return NULL;
}

/*
 * Change request 101: the tries are the three-byte reads of the section that were done, and it locked where one of them has the lock bit, 0x40 of
 * the third byte with its bits reversed. Without a step there are none.
 */
static const char *judge_lock(const struct attempt *a)
{
    uint32_t tries = 0, locked = 0;
    uint64_t i;
    for (i = 0; i < a->reply.count; i++) {
        const uint8_t *e = a->at[ROOM] + 16 * i;
        if (e[0] == 3 && e[1] == 0 && e[3] == 3) {
            tries++;
            locked |= (e[10] >> 1) & 1u;
        }
    }
    return a->tries == tries && a->locked == locked ? NULL : "the tries or the lock told are not the section's";
}

/* A call that takes no step, not refused for what it was given. */
static const char *judge_stepless(const struct attempt *a)
{
    uint64_t start, count = 0;
    const uint8_t *bytes;
    size_t length;
    if (is_measured(a->call)) {
        measured_model(a, &bytes, &length);
        if (memcmp(a->at[OUT], bytes, length) != 0) {
            return "the packets, entries or writes are others";
        }
    }
    if (a->call->way == READER) {
        read_model(a->before[INPUT], a->n[INPUT], &start, &count);
    } else if (a->call->way == PARTING) {
        parting_model(a, &start, &count);
    }
    return a->reply.refusal == 0 && a->reply.count == count ? NULL : "refused, or a wrong count of entries";
}

static const char *judge_call(const struct attempt *a)
{
    const pasetone_reply *r = &a->reply;
    uint32_t before = refusal_before_steps(a);
    const char *wrong = a->call->way == TUNING || a->call->way == HOPPING ? judge_lock(a) : NULL;
    if (wrong != NULL) {
        return wrong;
    }
    if (before != 0) {
        if (r->refusal != before) {
            return "not refused by the number that it should be";
        }
        return r->value != 0 || r->index != 0 || r->count != 0 ? "a refusal with a value, an index or entries" : judge_bytes(a, 0);
    }
    wrong = without_steps(a) ? judge_stepless(a) : judge_section(a);
    if (wrong != NULL) {
        return wrong;
    }
    if (r->refusal != 11 && r->index != 0) {
        return "an index beside no refusal 11";
    }
    if (r->value != (r->refusal == 0 ? a->call->value(a) : 0)) {
        return "a wrong value";
    }
    wrong = judge_bytes(a, 1);
    if (wrong == NULL && (a->call->way == SETTINGS_WRITE || a->call->way == SETTINGS_MOVE)) {
        wrong = judge_image(a);
    }
    if (wrong == NULL && (a->call->way == BANDS || a->call->way == BUILT_IN)) {
        wrong = judge_bands(a);
    }
    if (wrong == NULL && (a->call->way == RATING || a->call->way == HOPPING)) {
        wrong = judge_hop(a);
    }
    return wrong != NULL ? wrong : judge_next(a);
}

const char *judge(const struct attempt *a)
{
    struct attempt inner;
    const char *wrong;
    if (a->call->way != FEEDING) {
        return judge_call(a);
    }
    wrong = judge_feed(a, &inner);
    return wrong != NULL || inner.call == NULL ? wrong : judge_call(&inner);
}
