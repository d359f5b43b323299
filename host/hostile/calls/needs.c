/* What a call asks to be lent, and by which number it is refused before its first step. */
#include <string.h>

#include "calls.h"

/* The call of a command with its argument; a null pointer where "an unknown operation or nonzero unused bytes" make it 14. */
const struct call *call_of(const uint8_t *command, uint64_t *argument)
{
    size_t i;
    if (command[0] == 0 || command[0] >= OPERATIONS) {
        return NULL;
    }
    for (i = 1 + operations[command[0]].width; i < WHOLE; i++) {
        if (command[i] != 0) {
            return NULL;
        }
    }
    *argument = number_at(command + 1, 8);
    for (i = 0; i < call_count && strcmp(calls[i].name, operations[command[0]].call) != 0; i++) {
    }
    return &calls[i];
}

/* What a feeding asks for of outcomes, replies and room: what its command's call does. */
static size_t feed_need(const struct attempt *a, enum slot slot)
{
    struct attempt inner = *a;
    uint8_t command[WHOLE];
    uint64_t held;
    inner.call = completes(a, command, &held) ? call_of(command, &inner.arg[0]) : NULL;
    return inner.call != NULL && (inner.call->slots & HAS(slot)) ? needed(&inner, slot) : 0;
}

size_t needed(const struct attempt *a, enum slot slot)
{
    const struct call *call = a->call;
    const uint8_t *bytes;
    uint8_t table[PASETONE_TABLE_FOR(PASETONE_TABLE_BANDS)];
    size_t length;
    if (call->way == FEEDING) {
        return feed_need(a, slot);
    }
    switch (slot) {
    case OUTCOMES:
        return call->entries;
    case REPLIES:
        return call->replies;
    case ROOM:
        return PASETONE_ROOM_FOR(call->entries);
    case NEXT:
        return PASETONE_TUNER_SIZE;
    case NEXT_DRIVER:
        return PASETONE_DRIVER_SIZE;
    case OUT:
        if (call->way == BUILT_IN) {
            return built_in_model(a->arg[0], table);
        }
        if (!is_measured(call)) {
            return call->out;
        }
        measured_model(a, &bytes, &length);
        return length;
    default:
        return 0;
    }
}

/* A call that takes no step: it has none, or it is the input path of an R820T. Asked of records that are ones. */
int without_steps(const struct attempt *a)
{
    return a->call->entries == 0 || (a->call->way == CHIP_PATH && a->before[TUNER][PASETONE_TUNER_KIND] == PASETONE_R820T);
}

static int too_short(const struct attempt *a, enum slot slot)
{
    return (a->call->slots & HAS(slot)) && a->n[slot] < needed(a, slot);
}

/* 0, or the number that every byte has to stay as it was for. */
uint32_t refusal_before_steps(const struct attempt *a)
{
    unsigned slots = a->call->slots;
    uint32_t number;
    int free;
    if ((slots & HAS(TUNER)) && !tuner_is_record(a->before[TUNER], a->n[TUNER])) {
        return 1;
    }
    if ((slots & HAS(DRIVER)) && !driver_is_record(a->before[DRIVER], a->n[DRIVER])) {
        return 1;
    }
    number = a->call->argument(a);
    if (number != 0) {
        return number;
    }
    free = without_steps(a);
    if (too_short(a, NEXT) || too_short(a, NEXT_DRIVER) || too_short(a, OUT) || (!free && too_short(a, ROOM))) {
        return 8;
    }
    if (!free && too_short(a, OUTCOMES)) {
        return 9;
    }
    return !free && too_short(a, REPLIES) ? 10 : 0;
}
