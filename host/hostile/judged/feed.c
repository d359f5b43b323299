/* A feeding. What a completed command must do is what judge.c asks of its call made by itself, with the records after it in the place of the next ones. */
#include <string.h>

#include "judged.h"

static int same(const struct attempt *a, enum slot slot)
{
    return memcmp(a->at[slot], a->before[slot], a->n[slot]) == 0;
}

static int all_same(const struct attempt *a, unsigned slots)
{
    int slot;
    for (slot = 0; slot < SLOTS; slot++) {
        if ((slots & HAS(slot)) && a->n[slot] > 0 && !same(a, (enum slot)slot)) {
            return 0;
        }
    }
    return 1;
}

/* An answer of its number alone, and these slices as they were. */
static const char *judge_bare(const struct attempt *a, uint32_t refusal, unsigned slots)
{
    if (a->reply.refusal != refusal) {
        return "not refused by the number that it should be";
    }
    if (a->reply.value != 0 || a->reply.index != 0 || a->reply.count != 0 || a->tries != 0 || a->locked != 0) {
        return "a feeding without a call tells of one";
    }
    return all_same(a, slots) ? NULL : "a byte has changed that should have stayed";
}

/* "An incomplete command .. does nothing": its bytes are pending. */
static const char *judge_pending(const struct attempt *a, uint64_t held)
{
    uint8_t image[WHOLE] = {0};
    image[0] = (uint8_t)(held + a->n[CHUNK]);
    memcpy(image + 1, a->before[STREAM] + 1, held);
    memcpy(image + 1 + held, a->before[CHUNK], a->n[CHUNK]);
    if (memcmp(a->at[STREAM], image, WHOLE) != 0) {
        return "other bytes are pending";
    }
    return judge_bare(a, 0, a->call->slots & ~HAS(STREAM));
}

/* The command by its own call. What that call does not take has to stay, and a record that it takes and does not change lies where its next one is looked for. */
static const char *by_itself(const struct attempt *a, const struct call *call, uint64_t argument, struct attempt *inner)
{
    unsigned changed = call->way == PPM ? HAS(TUNER) | HAS(DRIVER) : (call->slots & HAS(NEXT_DRIVER)) ? HAS(ROOM) | HAS(TUNER) | HAS(DRIVER) : HAS(ROOM) | HAS(TUNER);
    *inner = *a;
    inner->call = call;
    inner->arg[0] = argument;
    if (call->way != PPM) {
        inner->at[NEXT] = a->at[TUNER];
        inner->at[NEXT_DRIVER] = a->at[DRIVER];
        inner->at[TUNER] = inner->before[NEXT] = a->before[TUNER];
        inner->at[DRIVER] = inner->before[NEXT_DRIVER] = a->before[DRIVER];
        inner->n[NEXT] = a->n[TUNER];
        inner->n[NEXT_DRIVER] = a->n[DRIVER];
    }
    if (!all_same(a, a->call->slots & ~(changed | HAS(STREAM)))) {
        return "a byte has changed that should have stayed";
    }
    if (call->way != TUNING && (a->tries != 0 || a->locked != 0)) {
        return "tries or a lock without a tuning";
    }
    return NULL;
}

const char *judge_feed(const struct attempt *a, struct attempt *inner)
{
    static const uint8_t empty[WHOLE];
    uint8_t command[WHOLE];
    uint64_t held, argument, used, pending;
    const struct call *call;
    int whole = completes(a, command, &held), none = stream_model(a->before[STREAM], a->n[STREAM], &held) != 0;
    inner->call = NULL;
    used = none ? 0 : whole ? WHOLE - held : a->n[CHUNK];
    pending = none || whole ? 0 : held + a->n[CHUNK];
    if (a->fed.used != used || a->fed.completed != (uint32_t)whole || a->fed.pending != pending) {
        return "it tells other bytes used or pending, or another end of a command";
    }
    if (none) {
        return judge_bare(a, 1, a->call->slots);
    }
    if (!whole) {
        return judge_pending(a, held);
    }
    if (memcmp(a->at[STREAM], empty, WHOLE) != 0) {
        return "bytes are pending behind a command that was completed";
    }
    call = call_of(command, &argument);
    if (call == NULL) {
        return judge_bare(a, 14, a->call->slots & ~HAS(STREAM));
    }
    if (!tuner_is_record(a->before[TUNER], a->n[TUNER]) || !driver_is_record(a->before[DRIVER], a->n[DRIVER])) {
        return judge_bare(a, 1, a->call->slots & ~HAS(STREAM));
    }
    return by_itself(a, call, argument, inner);
}
