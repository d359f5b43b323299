/* How a transfer goes: by its number, by chance, or well. */
#include <errno.h>
#include <signal.h>
#include <string.h>
#include <unistd.h>

#include "receiver.h"

#define ALL UINT64_MAX

/* The way of the transfer at hand. */
static enum way drawn(struct receiver *r)
{
    uint64_t number = r->sent++;
    unsigned way;
    if (number == r->fails_at && r->fails_by < WAYS) {
        return (enum way)r->fails_by;
    }
    if (r->odds == 0 || (receiver_random(r) & 0xffff) >= r->odds) {
        return WAY_DONE;
    }
    way = (unsigned)(receiver_random(r) >> 32) % WAYS;
    return r->ways >> way & 1 ? (enum way)way : WAY_DONE;
}

static void note(struct receiver *r, const uint8_t *setup, const uint8_t *data, int count, enum way way)
{
    struct transfer *kept = &r->log[(r->sent - 1) % RECEIVER_LOG];
    unsigned n = receiver_length(setup);
    memset(kept, 0, sizeof *kept);
    memcpy(kept->setup, setup, sizeof kept->setup);
    n = n > sizeof kept->data ? (unsigned)sizeof kept->data : n;
    if (receiver_reads(setup) && (int)n > count) {
        n = count < 0 ? 0 : (unsigned)count;
    }
    memcpy(kept->data, data, n);
    kept->count = count;
    kept->way = way;
    r->failed += way != WAY_DONE;
}

/* It lands later: behind those that wait already; where all places are taken, the first of them lands now. */
static void put_off(struct receiver *r, const uint8_t *setup, const uint8_t *data, uint64_t due)
{
    unsigned i, n = receiver_length(setup);
    if (n > RECEIVER_DATA || receiver_reads(setup)) {
        return;
    }
    if (r->late[RECEIVER_LATE - 1].due) {
        receiver_land(r, r->late[0].due);
    }
    for (i = 0; i < RECEIVER_LATE; i++) {
        if (r->late[i].due == 0) {
            r->late[i].due = due;
            memcpy(r->late[i].setup, setup, 8);
            memcpy(r->late[i].data, data, n);
            return;
        }
    }
}

void receiver_land(struct receiver *r, uint64_t now)
{
    while (r->late[0].due && r->late[0].due <= now) {
        struct late first = r->late[0];
        memmove(&r->late[0], &r->late[1], sizeof r->late - sizeof r->late[0]);
        memset(&r->late[RECEIVER_LATE - 1], 0, sizeof r->late[0]);
        receiver_effect(r, first.setup, first.data, ALL);
    }
}

static int unplugged(struct receiver *r)
{
    r->gone = 1;
    receiver_power(r);
    return -ENODEV;
}

static int killed(void)
{
    kill(getpid(), SIGKILL);
    return -EINTR;
}

/* Fewer bytes than asked for: those went, and no others. */
static int fewer(struct receiver *r, const uint8_t *setup, uint8_t *data)
{
    unsigned n = receiver_length(setup), some = n ? (unsigned)(receiver_random(r) >> 32) % n : 0;
    uint8_t whole[RECEIVER_DATA] = {0};
    int count;
    if (n > RECEIVER_DATA) {
        return -EPIPE;
    }
    if (!receiver_reads(setup)) {
        memcpy(whole, data, n);
    }
    count = receiver_effect(r, setup, whole, ((uint64_t)1 << some) - 1);
    if (receiver_reads(setup)) {
        memcpy(data, whole, some);
    }
    return count < 0 ? count : (int)some;
}

/* What becomes of a transfer that fails. It is noted first where the host will not see the end of it. */
static int failing(struct receiver *r, enum way way, const uint8_t *setup, uint8_t *data, uint64_t due)
{
    static const uint64_t landing[WAYS] = {[WAY_STALL_AFTER] = ALL, [WAY_TIMEOUT_LANDED] = ALL, [WAY_KILLED_AFTER] = ALL};
    uint64_t which = way == WAY_STALL_PART || way == WAY_KILLED_PART ? receiver_random(r) >> 32 : landing[way];
    uint8_t copy[RECEIVER_DATA] = {0};
    if (!receiver_reads(setup) && receiver_length(setup) <= sizeof copy) {
        memcpy(copy, data, receiver_length(setup));
    }
    if (which) {
        receiver_effect(r, setup, copy, which);
    }
    switch (way) {
        case WAY_TIMEOUT_LATE: put_off(r, setup, data, due); return -ETIMEDOUT;
        case WAY_TIMEOUT_LOST:
        case WAY_TIMEOUT_LANDED: return -ETIMEDOUT;
        case WAY_SHORT: return fewer(r, setup, data);
        case WAY_UNPLUGGED: return unplugged(r);
        case WAY_KILLED_BEFORE:
        case WAY_KILLED_AFTER:
        case WAY_KILLED_PART: note(r, setup, data, -EINTR, way); return killed();
        default: return -EPIPE;
    }
}

int receiver_control(struct receiver *r, const uint8_t setup[8], uint8_t *data, uint64_t now, uint64_t timeout)
{
    enum way way;
    int count;
    if (r->gone) {
        return -ENODEV;
    }
    receiver_land(r, now);
    way = drawn(r);
    if (way == WAY_DONE) {
        count = receiver_effect(r, setup, data, ALL);
    } else {
        count = failing(r, way, setup, data, now + timeout + r->afterwards * (uint64_t)1000000);
    }
    note(r, setup, data, count, way);
    return count;
}
