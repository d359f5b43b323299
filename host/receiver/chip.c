/* What a control transfer does to the chips, and what the registers say of oscillator, IF and rate. */
#include <errno.h>
#include <string.h>

#include "receiver.h"

#define PAGE 1           /* of the demodulator: repeater, reset, IF, resampler */
#define CONTROL 0x01     /* its register of repeater and reset */
#define OPEN 0x08        /* 0x18 opens, 0x10 closes */
#define RESET 0x04       /* 0x14 resets */
#define POWER 0x3000     /* in block 2 */
#define POWER_OFF 0x20
#define FIRST 0x05       /* the tuner's first register that can be written */
#define LONGEST 8        /* bytes of a write to the tuner */

uint64_t receiver_random(struct receiver *r)
{
    uint64_t x = r->seed ? r->seed : 0x9e3779b97f4a7c15u;
    x ^= x << 13;
    x ^= x >> 7;
    x ^= x << 17;
    r->seed = x;
    return x * 0x2545f4914f6cdd1du;
}

static void scramble(struct receiver *r, uint8_t *bytes, size_t n)
{
    size_t i;
    for (i = 0; i < n; i++) {
        bytes[i] = (uint8_t)(receiver_random(r) >> 32);
    }
}

/* What the demodulator holds after a reset or without power: nobody knows. The repeater is closed. */
static void forget(struct receiver *r)
{
    scramble(r, &r->chip.demod[0][0], sizeof r->chip.demod);
    r->chip.demod[PAGE][CONTROL] = 0x10;
}

void receiver_power(struct receiver *r)
{
    memset(&r->chip, 0, sizeof r->chip);
    forget(r);
    scramble(r, r->chip.usb, sizeof r->chip.usb);
    scramble(r, r->chip.sys, sizeof r->chip.sys);
    scramble(r, r->chip.tuner, sizeof r->chip.tuner);
    r->on = 0;
    memset(r->late, 0, sizeof r->late);
    receiver_measure(r);
}

/* ---- by its registers ---- */

static uint64_t vco(const struct receiver *r)
{
    const uint8_t *t = r->chip.tuner;
    uint64_t n = 13u + 4u * (t[0x14] & 0x3fu) + (t[0x14] >> 6);
    uint64_t s = t[0x12] & 0x08 ? 0 : 256u * t[0x16] + t[0x15];
    return 2 * (uint64_t)r->reference * (65536 * n + s); /* in units of 2^-16 Hz */
}

/* 1: too high, -1: too low. */
static int band(const struct receiver *r)
{
    uint64_t hz = vco(r) >> 16;
    return hz >= 3600000000u ? 1 : hz < 1770000000u ? -1 : 0;
}

static int64_t shift(const struct receiver *r)
{
    const uint8_t *d = r->chip.demod[PAGE];
    int64_t word = (d[0x19] & 0x3f) << 16 | d[0x1a] << 8 | d[0x1b];
    word -= word >= 1 << 21 ? 1 << 22 : 0; /* a number of 22 bits with a sign: it moves the spectrum down by its opposite */
    return -word * 2 * (int64_t)r->reference;
}

static uint32_t rate(const struct receiver *r)
{
    const uint8_t *d = r->chip.demod[PAGE];
    uint32_t ratio = ((uint32_t)d[0x9f] << 24 | (uint32_t)d[0xa0] << 16 | (uint32_t)d[0xa1] << 8 | d[0xa2]) & 0x0fffffffu;
    uint64_t hz = ratio ? ((uint64_t)r->reference << 22) / ratio : 0;
    return hz > UINT32_MAX ? UINT32_MAX : (uint32_t)hz;
}

void receiver_measure(struct receiver *r)
{
    unsigned divider = r->chip.tuner[0x10] >> 5; /* the oscillator is the VCO by 2 to the power of 1 + divider */
    r->oscillator = (int64_t)(vco(r) * 64 >> divider);
    r->shift = shift(r);
    r->centre = r->oscillator - r->shift;
    r->rate = rate(r);
    r->locked = band(r) == 0;
    r->pins = r->chip.sys[1] & r->chip.sys[3] & ~r->chip.sys[4] & 0xffu;
}

/* ---- the demodulator ---- */

static void reset(struct receiver *r)
{
    uint8_t control = r->chip.demod[PAGE][CONTROL];
    if (r->resets == 0) {
        forget(r);
    } else if (r->resets == 2) {
        memset(r->chip.demod, 0, sizeof r->chip.demod);
    }
    r->chip.demod[PAGE][CONTROL] = control;
}

static int demod(struct receiver *r, unsigned value, unsigned index, int reads, uint8_t *data, unsigned n, uint64_t landing)
{
    uint8_t *page = r->chip.demod[index & 15];
    unsigned i, at = value >> 8;
    if (!r->on || (value & 0xff) != 0x20 || n > 2 || at + n > 256 || (index & 0xfff0) != (reads ? 0 : 0x10)) {
        return -EPIPE;
    }
    for (i = 0; i < n; i++) {
        if (reads) {
            data[i] = page[at + i];
        } else if (landing >> i & 1) {
            page[at + i] = data[i];
            if (page == r->chip.demod[PAGE] && at + i == CONTROL && data[i] & RESET) {
                reset(r);
            }
        }
    }
    return (int)n;
}

/* ---- blocks ---- */

static void power(struct receiver *r, uint8_t byte)
{
    uint32_t on = byte != POWER_OFF;
    if (on != r->on) {
        forget(r);
    }
    r->on = on;
}

static int block(struct receiver *r, unsigned value, unsigned index, int reads, uint8_t *data, unsigned n, uint64_t landing)
{
    unsigned which = index >> 8, first = which == 1 ? 0x2000 : 0x3000, i;
    uint8_t *bytes = which == 1 ? r->chip.usb : r->chip.sys;
    if ((which != 1 && which != 2) || (index & 0xff) != (reads ? 0u : 0x10u) || n > 2 || value < first || value + n > first + 4096) {
        return -EPIPE;
    }
    for (i = 0; i < n; i++) {
        if (reads) {
            data[i] = bytes[value - first + i];
        } else if (landing >> i & 1) {
            bytes[value - first + i] = data[i];
            if (which == 2 && value + i == POWER) {
                power(r, data[i]);
            }
        }
    }
    return (int)n;
}

/* ---- the tuner, behind the repeater ---- */

static uint8_t reversed(uint8_t byte)
{
    unsigned i, back = 0;
    for (i = 0; i < 8; i++) {
        back |= (byte >> i & 1u) << (7 - i);
    }
    return (uint8_t)back;
}

/* The tuner's register as it is read: its name, the lock, how its VCO stands (1 is right for an R828D and 2 for an R820T). */
static uint8_t status(const struct receiver *r, unsigned at)
{
    int fine = (r->address == 0x34 ? 2 : 1) + (band(r) ? band(r) : r->repair);
    switch (at) {
        case 0: return 0x96;
        case 2: return (uint8_t)((r->chip.tuner[2] & 0x3f) | (band(r) == 0 && r->chip.reads >= r->settle ? 0x40 : 0));
        case 4: return (uint8_t)((r->chip.tuner[4] & 0xcf) | (fine & 3) << 4);
        default: return r->chip.tuner[at];
    }
}

static int tuner_read(struct receiver *r, uint8_t *data, unsigned n)
{
    unsigned i;
    if (n == 3 && r->chip.reads < UINT32_MAX) {
        r->chip.reads++;
    }
    for (i = 0; i < n; i++) {
        data[i] = reversed(status(r, (r->chip.pointer + i) & 31));
    }
    return (int)n;
}

static int tuner_write(struct receiver *r, const uint8_t *data, unsigned n, uint64_t landing)
{
    unsigned i;
    r->chip.pointer = data[0] & 31;
    for (i = 1; i < n; i++) {
        unsigned at = data[0] + i - 1;
        if (at < FIRST || at > 0x1f || !(landing >> i & 1)) {
            continue;
        }
        r->chip.tuner[at] = data[i];
        if (at == 0x10 || (at >= 0x14 && at <= 0x16)) {
            r->chip.reads = 0;
        }
    }
    return (int)n;
}

static int tuner(struct receiver *r, unsigned value, unsigned index, int reads, uint8_t *data, unsigned n, uint64_t landing)
{
    if (!r->on || !(r->chip.demod[PAGE][CONTROL] & OPEN) || value != r->address || index != (reads ? 0x600u : 0x610u) || n == 0 || n > LONGEST) {
        return -EPIPE;
    }
    return reads ? tuner_read(r, data, n) : tuner_write(r, data, n, landing);
}

/* ---- a transfer ---- */

unsigned receiver_length(const uint8_t setup[8])
{
    return setup[6] | (unsigned)setup[7] << 8;
}

int receiver_reads(const uint8_t setup[8])
{
    return setup[0] >> 7;
}

int receiver_effect(struct receiver *r, const uint8_t setup[8], uint8_t *data, uint64_t landing)
{
    unsigned value = setup[2] | (unsigned)setup[3] << 8, index = setup[4] | (unsigned)setup[5] << 8, n = receiver_length(setup);
    int reads = receiver_reads(setup), count;
    if ((setup[0] & 0x7f) != 0x40 || setup[1] != 0 || n > RECEIVER_DATA) {
        return -EPIPE;
    }
    if (index >> 8 == 0) {
        count = demod(r, value, index, reads, data, n, landing);
    } else if (index >> 8 == 6) {
        count = tuner(r, value, index, reads, data, n, landing);
    } else {
        count = block(r, value, index, reads, data, n, landing);
    }
    receiver_measure(r);
    return count;
}
