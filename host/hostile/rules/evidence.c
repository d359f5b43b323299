/* What sections tell of the station that a receiver stands on, written down once more from the words of pasetone.h. */
#include <string.h>

#include "rules.h"

const uint16_t demod_registers[8] = {0x15, 0x19, 0x1a, 0x1b, 0x9f, 0xa0, 0xa1, 0xa2};

/* Marks and bytes of the chip's registers and of the demodulator's eight. */
struct heard {
    uint8_t chip, marks[32], bytes[32], states[8], values[8], lock;
    uint32_t tries;
};

static unsigned first_of(const uint8_t *e)
{
    return e[4] + 256u * e[5];
}

static int covers(const uint8_t *e, unsigned r)
{
    return first_of(e) <= r && r < first_of(e) + e[3];
}

/* A write after which nothing of the demodulator is sure. */
static int shakes(const uint8_t *e)
{
    if (is_demod(e)) {
        return e[2] > 15 || first_of(e) + e[3] > 256 || (e[2] == 1 && covers(e, 0x01));
    }
    return (e[0] == 6 || e[0] == 7) && e[2] == 2 && covers(e, 0x3000);
}

static void hear_chip(struct heard *h, const uint8_t *e)
{
    unsigned i, j, r;
    for (i = 1; i < e[3]; i++) {
        r = e[8] + i - 1;
        if (r < 32) {
            h->marks[r] = e[1] == 0 ? 2 : 1;
            h->bytes[r] = e[8 + i];
        }
        for (j = 0; j < 5; j++) {
            if (oscillator_registers[j] == r) {
                h->lock = 0;
                h->tries = r == 0x12 ? h->tries : 0;
            }
        }
    }
}

static void hear(const uint8_t *e, void *to)
{
    struct heard *h = to;
    int i;
    if (e[0] == 2 && e[2] == h->chip) {
        hear_chip(h, e);
    }
    if (e[0] == 3 && e[2] == h->chip && e[3] == 3 && e[1] == 0) {
        h->lock = (e[10] & 0x02) != 0 ? 2 : 1;
        h->tries++;
    }
    for (i = 0; i < 8; i++) {
        if (shakes(e)) {
            h->states[i] = 1;
        } else if (is_demod(e) && e[2] == 1 && covers(e, demod_registers[i])) {
            h->states[i] = e[1] == 0 ? 2 : 1;
            h->values[i] = e[8 + demod_registers[i] - first_of(e)];
        }
    }
}

/* Sure where all are, never where all are, else doubtful. */
static uint8_t joined(const uint8_t *marks, int n)
{
    int i;
    for (i = 1; i < n; i++) {
        if (marks[i] != marks[0]) {
            return 1;
        }
    }
    return marks[0];
}

static void put(uint8_t *to, uint64_t v, int width)
{
    for (; width > 0; width--, v >>= 8) {
        *to++ = (uint8_t)v;
    }
}

static void answer(const struct heard *h, uint64_t r, uint64_t xtal, uint8_t *to)
{
    const uint8_t *b = h->bytes, *v = h->values;
    uint64_t sum = (b[0x12] & 8) != 0 ? 0 : b[0x16] * 256u + b[0x15], lo, offset, ratio, word;
    uint8_t five[5];
    int i;
    for (i = 0; i < 5; i++) {
        five[i] = h->marks[oscillator_registers[i]];
    }
    memset(to, 0, PASETONE_EVIDENCE_SIZE);
    to[0] = joined(five, 5), to[1] = joined(h->states + 1, 3), to[2] = joined(h->states + 4, 4), to[3] = h->states[0], to[4] = h->lock;
    to[6] = to[3] == 2 ? v[0] : 0;
    lo = to[0] == 2 ? (r * (65536u * (13u + 4u * (b[0x14] & 63u) + (b[0x14] >> 6)) + sum)) << (7 - (b[0x10] >> 5)) : 0;
    word = to[1] == 2 ? (v[1] & 63u) << 16 | (unsigned)v[2] << 8 | v[3] : 0;
    offset = to[1] == 2 ? 2 * xtal * ((0x400000 - word) & 0x3fffff) : 0;
    ratio = to[2] == 2 ? (uint64_t)v[4] << 24 | (uint64_t)v[5] << 16 | (uint64_t)v[6] << 8 | v[7] : 0;
    to[5] = to[0] == to[1] ? to[0] : 1;
    to[5] = to[5] == 2 && lo < offset ? 1 : to[5];
    put(to + 8, h->tries, 4);
    put(to + 12, word, 4);
    put(to + 16, ratio, 4);
    put(to + 20, ratio == 0 ? 0 : (xtal << 22) / ratio, 8);
    put(to + 28, lo, 8);
    put(to + 36, offset, 8);
    put(to + 44, to[5] == 2 ? (lo - offset) >> 23 : 0, 8);
}

/* 0 with the 52 bytes, 4 or 12. */
uint32_t evidence_model(const struct attempt *a, uint8_t *to, size_t *length)
{
    struct heard h;
    uint32_t r = (uint32_t)a->arg[1], xtal = (uint32_t)a->arg[2];
    memset(&h, 0, sizeof h);
    h.chip = (uint8_t)a->arg[0];
    *length = 0;
    if (r == 0 || xtal == 0) {
        return 4;
    }
    if (each_entry(a->before[INPUT], a->n[INPUT], hear, &h) != 0) {
        return 12;
    }
    answer(&h, r, xtal, to);
    *length = PASETONE_EVIDENCE_SIZE;
    return 0;
}
