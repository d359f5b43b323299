/* Document 02, #107, written down once more: a section as setup packets of USB 2.0, and packets as the entries again. */
#include <string.h>

#include "rules.h"

const uint8_t sync_read[8] = {0xc0, 0x00, 0x20, 0x01, 0x0a, 0x00, 0x01, 0x00};

/* "demod register above 0xff, page above 15, or block 0 or 6" */
static int looks_alike(const uint8_t *e)
{
    return (is_demod(e) && (e[5] != 0 || e[2] > 15)) || (e[0] > 5 && e[0] < 9 && (e[2] == 0 || e[2] == 6));
}

/* What an entry becomes, at most 18 bytes; how many. */
static size_t become(const uint8_t *e, uint8_t *to)
{
    uint8_t own[16];
    size_t n = 8;
    memcpy(own, e, 16);
    if (e[0] == 9) {
        return 0;
    }
    if (e[0] == 1) {
        own[0] = 4, own[2] = 1, own[4] = 1, own[8] = e[8] ? 0x18 : 0x10;
    }
    memset(to, 0, 8);
    to[0] = is_read(own) ? 0xc0 : 0x40;
    to[6] = own[3];
    if (is_demod(own)) {
        to[2] = 0x20, to[3] = own[4], to[4] = (uint8_t)(0x10 + own[2]);
    } else if (own[0] < 4) {
        to[2] = own[2], to[4] = is_read(own) ? 0x00 : 0x10, to[5] = 0x06;
    } else {
        to[2] = own[4], to[3] = own[5], to[4] = is_read(own) ? 0x00 : 0x10, to[5] = own[2];
    }
    if (!is_read(own)) {
        memcpy(to + n, own + 8, own[3]);
        n += own[3];
    }
    if (is_demod(own) && own[1] == 0) {
        memcpy(to + n, sync_read, 8);
        n += 8;
    }
    return n;
}

/* 0, 12 or 15; the packets and how many bytes they have. */
uint32_t expand_model(const uint8_t *bytes, size_t n, uint8_t *to, size_t *length)
{
    uint64_t start, count, i;
    uint32_t number = read_model(bytes, n, &start, &count);
    *length = 0;
    for (i = 0; number == 0 && i < count; i++) {
        const uint8_t *e = bytes + start + 16 * i;
        if (looks_alike(e)) {
            number = 15;
        } else {
            *length += become(e, to + *length);
        }
    }
    return number;
}

/* The entry whose packets some bytes begin with, its outcome 0; how many bytes they have, or 0. */
static size_t begin(const uint8_t *bytes, size_t n, uint8_t *e)
{
    uint8_t own[18];
    size_t used, long_enough;
    int kind;
    for (kind = 2; n >= 8 && kind <= 8; kind++) {
        memset(e, 0, 16);
        e[0] = (uint8_t)kind;
        e[2] = kind < 4 ? bytes[2] : kind < 6 ? bytes[4] & 15 : bytes[5];
        e[3] = bytes[6];
        e[4] = kind < 4 ? 0 : kind < 6 ? bytes[3] : bytes[2];
        e[5] = kind < 6 ? 0 : bytes[3];
        if (e[3] > 8 || (!is_read(e) && n < (size_t)8 + e[3])) {
            continue;
        }
        if (!is_read(e)) {
            memcpy(e + 8, bytes + 8, e[3]);
        }
        if (!entry_fits(e) || looks_alike(e)) {
            continue;
        }
        used = become(e, own);
        long_enough = is_read(e) ? 8 : (size_t)8 + e[3];
        if (memcmp(own, bytes, long_enough) != 0) {
            continue;
        }
        return n >= used && memcmp(own, bytes, used) == 0 ? used : long_enough;
    }
    return 0;
}

/* 0 or 15; the section and how many bytes it has. */
uint32_t hear_model(const uint8_t *bytes, size_t n, uint8_t *to, size_t *length)
{
    size_t at = 0, count = 0, used;
    uint8_t e[16];
    *length = 0;
    while (at < n) {
        used = begin(bytes + at, n - at, e);
        if (used == 0 || count == 4096) {
            return 15;
        }
        memcpy(to + 16 * count, e, 16);
        count++;
        at += used;
    }
    to += 16 * count;
    for (used = 0; used < 4; used++) {
        to[used] = (uint8_t)(count >> 8 * used);
        to[4 + used] = (uint8_t)(16 * count >> 8 * used);
    }
    *length = 16 * count + 8;
    return 0;
}
