/* Boards from a table: document 02's #113, written down a second time in C. */
#include <string.h>

#include "rules.h"

#define BAND 27
#define MOST 16

static uint64_t first_of(const uint8_t *band)
{
    return number_at(band, 8);
}

static uint64_t last_of(const uint8_t *band)
{
    return number_at(band + 8, 8);
}

/* "up to 16 bands"; "Bands ascend and don't overlap": every one above every one before it. */
static int well_formed(const uint8_t *table, size_t n)
{
    size_t count = n / BAND, i, j;
    if (n != BAND * count || count > MOST) {
        return 0;
    }
    for (i = 0; i < count; i++) {
        const uint8_t *band = table + BAND * i;
        if (first_of(band) > last_of(band) || band[24] > 1 || band[25] > 3 || band[26] > 1) {
            return 0;
        }
        for (j = 0; j < i; j++) {
            if (last_of(table + BAND * j) >= first_of(band)) {
                return 0;
            }
        }
    }
    return 1;
}

/* "for a malformed table; then 2 for a frequency in no band or shifted below 0 or past u64" */
uint32_t table_model(const uint8_t *table, size_t n, uint64_t hz, uint64_t *tuned, uint8_t *plan)
{
    size_t i;
    *tuned = 0;
    if (!well_formed(table, n)) {
        return 19;
    }
    for (i = n / BAND; i-- > 0;) {
        const uint8_t *band = table + BAND * i;
        uint64_t shift = number_at(band + 16, 8), down = 0 - shift;
        int negative = band[23] >> 7;
        if (hz < first_of(band) || hz > last_of(band)) {
            continue;
        }
        if (negative ? hz < down : hz > UINT64_MAX - shift) {
            return 2;
        }
        *tuned = negative ? hz - down : hz + shift;
        memcpy(plan, band + 24, 3);
        return 0;
    }
    return 2;
}

static uint8_t *put(uint8_t *to, uint64_t v)
{
    int i;
    for (i = 0; i < 8; i++) {
        *to++ = (uint8_t)(v >> 8 * i);
    }
    return to;
}

uint8_t *put_band(uint8_t *to, uint64_t first, uint64_t last, uint64_t shift, int inverted, int path, int notch)
{
    to = put(put(put(to, first), last), shift);
    *to++ = (uint8_t)inverted;
    *to++ = (uint8_t)path;
    *to++ = (uint8_t)notch;
    return to;
}

/* The table of a board, and its length; of a number that names none, the generic board's. */
size_t built_in_model(uint64_t board, uint8_t *table)
{
    static const uint64_t from[9] = {0, 2200001, 28800000, 85000000, 112000001, 172000000, 242000001, 250000000, 0};
    uint8_t *to = table;
    int i;
    if (board != 1) {
        return (size_t)(put_band(to, 0, UINT64_MAX, 0, 0, 3, 0) - table);
    }
    for (i = 0; i < 8; i++) {
        int up = i < 2;
        to = put_band(to, from[i], from[i + 1] - 1, up ? 28800000 : 0, up, up ? 0 : i < 7 ? 1 : 2, i == 0 || i == 3 || i == 5);
    }
    return (size_t)(to - table);
}

/* "and in the tune also for one shifted to 0 or whose sum with the IF is past u64" */
uint32_t hop_model(const struct attempt *a)
{
    uint64_t tuned;
    uint8_t plan[3];
    uint32_t number = table_model(a->before[INPUT], a->n[INPUT], a->arg[0], &tuned, plan);
    if (number != 0) {
        return number;
    }
    return tuned == 0 || tuned > UINT64_MAX - number_at(a->before[TUNER] + PASETONE_TUNER_IF, 8) ? 2 : 0;
}
