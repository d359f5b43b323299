/* Tables of bands, whole and damaged. */
#include "made.h"

/* A number of any size, small ones often. */
static uint64_t any_size(void)
{
    uint64_t any = hostile_number();
    return any >> below(64);
}

/* A shift that lands near 0, near 2^64, or anywhere, from a band that begins at `first`. */
static uint64_t make_shift(uint64_t first)
{
    uint64_t any = hostile_number(), near = below(5) - 2;
    switch (below(4)) {
    case 0:
        return 0 - first + near;
    case 1:
        return UINT64_MAX - first + near;
    case 2:
        return below(2) == 0 ? any : 0 - any;
    default:
        return any % 100000000;
    }
}

/* Bands that ascend, some of them one after the other without a gap; few have a number out of its range or begin too low. */
static size_t make_bands(uint8_t *table)
{
    uint64_t count = below(20) == 0 ? 15 + below(4) : below(6), any = any_size(), from = below(3), i;
    uint64_t least = from == 0 ? 0 : from == 1 ? any : UINT64_MAX - any;
    uint8_t *to = table;
    for (i = 0; i < count; i++) {
        uint64_t gap = below(2) == 0 ? 0 : any_size(), size = any_size();
        uint64_t first = least > UINT64_MAX - gap ? least : least + gap, last = first > UINT64_MAX - size ? UINT64_MAX : first + size;
        uint64_t bad = below(60), shift = make_shift(first);
        int inverted = (int)below(2), path = (int)below(4), notch = (int)below(2);
        to = put_band(to, bad == 0 && first > 0 ? first - 1 : first, bad == 1 && first > 0 ? first - 1 : last, shift, bad == 2 ? 2 : inverted,
                      bad == 3 ? 4 : path, bad == 4 ? 255 : notch);
        if (last == UINT64_MAX) {
            break;
        }
        least = last + 1;
    }
    return (size_t)(to - table);
}

void make_table(struct attempt *a)
{
    uint8_t *table = a->before[INPUT];
    uint64_t any = hostile_number();
    a->n[INPUT] = below(6) == 0 ? built_in_model(below(2), table) : make_bands(table);
    switch (below(12)) {
    case 0:
        a->n[INPUT] = below(a->n[INPUT] + 30);
        break;
    case 1:
        if (a->n[INPUT] > 0) {
            table[below(a->n[INPUT])] ^= (uint8_t)(1u << any % 8);
        }
        break;
    case 2:
        a->n[INPUT] = below(40);
        random_bytes(table, a->n[INPUT]);
        break;
    default:
        break;
    }
    if (a->call->way == RATING || a->call->way == FEEDING || a->call->way == CENTRING) {
        return;
    }
    /* what a tuner reaches, so that a board's tuning is often taken; else at an end of a band, or anywhere */
    if (a->call->way == HOPPING && below(2) == 0) {
        if (below(2) == 0) {
            a->n[INPUT] = built_in_model(below(2), table);
        } else {
            uint64_t first = below(3), shift = below(200000000);
            int inverted = (int)below(2), path = (int)below(4), notch = (int)below(2);
            a->n[INPUT] = (size_t)(put_band(table, first, UINT64_MAX, shift, inverted, path, notch) - table);
        }
        a->arg[0] = 1000000 + below(1800000000);
    } else if (a->n[INPUT] >= PASETONE_BAND_SIZE && below(4) > 0) {
        const uint8_t *band = table + PASETONE_BAND_SIZE * below(a->n[INPUT] / PASETONE_BAND_SIZE);
        uint64_t end = number_at(band + 8 * below(2), 8);
        a->arg[0] = below(2) == 0 ? end : end + below(3) - 1;
    }
}
