/* Entries that have packets of their own, and packets, whole and damaged. */
#include <string.h>

#include "made.h"

/* An entry with packets of its own. */
void tame(uint8_t *e)
{
    if (is_demod(e)) {
        e[2] &= 15, e[5] = 0;
    } else if (e[0] > 5 && e[0] < 9 && (e[2] == 0 || e[2] == 6)) {
        e[2]++;
    }
}

/* Packets of some entries, often damaged. */
void make_packets(struct attempt *a)
{
    static uint8_t section[LONGEST];
    uint8_t *bytes = a->before[INPUT];
    size_t n = a->n[INPUT], at;
    memcpy(section, bytes, n);
    if (expand_model(section, n, bytes, &a->n[INPUT]) != 0 || below(4) == 0) {
        return;
    }
    n = a->n[INPUT];
    at = below(n + 1);
    switch (below(5)) {
    case 0:
        a->n[INPUT] = at;
        break;
    case 1:
        memcpy(bytes + n, sync_read, 8);
        a->n[INPUT] = n + 8;
        break;
    case 2:
        memmove(bytes + at + 8, bytes + at, n - at);
        memcpy(bytes + at, sync_read, 8);
        a->n[INPUT] = n + 8;
        break;
    case 3:
        random_bytes(bytes, n);
        break;
    default:
        bytes[at] = (uint8_t)(bytes[at] ^ (1u << below(8)));
        break;
    }
}
