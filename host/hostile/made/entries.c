/* Entries, and sections that are damaged. */
#include <string.h>

#include "made.h"

/* An entry that fits the table. */
void make_entry(uint8_t *e)
{
    static const uint8_t least[10] = {0, 1, 1, 1, 1, 2, 1, 2, 1, 0}, most[10] = {0, 1, 8, 5, 1, 2, 1, 2, 1, 0};
    uint8_t kind = (uint8_t)(1 + below(9));
    memset(e, 0, 16);
    e[0] = kind;
    e[1] = kind == 9 ? 0 : (uint8_t)below(2);
    e[2] = kind == 1 || kind == 9 ? 0 : (uint8_t)random_u64();
    e[3] = (uint8_t)(least[kind] + below((uint64_t)most[kind] - least[kind] + 1));
    if (kind > 3) {
        random_bytes(e + 4, 2);
    }
    if (!((kind == 3 || kind == 8) && e[1] == 1)) {
        random_bytes(e + 8, e[3]);
    }
    if (kind == 1) {
        e[8] &= 1;
    }
}

/* Two thirds of the time; a slice with a whole section in it is at least 8 bytes long. */
void damage_section(struct attempt *a, enum slot slot)
{
    uint8_t *bytes = a->before[slot];
    uint64_t any = hostile_number();
    switch (below(6)) {
    case 0:
        a->n[slot] = below(a->n[slot] + 8);
        break;
    case 1:
        bytes[below(a->n[slot])] ^= (uint8_t)(1u << any % 8);
        break;
    case 2:
        put_u32(bytes + a->n[slot] - 8 + 4 * below(2), any);
        break;
    case 3:
        a->n[slot] = below(80);
        random_bytes(bytes, a->n[slot]);
        break;
    default:
        break;
    }
}
