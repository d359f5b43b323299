/* Images of settings, whole and damaged. */
#include <string.h>

#include "made.h"

/* Numbers that fit, at and past the bounds, or any. */
void make_fields(struct attempt *a)
{
    if (below(8) > 0) {
        a->arg[0] %= below(6) > 0 ? 2 : 3;
        a->arg[1] %= below(6) > 0 ? 2 : 3;
        a->arg[5] %= below(6) > 0 ? 29 : 31;
    }
    a->arg[2] = (uint32_t)a->arg[2];
    a->arg[3] = (uint32_t)a->arg[3];
    a->arg[6] = below(3) > 0 ? 2300000 : (uint32_t)a->arg[6];
}

/* Bytes that end in an image of an edition, or nearly. */
void make_settings(struct attempt *a)
{
    uint8_t *bytes = a->before[INPUT];
    uint64_t start = below(24), any, i;
    uint32_t edition = below(4) > 0 ? edition_of(a->call) : 3 - edition_of(a->call);
    random_bytes(bytes, start);
    make_fields(a);
    a->n[INPUT] = start + image_model(a->arg, edition, bytes + start);
    any = hostile_number();
    switch (below(12)) {
    case 0:
        a->n[INPUT] = below(a->n[INPUT] + 4);
        break;
    case 1: /* any bit */
        bytes[below(a->n[INPUT])] ^= (uint8_t)(1u << any % 8);
        break;
    case 2: /* the trailer: edition, filler or distance */
        bytes[a->n[INPUT] - 1 - below(4)] = (uint8_t)any;
        break;
    case 3: /* its beginning cut away, by less than is before it or by more */
        i = below(a->n[INPUT]);
        a->n[INPUT] -= i;
        memmove(bytes, bytes + i, a->n[INPUT]);
        break;
    case 4:
        a->n[INPUT] = below(40);
        random_bytes(bytes, a->n[INPUT]);
        break;
    case 5: /* one image after another */
        a->n[INPUT] += image_model(a->arg, 1 + (uint32_t)below(2), bytes + a->n[INPUT]);
        break;
    default:
        break;
    }
}
