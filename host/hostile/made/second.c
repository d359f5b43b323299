/* Second sections that are nearly the first. */
#include <string.h>

#include "made.h"

/* Another outcome, or another answer to a read: still the same step, and an entry that fits. */
static void replay(uint8_t *e)
{
    if (e[0] != 9 && below(4) == 0) {
        e[1] ^= 1;
    }
    if (is_read(e)) {
        random_bytes(e + 8, e[3]);
        memset(e + 8, 0, e[1] == 1 ? 8 : 0);
    }
}

/* The first section again, replayed; then longer, shorter, or with one entry changed; or any section. */
void make_second(struct attempt *a)
{
    uint8_t *bytes = a->before[SECOND];
    uint64_t from, count, start = below(20), i;
    if (read_model(a->before[INPUT], a->n[INPUT], &from, &count) != 0) {
        from = count = 0;
    }
    random_bytes(bytes, start);
    memcpy(bytes + start, a->before[INPUT] + from, 16 * count);
    for (i = 0; i < count; i++) {
        replay(bytes + start + 16 * i);
    }
    switch (below(5)) {
    case 0:
        count = below(count + 1);
        break;
    case 1:
        for (i = below(3); i > 0 && count < 4096; i--) {
            make_entry(bytes + start + 16 * count++);
        }
        break;
    case 2:
        if (count > 0) {
            make_entry(bytes + start + 16 * below(count));
        }
        break;
    case 3: /* a byte of a write: its first data byte, which fits whatever it is */
        i = count > 0 ? below(count) : 0;
        if (count > 0 && bytes[start + 16 * i] == 2) {
            bytes[start + 16 * i + 8] ^= (uint8_t)(1u << below(8));
        }
        break;
    default:
        break;
    }
    a->n[SECOND] = start + 16 * count + 8;
    put_u32(bytes + a->n[SECOND] - 8, count);
    put_u32(bytes + a->n[SECOND] - 4, 16 * count);
    if (below(6) == 0) {
        damage_section(a, SECOND);
    }
}
