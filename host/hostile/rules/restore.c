/* Document 02, #110, written down once more: sections end to end as the fewest writes that say where they left a chip. */
#include <string.h>

#include "rules.h"

/* What a chip's registers were left with. */
struct left {
    uint8_t chip, sure[32], held[32];
};

/* What a write to the chip says of the registers that it names. */
static void play(const uint8_t *e, void *to)
{
    struct left *l = to;
    unsigned i, r;
    for (i = 1; e[0] == 2 && e[2] == l->chip && i < e[3]; i++) {
        r = e[8] + i - 1;
        if (r >= 0x05 && r <= 0x1f) {
            l->sure[r] = e[1] == 0;
            l->held[r] = e[8 + i];
        }
    }
}

/* The writes of each block of sure registers, seven at a time; how many. */
static unsigned writes(const uint8_t *sure, const uint8_t *held, uint8_t chip, uint8_t *to)
{
    unsigned first, past, r, n, count = 0;
    for (first = 0x05; first <= 0x1f; first = past + 1) {
        for (past = first; past <= 0x1f && sure[past]; past++) {
        }
        for (r = first; r < past; r += n) {
            uint8_t *e = to + 16 * count++;
            n = past - r < 7 ? past - r : 7;
            memset(e, 0, 16);
            e[0] = 2, e[2] = chip, e[3] = (uint8_t)(n + 1), e[8] = (uint8_t)r;
            memcpy(e + 9, held + r, n);
        }
    }
    return count;
}

/* 0 or 12; the list's section and how many bytes it has. */
uint32_t restore_model(const uint8_t *bytes, size_t n, uint8_t chip, uint8_t *to, size_t *length)
{
    struct left l = {0, {0}, {0}};
    unsigned count;
    *length = 0;
    l.chip = chip;
    if (each_entry(bytes, n, play, &l) != 0) {
        return 12;
    }
    count = writes(l.sure, l.held, chip, to);
    put_u32(to + 16 * count, count);
    put_u32(to + 16 * count + 4, 16 * count);
    *length = 16 * count + 8;
    return 0;
}
