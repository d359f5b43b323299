/* Two sections and where they part: document 02's #114, written down a second time in C. */
#include "rules.h"

/* All three in one number: slices here are far below 4 GiB, and a section has at most 4,096 entries. */
uint64_t parting_value(uint64_t start, uint64_t whose, uint64_t index)
{
    return start | whose << 32 | index << 40;
}

/* "outcome and read data are left out of the comparison" */
static int same_step(const uint8_t *one, const uint8_t *other)
{
    int i;
    for (i = 0; i < 16; i++) {
        if (one[i] != other[i] && i != 1 && !(i >= 8 && is_read(one))) {
            return 0;
        }
    }
    return 1;
}

uint32_t parting_model(const struct attempt *a, uint64_t *value, uint64_t *count)
{
    const uint8_t *one = a->before[INPUT], *other = a->before[SECOND];
    uint64_t first, entries, second, others, k = 0;
    *value = *count = 0;
    if (read_model(one, a->n[INPUT], &first, &entries) != 0 || read_model(other, a->n[SECOND], &second, &others) != 0) {
        return 12;
    }
    while (k < entries && k < others && same_step(one + first + 16 * k, other + second + 16 * k)) {
        k++;
    }
    /* "If the second ends first, hand back the rest of the first section from there." */
    if (k == others && k < entries) {
        *value = parting_value(first + 16 * k, 1, k);
        *count = entries - k;
    } else {
        *value = parting_value(second + 16 * k, 2, k);
        *count = others - k;
    }
    return 0;
}
