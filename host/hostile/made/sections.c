/* Sections end to end, near the registers that are asked for. */
#include "made.h"

/* A demodulator's write at or near the eight, the reset or the power, and a read of this chip's status. */
static void near_demod(uint8_t *e, uint8_t chip)
{
    unsigned r = demod_registers[below(8)] - (below(4) == 0);
    if (e[0] == 3 && e[3] == 3 && below(2) == 0) {
        e[2] = chip;
    }
    if (is_demod(e) && below(4) > 0) {
        e[2] = (uint8_t)(below(60) == 0 ? below(18) : 1);
        r = below(60) == 0 ? (unsigned)below(260) : r;
        e[4] = (uint8_t)r, e[5] = (uint8_t)(r >> 8);
    }
    if ((e[0] == 6 || e[0] == 7) && below(20) == 0) {
        e[2] = 2, e[4] = (uint8_t)below(2), e[5] = 0x30;
    }
}

/* Sections end to end, most of their entries writes to the chip at or near its registers; now and then damaged. */
void make_sections(struct attempt *a)
{
    uint8_t *bytes = a->before[INPUT], *e;
    uint64_t sections = below(6), count;
    size_t n = 0;
    for (; sections > 0; sections--) {
        uint64_t entries = below(2000) == 0 ? 600 + below(200) : below(10);
        for (count = 0; count < entries; count++, n += 16) {
            e = bytes + n;
            make_entry(e);
            if (e[0] == 2 && below(8) > 0) {
                e[2] = (uint8_t)(a->arg[0] + (below(8) == 0));
                e[8] = (uint8_t)(below(8) == 0 ? 0xf8 + below(8) : below(0x22));
                e[1] = below(4) == 0;
            }
            near_demod(e, (uint8_t)a->arg[0]);
        }
        put_u32(bytes + n, entries);
        put_u32(bytes + n + 4, 16 * entries);
        n += 8;
    }
    a->n[INPUT] = n;
    if (below(3) == 0 && n > 0) {
        damage_section(a, INPUT);
    }
}
