/* Where the oscillator stands and what the middle of a recording is, written down a second time in C. */
#include "rules.h"

__extension__ typedef __int128 wide;

const uint8_t oscillator_registers[5] = {0x10, 0x12, 0x14, 0x15, 0x16};

static unsigned sent(const uint8_t *tuner, unsigned number)
{
    return tuner[PASETONE_TUNER_SHADOW + number - PASETONE_FIRST_REGISTER];
}

/* "refusal 20 doubtful where one of 0x10, 0x12, 0x14, 0x15, 0x16 is doubtful, after 1" */
uint32_t oscillator_args_model(const struct attempt *a)
{
    size_t i;
    for (i = 0; i < sizeof oscillator_registers; i++) {
        if (a->before[TUNER][PASETONE_TUNER_DOUBTFUL + oscillator_registers[i] - PASETONE_FIRST_REGISTER] != 0) {
            return 20;
        }
    }
    return 0;
}

/* Twice the reference is taken N times, S / 65,536 of it beside that, and halved as often as the divider says. */
uint64_t oscillator_model(const struct attempt *a)
{
    const uint8_t *tuner = a->before[TUNER];
    wide twice = (wide)2 * (wide)number_at(tuner + PASETONE_TUNER_CORRECTED, 4), sum = 0;
    unsigned halvings = 1 + (sent(tuner, 0x10) >> 5), n = 13 + ((sent(tuner, 0x14) & 63) << 2) + (sent(tuner, 0x14) >> 6);
    if ((sent(tuner, 0x12) & 0x08) == 0) {
        sum = twice * (wide)(sent(tuner, 0x16) << 8 | sent(tuner, 0x15));
    }
    return (uint64_t)((twice * n * 65536 + sum) >> (16 + halvings));
}

static wide centre_of(const struct attempt *a, uint64_t tuned)
{
    wide shift = (wide)tuned - (wide)number_at(a->before[DRIVER] + PASETONE_DRIVER_FREQUENCY, 8);
    return (wide)oscillator_model(a) - (wide)number_at(a->before[TUNER] + PASETONE_TUNER_IF, 8) - shift;
}

/* 19, then 20, then 2 */
uint32_t centre_model(const struct attempt *a, uint64_t *centre)
{
    uint64_t tuned;
    uint8_t plan[3];
    uint32_t number = table_model(a->before[INPUT], a->n[INPUT], number_at(a->before[DRIVER] + PASETONE_DRIVER_FREQUENCY, 8), &tuned, plan);
    *centre = 0;
    if (number == 19 || oscillator_args_model(a) != 0) {
        return number == 19 ? 19 : 20;
    }
    if (number == 0 && centre_of(a, tuned) >= 0 && centre_of(a, tuned) <= (wide)UINT64_MAX) {
        *centre = (uint64_t)centre_of(a, tuned);
        return 0;
    }
    return 2;
}
