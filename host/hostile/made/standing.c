/* Records for the oscillator and for the middle of a recording. */
#include "made.h"

static void put_u64(uint8_t *to, uint64_t v)
{
    put_u32(to, v);
    put_u32(to + 4, v >> 32);
}

/* Often no mark at the five, with any bytes there; an IF of any size; a driver's frequency at an end of a band, or what the tuner's Hz came from. */
void make_standing(struct attempt *a)
{
    uint8_t *tuner = a->before[TUNER], *driver = a->before[DRIVER];
    uint64_t any = hostile_number(), cut = below(6);
    size_t i;
    if (a->n[TUNER] != PASETONE_TUNER_SIZE) {
        return;
    }
    for (i = 0; i < sizeof oscillator_registers; i++) {
        tuner[PASETONE_TUNER_DOUBTFUL + oscillator_registers[i] - PASETONE_FIRST_REGISTER] = below(3) == 0 && cut == i;
        if (below(3) > 0) {
            random_bytes(tuner + PASETONE_TUNER_SHADOW + oscillator_registers[i] - PASETONE_FIRST_REGISTER, 1);
        }
    }
    if (!(a->call->slots & HAS(DRIVER)) || a->n[DRIVER] != PASETONE_DRIVER_SIZE) {
        return;
    }
    if (below(2) == 0) {
        put_u64(tuner + PASETONE_TUNER_IF, below(2) == 0 ? any : below(100000000));
    }
    if (a->n[INPUT] >= PASETONE_BAND_SIZE && below(4) > 0) {
        const uint8_t *band = a->before[INPUT] + PASETONE_BAND_SIZE * below(a->n[INPUT] / PASETONE_BAND_SIZE);
        uint64_t end = number_at(band + 8 * below(2), 8);
        put_u64(driver + PASETONE_DRIVER_FREQUENCY, below(2) == 0 ? end : end + below(3) - 1);
    }
}
