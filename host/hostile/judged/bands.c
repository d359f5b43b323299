/* What a table decides of a board's tuning and of a rate, and the plan or the table that a call answers. */
#include <string.h>

#include "judged.h"

/* The byte for the spectrum, as entry i of the section; `inverted` 1 or 0. */
static int turns(const struct attempt *a, uint64_t i, int inverted)
{
    const uint8_t *e = a->at[ROOM] + 16 * i;
    return e[0] == 4 && e[2] == 1 && e[4] == 0x15 && e[5] == 0 && e[8] == (inverted ? 5 : 1);
}

/* "no plan, not inverted": the last of the 17 entries of a rate. */
static const char *judge_rate(const struct attempt *a)
{
    uint64_t tuned, hz = number_at(a->before[DRIVER] + PASETONE_DRIVER_FREQUENCY, 8);
    uint8_t plan[3] = {0, 3, 0};
    int inverted = table_model(a->before[INPUT], a->n[INPUT], hz, &tuned, plan) == 0 && plan[0] == 1;
    return a->reply.count < 17 || turns(a, 16, inverted) ? NULL : "the rate's spectrum is not the table's";
}

/*
 * "plan, notch, board path where there is one, tune, then the DDC sync byte, in that order": GPIO is read first exactly where the board path is taken, the
 * byte comes last where the call is done, and the tuner's register 0x06 or 0x05 is written for the path. The rest is the tuning's own.
 */
const char *judge_hop(const struct attempt *a)
{
    uint64_t tuned, frequency = number_at(a->at[NEXT_DRIVER] + PASETONE_DRIVER_FREQUENCY, 8);
    uint8_t plan[3] = {0, 3, 0};
    int by_path;
    if (a->call->way == RATING) {
        return judge_rate(a);
    }
    table_model(a->before[INPUT], a->n[INPUT], a->arg[0], &tuned, plan);
    by_path = a->before[TUNER][PASETONE_TUNER_KIND] == PASETONE_R828D && plan[1] < 3;
    if ((a->at[ROOM][0] == 8) != by_path) {
        return "the board's path is taken where it should not be, or is not where it should";
    }
    if (by_path && a->reply.count > 8 && (a->at[ROOM][16 * 7] != 2 || a->at[ROOM][16 * 7 + 8] != (plan[1] == 0 ? 0x06 : 0x05))) {
        return "the path is another";
    }
    if (a->reply.refusal == 0 && !turns(a, a->reply.count - 1, plan[0])) {
        return "the last step does not turn the spectrum as the table has it";
    }
    if (a->at[NEXT][PASETONE_TUNER_NOTCH] != plan[2]) {
        return "the notch is not the table's";
    }
    return frequency == (a->reply.refusal == 0 ? a->arg[0] : number_at(a->before[DRIVER] + PASETONE_DRIVER_FREQUENCY, 8))
               ? NULL
               : "the driver's frequency is another";
}

const char *judge_bands(const struct attempt *a)
{
    uint8_t bytes[PASETONE_TABLE_FOR(PASETONE_TABLE_BANDS)];
    uint64_t tuned;
    size_t n = 3;
    if (a->call->way == BANDS) {
        table_model(a->before[INPUT], a->n[INPUT], a->arg[0], &tuned, bytes);
    } else {
        n = built_in_model(a->arg[0], bytes);
    }
    return memcmp(a->at[OUT], bytes, n) == 0 ? NULL : "the plan or the table is another";
}
