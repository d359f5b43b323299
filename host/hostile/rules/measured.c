/* Calls that answer as many bytes as their input asks for. */
#include "rules.h"

int is_measured(const struct call *call)
{
    return call->way >= EXPANDING;
}

uint32_t measured_model(const struct attempt *a, const uint8_t **bytes, size_t *length)
{
    static uint8_t made[LONGEST];
    *bytes = made;
    if (a->call->way == EVIDENCING) {
        return evidence_model(a, made, length);
    }
    if (a->call->way == RESTORING) {
        return restore_model(a->before[INPUT], a->n[INPUT], (uint8_t)a->arg[0], made, length);
    }
    return (a->call->way == EXPANDING ? expand_model : hear_model)(a->before[INPUT], a->n[INPUT], made, length);
}
