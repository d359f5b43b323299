/* Commands fed as they arrive: document 02's #105, written down a second time in C. */
#include "rules.h"

/* The calls by their operation, and how many bytes of the eight are the argument's. */
const struct operation operations[OPERATIONS] = {{NULL, 0},
                                                 {"set_frequency", 8},
                                                 {"set_sample_rate", 4},
                                                 {"set_gain", 4},
                                                 {"set_gain_by_index", 1},
                                                 {"set_bandwidth", 4},
                                                 {"set_ppm", 4},
                                                 {"reload", 0}};

/* "a count and eight bytes, zeros after the pending ones": 0 with the count, or 1. */
uint32_t stream_model(const uint8_t *stream, size_t n, uint64_t *held)
{
    size_t i;
    *held = 0;
    if (n != WHOLE || stream[0] >= WHOLE) {
        return 1;
    }
    for (i = WHOLE - 1; i > stream[0]; i--) {
        if (stream[i] != 0) {
            return 1;
        }
    }
    *held = stream[0];
    return 0;
}

/* The nine bytes that the chunk completes: 1, or 0 where the stream bytes are none or the command is not whole. */
int completes(const struct attempt *a, uint8_t *command, uint64_t *held)
{
    size_t i;
    if (stream_model(a->before[STREAM], a->n[STREAM], held) != 0 || *held + a->n[CHUNK] < WHOLE) {
        return 0;
    }
    for (i = 0; i < WHOLE; i++) {
        command[i] = i < *held ? a->before[STREAM][1 + i] : a->before[CHUNK][i - *held];
    }
    return 1;
}
