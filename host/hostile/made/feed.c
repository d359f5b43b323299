/* Streams and chunks, whole, chopped and damaged. */
#include <string.h>

#include "made.h"

/* A byte somewhere, the lowest above the argument, or a sign all over those above it. */
static void spoil_command(uint8_t *command, unsigned width)
{
    uint64_t any = random_u64(), how = below(3);
    if (how == 0 || width == 8) {
        command[1 + below(8)] = (uint8_t)any;
    } else if (how == 1) {
        command[1 + width] = any % 2 == 0 ? 1 : (uint8_t)(any >> 8);
    } else {
        memset(command + 1 + width, 0xff, 8 - width);
    }
}

/* An argument that its call often takes, or one near a bound. */
static void make_command(uint8_t *command)
{
    uint64_t any = hostile_number(), kind = below(16), argument = any;
    unsigned i, width;
    command[0] = (uint8_t)(kind < 14 ? 1 + kind / 2 : kind == 14 ? OPERATIONS : any);
    width = command[0] < OPERATIONS ? operations[command[0]].width : 8;
    if (below(2) == 0) {
        argument = command[0] == 1 ? 20000000 + below(1800000000) : command[0] == 2 ? 900001 + below(4000000) : below(2000);
    }
    for (i = 0; i < 8; i++) {
        command[1 + i] = i < width ? (uint8_t)(argument >> 8 * i) : 0;
    }
    if (below(8) == 0) {
        spoil_command(command, width);
    }
}

/* The pending bytes of a command that the chunk may complete; some are no stream bytes. */
static void make_stream(struct attempt *a, const uint8_t *command)
{
    uint8_t *stream = a->before[STREAM];
    uint64_t any = random_u64();
    a->n[STREAM] = WHOLE;
    memset(stream, 0, WHOLE + 8);
    stream[0] = (uint8_t)below(WHOLE);
    memcpy(stream + 1, command, stream[0]);
    switch (below(20)) {
    case 0:
        a->n[STREAM] = below(WHOLE + 8);
        break;
    case 1:
        stream[0] = (uint8_t)any;
        break;
    case 2:
        stream[1 + below(8)] = (uint8_t)(any >> 8);
        break;
    case 3:
        random_bytes(stream, WHOLE);
        break;
    default:
        break;
    }
}

/* Stream bytes, and for a feeding a chunk: the rest of the command and what follows it, or less. */
void make_feed(struct attempt *a)
{
    uint8_t command[WHOLE];
    size_t held, n;
    make_command(command);
    make_stream(a, command);
    if (!(a->call->slots & HAS(CHUNK))) {
        return;
    }
    held = a->before[STREAM][0] % WHOLE;
    random_bytes(a->before[CHUNK], 64);
    memcpy(a->before[CHUNK], command + held, WHOLE - held);
    n = below(3) > 0 ? WHOLE - held : WHOLE - held + below(40);
    a->n[CHUNK] = below(6) == 0 ? below(n + 1) : n;
}
