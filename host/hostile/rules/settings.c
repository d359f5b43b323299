/* Settings on file: document 02's #108 and #112, written down a second time in C. */
#include <string.h>

#include "rules.h"

static const unsigned width[FIELDS] = {1, 1, 4, 4, 8, 1, 4};

/* Edition 1 has the first six fields. */
static unsigned fields_in(uint32_t edition)
{
    return edition == 1 ? 6 : 7;
}

static size_t bytes_in(uint32_t edition)
{
    size_t sum = 0;
    unsigned i;
    for (i = 0; i < fields_in(edition); i++) {
        sum += width[i];
    }
    return sum;
}

/* "kind, board or gain out of range" */
uint32_t fields_model(const uint64_t *fields)
{
    return fields[0] > 1 || fields[1] > 1 || fields[5] > 28 ? 17 : 0;
}

/* "The edition is tested before any field"; "a slice under 4 bytes is 17". */
uint32_t settings_model(const uint8_t *bytes, size_t n, uint32_t edition, uint64_t *fields)
{
    size_t size = bytes_in(edition), at;
    unsigned i;
    uint32_t refusal;
    memset(fields, 0, FIELDS * sizeof *fields);
    if (n < 4) {
        return 17;
    }
    if (bytes[n - 4] != edition) {
        return 16;
    }
    if (bytes[n - 3] != 0 || number_at(bytes + n - 2, 2) != size || n < size + 4) {
        return 17;
    }
    for (i = 0, at = n - 4 - size; i < fields_in(edition); at += width[i++]) {
        fields[i] = number_at(bytes + at, width[i]);
    }
    refusal = fields_model(fields);
    if (refusal != 0) {
        memset(fields, 0, FIELDS * sizeof *fields);
    }
    return refusal;
}

static uint8_t *put(uint8_t *to, uint64_t v, unsigned bytes)
{
    while (bytes-- > 0) {
        *to++ = (uint8_t)v;
        v >>= 8;
    }
    return to;
}

/* An image and its length. */
size_t image_model(const uint64_t *fields, uint32_t edition, uint8_t *image)
{
    uint8_t *to = image;
    unsigned i;
    for (i = 0; i < fields_in(edition); i++) {
        to = put(to, fields[i], width[i]);
    }
    *to++ = (uint8_t)edition;
    *to++ = 0;
    to = put(to, bytes_in(edition), 2);
    return (size_t)(to - image);
}

/* All fields in one number; of a refused reading, which must have none, what is not zero. */
uint64_t fields_value(const uint64_t *fields, uint32_t refusal)
{
    uint64_t value = refusal != 0 ? 0 : 1469598103934665603u;
    unsigned i;
    for (i = 0; i < FIELDS; i++) {
        value = refusal != 0 ? value | fields[i] : (value ^ fields[i]) * 1099511628211u;
    }
    return value;
}

/* The edition that a call reads or writes; a move's is the one that it is given. */
uint32_t edition_of(const struct call *call)
{
    const char *number = strstr(call->name, "settings_") + strlen("settings_");
    return *number == '1' ? 1 : 2;
}

/* "the new reader takes both": edition 1 with the IF 2,300,000. */
uint32_t either_model(const uint8_t *bytes, size_t n, uint64_t *fields)
{
    uint32_t refusal = settings_model(bytes, n, 2, fields);
    if (refusal == 16) {
        refusal = settings_model(bytes, n, 1, fields);
        fields[6] = refusal == 0 ? 2300000 : 0;
    }
    return refusal;
}

/* "Move edition 1 to 2 with IF 2,300,000. Move 2 back to 1 only if IF is 2,300,000." */
uint32_t move_model(const struct attempt *a, uint64_t *fields)
{
    uint32_t edition = edition_of(a->call), refusal = settings_model(a->before[INPUT], a->n[INPUT], edition, fields);
    if (refusal == 0 && edition == 1) {
        fields[6] = 2300000;
    }
    return refusal != 0 ? refusal : fields[6] != 2300000 ? 18 : 0;
}
