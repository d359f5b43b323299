/*
 * Document 01's rules on records, entries and sections, written down a second time in C. Nothing of this folder calls the archive, so that it can be judged by it.
 */
#include "rules.h"

uint64_t number_at(const uint8_t *bytes, unsigned width)
{
    uint64_t v = 0;
    while (width-- > 0) {
        v = v << 8 | bytes[width];
    }
    return v;
}

/* The corrected reference, 0 where it is out of its range. */
uint64_t corrected(uint64_t nominal, int32_t ppm)
{
    int64_t v = (int64_t)nominal + (int64_t)nominal * ppm / 1000000;
    return v < 1 || v > 4294967295 ? 0 : (uint64_t)v;
}

/* The PLL's divider, N and sum, for a kind that is one and a reference that is not 0: 0 with the rest, or 2. N from 13 on is document 02's. */
uint32_t pll_model(uint64_t kind, uint64_t lo, uint32_t reference, uint64_t *rest)
{
    uint64_t m = 64, n, f, k = reference / 1000, twice = 2 * (uint64_t)reference;
    if (lo < 27656250 || lo >= 1800000000) {
        return 2;
    }
    while (m > 2 && lo * (m / 2) >= 1770000000) {
        m /= 2;
    }
    if (lo * m / twice < 13 || lo * m / twice > (kind == 0 ? 63 : 127)) {
        return 2;
    }
    f = lo * m % twice / 1000;
    for (n = 2; n <= 65536 && f > 1; n *= 2) {
        if (f > 2 * k / n) {
            f -= 2 * k / n;
            if (n == 32768) {
                break;
            }
        }
    }
    if (rest != NULL) {
        *rest = f;
    }
    return 0;
}

/* The corrected reference of a driver's record. */
uint64_t driver_xtal(const uint8_t *bytes)
{
    return corrected(number_at(bytes + PASETONE_DRIVER_NOMINAL, 4), (int32_t)(uint32_t)number_at(bytes + PASETONE_DRIVER_PPM, 4));
}

/* A rate: 3, 4, or document 02's 13 for a ratio that the resampler does not hold; it holds 4 up to 2^27, and 3 * 2^27 up to 2^29. */
uint32_t rate_model(uint64_t rate, uint64_t xtal)
{
    uint64_t r;
    if (rate == 0 || xtal == 0) {
        return rate == 0 ? 3 : 4;
    }
    r = xtal * 4194304 / rate;
    return (r >= 4 && r < 134217728) || (r >= 402653184 && r < 536870912) ? 0 : 13;
}

/* Document 02's true rate, for a rate that is taken: of a ratio that is held all but the two low bits are sent. */
uint64_t true_rate_model(uint64_t rate, uint64_t xtal)
{
    uint64_t r = xtal * 4194304 / rate;
    return xtal * 4194304 / (r - r % 4);
}

int tuner_is_record(const uint8_t *bytes, size_t n)
{
    uint32_t gain;
    int i;
    if (n != PASETONE_TUNER_SIZE || bytes[PASETONE_TUNER_KIND] > 1) {
        return 0;
    }
    if (number_at(bytes + PASETONE_TUNER_NOMINAL, 4) == 0 || number_at(bytes + PASETONE_TUNER_CORRECTED, 4) == 0) {
        return 0;
    }
    gain = (uint32_t)number_at(bytes + PASETONE_TUNER_GAIN, 4);
    if ((gain & 0x7fffffff) > 0x7f800000 && gain != 0x7fc00000) {
        return 0;
    }
    for (i = 0; i < PASETONE_REGISTER_COUNT; i++) {
        if (bytes[PASETONE_TUNER_DOUBTFUL + i] > 1) {
            return 0;
        }
    }
    return bytes[PASETONE_TUNER_LOCK] <= 1 && bytes[PASETONE_TUNER_NOTCH] <= 1;
}

int driver_is_record(const uint8_t *bytes, size_t n)
{
    return n == PASETONE_DRIVER_SIZE && bytes[PASETONE_DRIVER_BOARD] <= 1 && number_at(bytes + PASETONE_DRIVER_NOMINAL, 4) != 0 &&
           driver_xtal(bytes) != 0;
}

/* The table of kinds: the least and the most n, whether it has a target and an address. */
static int row_fits(const uint8_t *e)
{
    static const struct {
        uint8_t least, most, target, address;
    } rows[10] = {{1, 0, 0, 0}, {1, 1, 0, 0}, {1, 8, 1, 0}, {1, 5, 1, 0}, {1, 1, 1, 1},
                  {2, 2, 1, 1}, {1, 1, 1, 1}, {2, 2, 1, 1}, {1, 1, 1, 1}, {0, 0, 0, 1}};
    if (e[0] > 9 || e[1] > 1 || e[3] < rows[e[0]].least || e[3] > rows[e[0]].most || e[6] != 0 || e[7] != 0) {
        return 0;
    }
    return (rows[e[0]].target || e[2] == 0) && (rows[e[0]].address || (e[4] == 0 && e[5] == 0));
}

int entry_fits(const uint8_t *e)
{
    int failed_read, i;
    if (!row_fits(e) || (e[0] == 1 && e[8] > 1) || (e[0] == 9 && e[1] != 0)) {
        return 0;
    }
    failed_read = (e[0] == 3 || e[0] == 8) && e[1] == 1;
    for (i = failed_read ? 0 : e[3]; i < 8; i++) {
        if (e[8 + i] != 0) {
            return 0;
        }
    }
    return 1;
}

/* The reader: 0 with start and count, or 12 with zeros. */
uint32_t read_model(const uint8_t *bytes, size_t n, uint64_t *start, uint64_t *count)
{
    uint64_t entries, i;
    *start = *count = 0;
    if (n < 8) {
        return 12;
    }
    entries = number_at(bytes + n - 8, 4);
    if (entries > 4096 || number_at(bytes + n - 4, 4) != 16 * entries || n - 8 < 16 * entries) {
        return 12;
    }
    for (i = 0; i < entries; i++) {
        if (!entry_fits(bytes + n - 8 - 16 * (entries - i))) {
            return 12;
        }
    }
    *start = n - 8 - 16 * entries;
    *count = entries;
    return 0;
}

void put_u32(uint8_t *to, uint64_t v)
{
    int i;
    for (i = 0; i < 4; i++) {
        to[i] = (uint8_t)(v >> 8 * i);
    }
}

int is_read(const uint8_t *e)
{
    return e[0] == 3 || e[0] == 8;
}

int is_demod(const uint8_t *e)
{
    return e[0] == 4 || e[0] == 5;
}

uint32_t each_entry(const uint8_t *bytes, size_t n, void (*hear)(const uint8_t *e, void *to), void *to)
{
    static uint64_t starts[LONGEST / 8 + 1], counts[LONGEST / 8 + 1];
    size_t sections = 0;
    uint64_t i;
    while (n > 0) {
        if (read_model(bytes, n, &starts[sections], &counts[sections]) != 0) {
            return 12;
        }
        n = (size_t)starts[sections++];
    }
    while (sections > 0) {
        sections--;
        for (i = 0; i < counts[sections]; i++) {
            hear(bytes + starts[sections] + 16 * i, to);
        }
    }
    return 0;
}
