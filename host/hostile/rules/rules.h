/* The rules that are judged by, written down from documents 01 and 02, and nothing of the archive. */
#ifndef RULES_H
#define RULES_H

#include "../hostile.h"

/* model.c */
uint64_t number_at(const uint8_t *bytes, unsigned width);
void put_u32(uint8_t *to, uint64_t v);
int tuner_is_record(const uint8_t *bytes, size_t n);
int driver_is_record(const uint8_t *bytes, size_t n);
uint64_t corrected(uint64_t nominal, int32_t ppm);
uint64_t driver_xtal(const uint8_t *bytes);
uint32_t rate_model(uint64_t rate, uint64_t xtal);
uint64_t true_rate_model(uint64_t rate, uint64_t xtal);
/* 0 with the rest, or 2. */
uint32_t pll_model(uint64_t kind, uint64_t lo, uint32_t reference, uint64_t *rest);
int entry_fits(const uint8_t *e);
int is_read(const uint8_t *e);
int is_demod(const uint8_t *e);
uint32_t read_model(const uint8_t *bytes, size_t n, uint64_t *start, uint64_t *count);
/* oldest first; 0, or 12 with none heard */
uint32_t each_entry(const uint8_t *bytes, size_t n, void (*hear)(const uint8_t *e, void *to), void *to);

/* centre.c: 0 or 20; the oscillator in Hz; 0, 19, 20 or 2 with the centre */
extern const uint8_t oscillator_registers[5];
uint32_t oscillator_args_model(const struct attempt *a);
uint64_t oscillator_model(const struct attempt *a);
uint32_t centre_model(const struct attempt *a, uint64_t *centre);

/* parting.c: where two sections part: 0 or 12; the value is start, whose and index in one number. */
uint32_t parting_model(const struct attempt *a, uint64_t *value, uint64_t *count);
uint64_t parting_value(uint64_t start, uint64_t whose, uint64_t index);

/* settings.c: fields in the order of the image: kind, board, correction's bits, rate, frequency, gain, IF. */
uint32_t settings_model(const uint8_t *bytes, size_t n, uint32_t edition, uint64_t *fields);
uint32_t fields_model(const uint64_t *fields);
size_t image_model(const uint64_t *fields, uint32_t edition, uint8_t *image);
uint64_t fields_value(const uint64_t *fields, uint32_t refusal);
uint32_t edition_of(const struct call *call);
/* both editions, as the reader of edition 2 takes them */
uint32_t either_model(const uint8_t *bytes, size_t n, uint64_t *fields);
uint32_t move_model(const struct attempt *a, uint64_t *fields);

/* packets.c */
extern const uint8_t sync_read[8];
uint32_t expand_model(const uint8_t *bytes, size_t n, uint8_t *to, size_t *length);
uint32_t hear_model(const uint8_t *bytes, size_t n, uint8_t *to, size_t *length);

/* restore.c */
uint32_t restore_model(const uint8_t *bytes, size_t n, uint8_t chip, uint8_t *to, size_t *length);

/* evidence.c: what sections say of the station, once more from the header's words; the demodulator's registers that it goes by */
extern const uint16_t demod_registers[8];
uint32_t evidence_model(const struct attempt *a, uint8_t *to, size_t *length);

/* measured.c: what such a call must leave in OUT: its refusal, bytes, and how many. */
int is_measured(const struct call *call);
uint32_t measured_model(const struct attempt *a, const uint8_t **bytes, size_t *length);

/* bands.c: 0 with the tuner's Hz and the plan's three bytes, or 19 or 2. */
uint32_t table_model(const uint8_t *table, size_t n, uint64_t hz, uint64_t *tuned, uint8_t *plan);
uint8_t *put_band(uint8_t *to, uint64_t first, uint64_t last, uint64_t shift, int inverted, int path, int notch);
size_t built_in_model(uint64_t board, uint8_t *table);
uint32_t hop_model(const struct attempt *a);

/* stream.c. Stream bytes: 0 with how many are pending, or 1. */
#define WHOLE 9
#define OPERATIONS 8
struct operation {
    const char *call;
    unsigned width;
};
extern const struct operation operations[OPERATIONS];
uint32_t stream_model(const uint8_t *stream, size_t n, uint64_t *held);
int completes(const struct attempt *a, uint8_t *command, uint64_t *held);

#endif
