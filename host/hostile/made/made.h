/* What calls are given, and where it lies. */
#ifndef MADE_H
#define MADE_H

#include "../calls/calls.h"

/* random.c */
void random_seed(uint64_t seed);
uint64_t random_u64(void);
uint64_t below(uint64_t bound);
void random_bytes(uint8_t *to, size_t n);
uint64_t hostile_number(void);

/* memory.c */
void memory_open(struct attempt *a);
void place(struct attempt *a, enum memory how);
const char *canaries(const struct attempt *a);
void release(struct attempt *a);

/* make.c */
void make_records(void);
void make_attempt(struct attempt *a, const struct call *call);
void keep_records(const struct attempt *a);

/* The others: a part of an attempt each. */
void make_entry(uint8_t *e);
void damage_section(struct attempt *a, enum slot slot);
void make_second(struct attempt *a);
void make_settings(struct attempt *a);
void make_fields(struct attempt *a);
void make_standing(struct attempt *a);
void tame(uint8_t *e);
void make_packets(struct attempt *a);
void make_sections(struct attempt *a);
void make_table(struct attempt *a);
void make_feed(struct attempt *a);

#endif
