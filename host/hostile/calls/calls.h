/* Every call, and what it asks for. */
#ifndef CALLS_H
#define CALLS_H

#include "../rules/rules.h"

/* calls.c */
extern const struct call calls[];
extern const unsigned call_count;

/* needs.c */
const struct call *call_of(const uint8_t *command, uint64_t *argument);
size_t needed(const struct attempt *a, enum slot slot);
int without_steps(const struct attempt *a);
uint32_t refusal_before_steps(const struct attempt *a);

#endif
