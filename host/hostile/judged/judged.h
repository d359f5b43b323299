/* What came back, judged: what is wrong, or a null pointer. */
#ifndef JUDGED_H
#define JUDGED_H

#include "../calls/calls.h"

const char *judge(const struct attempt *a);
/* image.c: the image that a done call must have left at the start of OUT */
const char *judge_image(const struct attempt *a);
/* bands.c: a board's tuning or a rate by a table: the entries that the table decides, and what the records keep; the plan or the table in OUT */
const char *judge_hop(const struct attempt *a);
const char *judge_bands(const struct attempt *a);
/* feed.c: `inner` is the command's call by itself, to be judged next; without a call where there is none */
const char *judge_feed(const struct attempt *a, struct attempt *inner);

#endif
