/* What the files of the hostile run share. hostile.c's head says what is tested and how. A folder knows those before it, and none after it: rules, calls, made, judged. */
#ifndef HOSTILE_H
#define HOSTILE_H

#include <stddef.h>
#include <stdint.h>

#include "pasetone.h"

/* The slices that calls take. */
enum slot { TUNER, DRIVER, INPUT, SECOND, STREAM, CHUNK, OUTCOMES, REPLIES, ROOM, NEXT, NEXT_DRIVER, OUT, SLOTS };
#define HAS(slot) (1u << (slot))

/* Fields of settings on file. */
#define FIELDS 7

/* The longest slice: the packets of 4,097 entries, one more than a section may have, and some bytes more. The entries with their trailer are shorter. */
#define LONGEST (18 * 4097 + 8 + 64)

/* What sets a call apart. */
enum way {
    COMMON,
    TUNING,    /* may be refused 2 by the PLL */
    CHIP_PATH, /* takes no step on an R820T */
    PPM,       /* changes the tuner's record and the driver's where they lie */
    NOTCH,     /* changes the tuner's */
    READER,
    PARTING,       /* compares the sections of INPUT and SECOND */
    SETTINGS_READ, /* reads settings at the end of INPUT */
    SETTINGS_WRITE, /* writes an image of the arguments into OUT */
    SETTINGS_MOVE,  /* writes the image at the end of INPUT in the other edition into OUT */
    BANDS,     /* plans by the table in INPUT */
    BUILT_IN,  /* answers a board's table */
    STANDING,  /* tells where the oscillator stands */
    CENTRING,  /* and the recording's centre, by the table in INPUT */
    RATING,    /* plans the driver's frequency by the table in INPUT */
    FEEDING,   /* runs the command that CHUNK completes on records that it changes where they lie; the table is in INPUT */
    HOPPING,   /* a tuning by the table in INPUT; may be refused 2 by the PLL */
    EXPANDING, /* answers as many bytes as its input asks for, as do those behind it */
    HEARING,
    RESTORING, /* reads sections, as does that behind it */
    EVIDENCING /* tells of the station */
};

struct attempt;

struct call {
    const char *name;
    enum way way;
    unsigned slots;                               /* those that it takes, by HAS */
    uint32_t entries, replies, out;               /* what it needs: most entries, replies, bytes that it answers in OUT */
    const char *refusals;                         /* the numbers that it can give, as pasetone.h has them */
    pasetone_reply (*run)(struct attempt *);
    uint32_t (*argument)(const struct attempt *); /* the number by which document 01 refuses the arguments, 0 for none */
    uint64_t (*value)(const struct attempt *);    /* what a done call answers */
};

/* One call with all that it is given and lent, and what came back. */
struct attempt {
    const struct call *call;
    uint64_t arg[FIELDS];
    uint8_t *before[SLOTS]; /* what each slice holds when the call begins */
    uint8_t *at[SLOTS];     /* where it lies */
    size_t n[SLOTS];        /* how long it is */
    size_t told[SLOTS];     /* how long the call is told it is: n, but for a self-test */
    pasetone_reply reply;
    uint32_t tries, locked; /* of a tuning's reply */
    struct {
        uint64_t used;
        uint32_t completed, pending;
    } fed; /* of a feeding's */
};

enum memory { MIXED, HEAP, AT_END, AT_START };

#endif
