/*
 * A simulated receiver: an RTL2832U with an R828D or R820T, as src/device.rs, src/demod.rs and src/tuners/r82xx.rs of the Rust speak to one. It is written from those
 * files and not from the library, of which nothing is linked or included here.
 *
 * A receiver is a file, mapped by every program that opens it: what its chips hold outlives a host that was killed. preload.c gives it to a program as a node of usbfs.
 * Who judges a host reads and writes the same file; `simulate layout` prints where each field is.
 */
#ifndef RECEIVER_H
#define RECEIVER_H

#include <stddef.h>
#include <stdint.h>

#define RECEIVER_MAGIC 0x314d4953u /* SIM1 */
#define RECEIVER_DATA 64           /* most data bytes of a control transfer that is taken */
#define RECEIVER_LOG 1024          /* the last transfers that are kept */
#define RECEIVER_LATE 8            /* transfers that are still to land */

/* The ways in which a transfer goes. */
enum way {
    WAY_DONE,
    WAY_STALL_BEFORE,   /* refused, nothing landed */
    WAY_STALL_AFTER,    /* refused, all landed */
    WAY_STALL_PART,     /* refused, some of its bytes landed */
    WAY_TIMEOUT_LOST,   /* no answer, nothing landed */
    WAY_TIMEOUT_LANDED, /* no answer, all landed */
    WAY_TIMEOUT_LATE,   /* no answer, and it lands when the host has given up */
    WAY_SHORT,          /* fewer bytes than asked for */
    WAY_UNPLUGGED,      /* gone, from here on */
    WAY_KILLED_BEFORE,  /* the host is killed, nothing landed */
    WAY_KILLED_AFTER,   /* the host is killed, all landed */
    WAY_KILLED_PART,    /* the host is killed, some bytes landed */
    WAYS
};

/* One control transfer as it came, and how it ended: how many bytes, or an errno below 0. A read's data are those that were sent. */
struct transfer {
    uint8_t setup[8], data[8];
    int32_t count;
    uint32_t way;
};

/* What the two chips hold. */
struct chip {
    uint8_t demod[16][256];       /* the demodulator's pages */
    uint8_t usb[4096], sys[4096]; /* blocks 1 and 2, from 0x2000 and 0x3000 on */
    uint8_t tuner[32];            /* the tuner's registers; the first five are read alone */
    uint8_t pointer;              /* where a read of the tuner starts */
    uint8_t spare[3];
    uint32_t reads;               /* reads of the lock since the PLL was written */
};

/* A transfer that has not landed yet. */
struct late {
    uint64_t due; /* by the receiver's clock; 0: none */
    uint8_t setup[8], data[RECEIVER_DATA];
};

struct receiver {
    uint8_t descriptors[64]; /* what a program reads from a node */
    uint32_t magic, bus, number, address;
    uint32_t reference; /* its crystal in Hz */
    uint32_t settle;    /* reads of the lock until it is found */
    int32_t repair;     /* 1, -1: its VCO asks for another divider */
    uint32_t resets;    /* what a soft reset leaves: 0 any bytes, 1 those that were there, 2 zeros */
    uint32_t gone;      /* it is unplugged */
    uint32_t afterwards; /* how late a late transfer lands, in ms behind the host's timeout */
    char driver[32];    /* of the kernel, bound to interface 0 */
    uint64_t clock;     /* in ns, where sleeps are not slept */
    uint64_t sent;      /* transfers so far */
    uint64_t fails_at;  /* the number of the transfer that fails, from 0 on; the largest number: none */
    uint32_t fails_by;  /* its way */
    uint32_t odds;      /* of 65,536 transfers, how many fail by chance */
    uint32_t ways;      /* those that chance has, a bit for each */
    uint32_t failed;    /* how many have failed */
    uint64_t seed;
    int64_t oscillator, shift, centre; /* by its registers, in units of 2^-23 Hz: the tuner's, the IF that the demodulator moves down by, and their difference */
    uint32_t rate, locked, pins, on;   /* the sample rate in Hz; its PLL runs; GPIO that are driven high; the demodulator is on */
    struct chip chip;
    struct late late[RECEIVER_LATE];
    struct transfer log[RECEIVER_LOG];
};

/* chip.c */
uint64_t receiver_random(struct receiver *r);
void receiver_power(struct receiver *r);
void receiver_measure(struct receiver *r);
/* A transfer's effect. Of a write only the bytes land whose bit is set in `landing`. How many bytes, or -EPIPE. */
int receiver_effect(struct receiver *r, const uint8_t setup[8], uint8_t *data, uint64_t landing);
unsigned receiver_length(const uint8_t setup[8]);
int receiver_reads(const uint8_t setup[8]);

/* fault.c */
/* A transfer at a time by the receiver's clock, of a host that waits for so many ns. How many bytes, or an errno below 0. `data` has room for its length. */
int receiver_control(struct receiver *r, const uint8_t setup[8], uint8_t *data, uint64_t now, uint64_t timeout);
/* What is due by this time lands. */
void receiver_land(struct receiver *r, uint64_t now);

#endif
