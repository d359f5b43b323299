/*
 * Pasetone: control of an RTL2832U receiver with an R820T or R828D tuner, after rtlsdr-next. This header is the manual of libpasetone.a.
 *
 * The library talks to no hardware, reads no clock and waits for nothing. A call is given
 *   - a record: what is known of a tuner (78 bytes) or of a driver (29 bytes), kept by the host as plain bytes;
 *   - a script: how each step is to end (outcomes) and what each read is to give (replies);
 *   - room, into which it writes a transcript of the steps that it took;
 *   - a slice for the next record, which takes the place of the given one.
 * What step i is depends on the outcomes and replies before it alone. So a real receiver is driven in rounds: call with what is known so far
 * (done and 0 for the rest), take the first step that was not taken yet, put its outcome and what it read into the script, call again with the
 * same record. When every step has been taken, the next record tells what the chip holds: which registers are sure and which are doubtful.
 *
 * Script. Outcome byte i belongs to entry i of the call: 0 done, any other failed; the outcome of a wait is not looked at. Replies are used
 * in the order of reading. A script must be long enough for the longest run of its call (constants below), even where a run is shorter.
 *
 * Transcript. A call with steps writes one section at the start of its room: its entries of 16 bytes, then 8 bytes, the count of entries and
 * 16 times the count (u32 each). Bytes of the room past the section stay as they were. An entry:
 *
 *   byte 0 kind | 1 outcome, 0 done 1 failed | 2 target | 3 n | 4, 5 address | 6, 7 zero | 8..15 n data bytes, padded with zeros
 *
 *   kind                          target  n       address       data
 *   1 repeater                    0       1       0             1 opens, 0 closes
 *   2 I2C write                   chip    1..8    0             register, then bytes for it and the ones above it
 *   3 I2C read                    chip    1..5    0             raw bytes, zeros if failed
 *   4, 5 demodulator write        page    1, 2    register      high byte first
 *   6, 7 block write              block   1, 2    register      high byte first
 *   8 block read                  block   1       register      the byte, zero if failed
 *   9 wait                        0       0       milliseconds  none
 *
 * On a receiver a repeater entry is a write of one byte to the demodulator, page 1, register 0x01: 0x18 opens, 0x10 closes. Behind each write to
 * the demodulator that is done (kinds 1, 4, 5) rtlsdr-next reads page 0x0a, register 0x01, and looks neither at the byte nor at a failure; that
 * read has no entry. host/README.md has the USB transfer of each kind.
 *
 * When a step fails the rest of the call is not taken, but an open repeater is closed. A closing that fails is recorded and else ignored. After it: `reload`,
 * then the same call again until it is done. The records tell which bytes the tuner holds; that a call was cut, and what the demodulator holds, the host
 * keeps in mind until then.
 *
 * A host that dies. In memory or a file that outlives it, in this order (theorem `crashed` of crates/rounds; pasetone_host.h and Rust's `State` do it):
 *   1. before the first transfer of a call: the call with its arguments, its given records, and a script whose outcomes are ALL 1;
 *   2. a step that is done: first its replies, then its own outcome turned to 0. Nothing is stored before a step, nothing of one that failed or timed out;
 *   3. when the call has ended: its section into the night's file, then its next records with no call under way, by one store that counts whole or not at all.
 * Whenever it died, the same call with the stored script, by the library alone, gives the records that are true, and the section. Then `reload`, then the same call
 * again. Nothing is synced per step: a dead process loses no store, and a dead machine has unset the receiver, which the boot's identity tells: begin from a
 * fresh record then. Wait 40 ms after a transfer that timed out, after a recovery and before the end: it may land late, over a newer write.
 *
 * Slices. A slice is two arguments: a pointer that is not null and a length; an empty slice is any such pointer and 0. Numbers in bytes stand
 * low byte first, but for the data of a transfer. The slices of one call must be disjoint: nothing checks that. Slices by `const` pointer are
 * only read. Nothing is kept between calls and nothing is allocated, so calls for different receivers may run side by side.
 *
 * Refusals. The reply's `refusal` is 0 or one of the numbers below, in this order: a command that is none (14); a given record that is none (1); an argument
 * (1 to 4, 6 and 7; 13 after 3 and 4, 15 after 12); lent slices too short: room, and the slices for records and bytes that come back (8), outcomes (9), replies
 * (10); then the steps (11, or 2 in the PLL of a tuning). Settings on file are refused by their edition (16), then for the rest (17), then for an IF that a move
 * cannot say (18), then 8. A malformed table of bands is refused (19) behind a record that is none (1), before a rate (3, 13) and before a frequency that it
 * has no plan for (2), then 8. A register in doubt by which the oscillator stands is refused (20) behind 1 and 19, before 2. Refused before any step: value, index and count are 0, and every lent byte is as it was, but for the stream bytes of `feed`, which
 * a refused command has left. Refused by a step: value 0, and the section and the next records are written, since the steps taken stand. `pasetone_stands` tells
 * the two apart.
 */
#ifndef PASETONE_H
#define PASETONE_H

#include <stddef.h>
#include <stdint.h>

/*
 * The version of this header, as `pasetone_version` answers that of the archive: major * 65536 + minor * 256 + patch. CHANGELOG.md says what a host
 * has to change from one to the next. Every other place of the tree that names the version is held to this line by docs/check-version.
 */
#define PASETONE_VERSION 0x070100 /* 7.1.0 */

/*
 * Stands at each slice that a call writes: none of its bytes may be another slice's of the same call. No call can look for itself, but compilers warn of some
 * that are (gcc -Wall: one array as `tuner` and `next`).
 */
#if defined(__GNUC__) || defined(__clang__)
#define PASETONE_RESTRICT __restrict__
#elif defined(_MSC_VER)
#define PASETONE_RESTRICT __restrict
#elif !defined(__cplusplus) && defined(__STDC_VERSION__) && __STDC_VERSION__ >= 199901L
#define PASETONE_RESTRICT restrict
#else
#define PASETONE_RESTRICT
#endif

#ifdef __cplusplus
extern "C" {
#endif

/* Refusal numbers. */
#define PASETONE_DONE 0         /* not refused */
#define PASETONE_SETUP 1        /* a kind, board or path that is none, a nominal reference out of 1..4,294,967,295, bytes that are no record */
#define PASETONE_FREQUENCY 2    /* 0 Hz; Hz plus IF over 64 bits; or no divider in the PLL, or N below 13 or above its cap, when the mux is set already; by a
                                   table: in no band, or shifted below 0 or past 64 bits, in a tuning also to 0 */
#define PASETONE_RATE 3         /* rate 0 */
#define PASETONE_CORRECTION 4   /* a corrected reference out of 1..4,294,967,295, or a given reference of 0 */
/* 5 is not used: it was a register out of 0x05..0x1f, for a call that is gone since 4.0.0. */
#define PASETONE_PIN 6          /* a GPIO above 7 */
#define PASETONE_COEFFICIENT 7  /* an FIR value past its width, or not sixteen of them */
#define PASETONE_ROOM 8         /* room, or a slice for what comes back, is too short */
#define PASETONE_OUTCOMES 9     /* too few outcomes */
#define PASETONE_REPLIES 10     /* too few replies */
#define PASETONE_STEP 11        /* a step failed: `index` says which entry */
#define PASETONE_SECTION 12     /* bytes that do not end in a section */
#define PASETONE_RATIO 13       /* a rate that the resampler cannot hold: xtal * 2^22 / rate is below 4, 2^29 or more, or its bits 27 and 28 differ */
#define PASETONE_COMMAND 14     /* a command with an operation that is none, or with a nonzero byte past its argument */
#define PASETONE_EXPANSION 15   /* an entry that has no setup packets of its own, or bytes that no section expands to */
#define PASETONE_EDITION 16     /* settings of another edition */
#define PASETONE_SETTINGS 17    /* bytes that do not end in settings of that edition, or a kind, board or gain index that settings do not have */
#define PASETONE_NOT_EXPRESSIBLE 18 /* settings of edition 2 whose IF edition 1 cannot say */
#define PASETONE_TABLE 19       /* bytes that are no well-formed table of bands */
#define PASETONE_DOUBTFUL 20    /* the oscillator stands by a register that is doubtful: 0x10, 0x12, 0x14, 0x15 or 0x16 */

/* A refusal's word; "unknown" above 20. 5 has the word of the call that is gone, for a host that still meets an older archive. */
static inline const char *pasetone_refusal_word(uint32_t refusal)
{
    static const char *const words[] = {
        "done",    "setup",   "frequency", "rate",    "correction", "register",  "pin",     "coefficient", "room",            "outcomes",
        "replies", "step",    "section",   "ratio",   "command",    "expansion", "edition", "settings",    "not expressible", "table",
        "doubtful",
    };
    return refusal < sizeof words / sizeof words[0] ? words[refusal] : "unknown";
}

/* Cases as numbers. */
#define PASETONE_R820T 0
#define PASETONE_R828D 1
#define PASETONE_GENERIC 0
#define PASETONE_V4 1
#define PASETONE_HF 0
#define PASETONE_VHF 1
#define PASETONE_UHF 2
#define PASETONE_NO_PATH 3 /* in a plan or a table's band only */

/*
 * The tuner's record: its size, and the place of each field. Bytes that are a record: exactly this long, kind 0 or 1, both references 1 or
 * more, flags (lock, notch, each doubtful mark) 0 or 1, and no NaN as gain but 0x7fc00000. The shadow has for each register the byte last sent to it,
 * whether that write was done or failed; a write that was not tried leaves it. Before 4.0.0 a record had 105 bytes, and such bytes are none (1): the 27
 * at 51 were the bytes last sent, and the shadow was another list.
 */
#define PASETONE_TUNER_SIZE 78
#define PASETONE_TUNER_KIND 0
#define PASETONE_TUNER_ADDRESS 1
#define PASETONE_TUNER_SHADOW 2     /* 27 bytes for registers 0x05..0x1f: the byte last sent, or the chip's initial one */
#define PASETONE_TUNER_NOMINAL 29   /* u32, Hz */
#define PASETONE_TUNER_CORRECTED 33 /* u32, Hz */
#define PASETONE_TUNER_LOCK 37
#define PASETONE_TUNER_GAIN 38      /* binary32, dB */
#define PASETONE_TUNER_IF 42        /* u64, Hz */
#define PASETONE_TUNER_NOTCH 50
#define PASETONE_TUNER_DOUBTFUL 51  /* 27 flags: 1 where the chip may hold another */
#define PASETONE_FIRST_REGISTER 0x05
#define PASETONE_REGISTER_COUNT 27

/*
 * The driver's record. Bytes that are a record: exactly this long, board 0 or 1, nominal and ppm with a corrected reference in its range. The true rate
 * is the one that samples come at, whole: the resampler drops the two low bits of its ratio, so it is the rate asked or somewhat more, and may be past
 * 32 bits. It is 0 until `set_sample_rate` is done, which sets it with the rate; no other call does, so it is the one of the correction of that time.
 */
#define PASETONE_DRIVER_SIZE 29
#define PASETONE_DRIVER_BOARD 0
#define PASETONE_DRIVER_NOMINAL 1   /* u32, Hz */
#define PASETONE_DRIVER_PPM 5       /* i32 */
#define PASETONE_DRIVER_FREQUENCY 9 /* u64, Hz */
#define PASETONE_DRIVER_RATE 17     /* u32, samples per second: the rate asked */
#define PASETONE_DRIVER_TRUE_RATE 21 /* u64, samples per second, any */

/* The most entries of a call are its outcomes' least length; room for n entries; replies are 0 where none are named. */
#define PASETONE_ENTRY_SIZE 16
#define PASETONE_ROOM_FOR(n) ((size_t)16 * (n) + 8)
#define PASETONE_INITIALIZE_ENTRIES 19
#define PASETONE_INITIALIZE_ROOM PASETONE_ROOM_FOR(19)
#define PASETONE_TUNE_ENTRIES 53
#define PASETONE_TUNE_REPLIES 35 /* five of status, then three for each of up to ten tries for a lock */
#define PASETONE_TUNE_ROOM PASETONE_ROOM_FOR(53)
#define PASETONE_TUNE_BOARD_ENTRIES 64 /* no call makes more */
#define PASETONE_TUNE_BOARD_REPLIES 38 /* three of GPIO, where the path is taken, then those of a tuning */
#define PASETONE_TUNE_BOARD_ROOM PASETONE_ROOM_FOR(64)
#define PASETONE_GAIN_ENTRIES 7
#define PASETONE_GAIN_ROOM PASETONE_ROOM_FOR(7)
#define PASETONE_BANDWIDTH_ENTRIES 3
#define PASETONE_BANDWIDTH_ROOM PASETONE_ROOM_FOR(3)
#define PASETONE_IF_ENTRIES 4
#define PASETONE_IF_ROOM PASETONE_ROOM_FOR(4)
#define PASETONE_INPUT_PATH_ENTRIES 4
#define PASETONE_INPUT_PATH_ROOM PASETONE_ROOM_FOR(4)
#define PASETONE_RELOAD_ENTRIES 9
#define PASETONE_RELOAD_ROOM PASETONE_ROOM_FOR(9)
#define PASETONE_SAMPLE_RATE_ENTRIES 17
#define PASETONE_SAMPLE_RATE_ROOM PASETONE_ROOM_FOR(17)
#define PASETONE_BOARD_PATH_ENTRIES 10
#define PASETONE_BOARD_PATH_REPLIES 3
#define PASETONE_BOARD_PATH_ROOM PASETONE_ROOM_FOR(10)
#define PASETONE_BASEBAND_ENTRIES 45
#define PASETONE_BASEBAND_ROOM PASETONE_ROOM_FOR(45)
#define PASETONE_DEMOD_PAIR_ENTRIES 2 /* reset, low IF, zero IF, start and stop streaming */
#define PASETONE_DEMOD_PAIR_ROOM PASETONE_ROOM_FOR(2)
#define PASETONE_DIRECT_ENTRIES 1
#define PASETONE_DIRECT_ROOM PASETONE_ROOM_FOR(1)
#define PASETONE_IF_XTAL_ENTRIES 3
#define PASETONE_IF_XTAL_ROOM PASETONE_ROOM_FOR(3)
#define PASETONE_RATE_XTAL_ENTRIES 4
#define PASETONE_RATE_XTAL_ROOM PASETONE_ROOM_FOR(4)
#define PASETONE_GPIO_OUTPUT_ENTRIES 4
#define PASETONE_GPIO_OUTPUT_REPLIES 2
#define PASETONE_GPIO_OUTPUT_ROOM PASETONE_ROOM_FOR(4)
#define PASETONE_GPIO_BIT_ENTRIES 2
#define PASETONE_GPIO_BIT_REPLIES 1
#define PASETONE_GPIO_BIT_ROOM PASETONE_ROOM_FOR(2)

/* Sizes of answered bytes. */
#define PASETONE_GAIN_TABLE_SIZE 116
#define PASETONE_PLAN_SIZE 3
#define PASETONE_GENERIC_TABLE_SIZE 27 /* of the generic board's table, one band */
#define PASETONE_V4_TABLE_SIZE 216     /* of the V4's, eight */
#define PASETONE_PLL_SIZE 5
#define PASETONE_IF_REGS_SIZE 3
#define PASETONE_RESAMPLE_REGS_SIZE 4
#define PASETONE_FIR_SIZE 20
#define PASETONE_FIR_VALUES_SIZE 64
#define PASETONE_SETTINGS_1_SIZE 23
#define PASETONE_SETTINGS_2_SIZE 27

/* What a call answers: 24 bytes without padding. */
typedef struct {
    uint64_t value;   /* the call's answer; 0 where it is refused or has none */
    uint64_t index;   /* the failing entry where refusal is 11, else 0 */
    uint32_t refusal; /* 0 done, else a number above */
    uint32_t count;   /* entries in the section; 0 where no step was taken */
} pasetone_reply;

/*
 * What a tuning answers, of the tuner or of a board: the fields of `pasetone_reply`, then how its waiting for a lock went. 32 bytes without padding. `tries` is how many
 * three-byte reads of the section were done, at most 10; the try that reads the lock bit is the last. With refusal 11 both tell of the tries up
 * to the failing step; refused before any step, and by 2 in the PLL, both are 0. `locked` is told of this tuning alone. It is not the record's
 * lock, which stays as it was where a tuning is refused, or cut before its tries have ended.
 */
typedef struct {
    uint64_t value;
    uint64_t index;
    uint32_t refusal;
    uint32_t count;
    uint32_t tries;  /* for a lock */
    uint32_t locked; /* 1 where a try read the lock bit, else 0 */
} pasetone_tune_reply;

/*
 * Whether the call counts, 1 or 0: it is done, or it is refused and has taken steps, which stand. Then its next records are written and take
 * the place of the given ones; the section is written where `count` is not 0. Else nothing was written, and the given records stay.
 */
static inline int pasetone_stands(pasetone_reply reply)
{
    return reply.refusal == PASETONE_DONE || reply.count > 0;
}

/* The same of a tuning. */
static inline int pasetone_tune_stands(pasetone_tune_reply reply)
{
    return reply.refusal == PASETONE_DONE || reply.count > 0;
}

/* What the reader of sections answers: entries stand from `start` to `start + 16 * count`, the trailer's 8 bytes behind them. */
typedef struct {
    uint64_t start;   /* how many bytes stand before the section */
    uint64_t count;   /* entries in it */
    uint32_t refusal; /* 0, or 12: then the other fields are 0 */
    uint32_t zero;
} pasetone_section;

/*
 * Where two sections part. The part's entries stand from `start` to `start + 16 * count` of the slice that `whose` names, and `index` entries before them
 * are the same steps in both. 32 bytes without padding.
 */
typedef struct {
    uint64_t start;   /* how many bytes stand before the part in its slice */
    uint64_t count;   /* entries in it, to the end of its section; 0 where the sections are equal */
    uint64_t index;   /* its first entry's, counted from the section's first */
    uint32_t whose;   /* 1 the first's, 2 the second's; 0 where refused */
    uint32_t refusal; /* 0, or 12: then the other fields are 0 */
} pasetone_part;

/*
 * Settings of edition 1 as they were read: 48 bytes without padding. On file they are 19 bytes and a trailer of 4: kind 1, board 1, correction 4, rate 4,
 * frequency 8, gain index 1; the edition, a zero, the distance 19 (u16).
 */
typedef struct {
    uint64_t frequency;  /* Hz */
    uint64_t kind;       /* 0 R820T, 1 R828D */
    uint64_t board;      /* 0 generic, 1 V4 */
    uint64_t gain;       /* index of the gain step, 0 to 28 */
    uint32_t rate;       /* samples per second */
    int32_t correction;  /* parts per million */
    uint32_t refusal;    /* 0, or 16 or 17: then the other fields are 0 */
    uint32_t zero;
} pasetone_settings_1;

/*
 * Settings of edition 2: 48 bytes without padding. On file they are 23 bytes and a trailer of 4: those of edition 1, then the IF, 4 bytes; the edition, a
 * zero, the distance 23.
 */
typedef struct {
    uint64_t frequency;
    uint64_t kind;
    uint64_t board;
    uint64_t gain;
    uint32_t rate;
    int32_t correction;
    uint32_t intermediate; /* the IF in Hz, any */
    uint32_t refusal;      /* 0, or 16 or 17: then the other fields are 0 */
} pasetone_settings_2;

/*
 * What a feeding answers: 48 bytes without padding. Where it completed a command, all but `used`, `completed` and `pending` is that call's own answer. Where it
 * did not, `value`, `index`, `count`, `tries` and `locked` are 0, and `refusal` is 0, or 1 for stream bytes that are none.
 */
typedef struct {
    uint64_t value;
    uint64_t index;
    uint64_t used;      /* bytes taken from the chunk's start */
    uint32_t refusal;
    uint32_t count;     /* entries in the section; where it is not 0, the section is written */
    uint32_t tries;     /* of operation 1, as a tuning tells them; else 0 */
    uint32_t locked;
    uint32_t completed; /* 1 where a command was completed, done or refused, else 0 */
    uint32_t pending;   /* bytes that wait in the stream bytes for the rest of their command, 0 to 8 */
} pasetone_feed_reply;

/* The library's version: major * 65536 + minor * 256 + patch. Refuses nothing. */
uint32_t pasetone_version(void);

/* ---- Fresh records ---- */

/*
 * A tuner as it is before `initialize`: the shadow has the chip's initial bytes, every register is doubtful, no lock, gain
 * 0.0, IF 2,300,000, no notch, corrected reference = nominal. `address` is the chip's on I2C, any byte (an R820T has 0x34, an R828D 0x74: eight
 * bits, the lowest 0). `next`: 78 bytes. Value 0. Refuses 1 (kind, nominal), 8.
 */
pasetone_reply pasetone_tuner_new(uint64_t kind, uint8_t address, uint64_t nominal, uint8_t *PASETONE_RESTRICT next, size_t next_len);

/*
 * A driver: its board, reference, correction in parts per million, and the frequency and rate to start from (0 is taken); its true rate is 0.
 * `next`: 29 bytes. Value 0. Refuses 1 (board, nominal), 4, 8.
 */
pasetone_reply pasetone_driver_new(uint64_t board, uint64_t nominal, int32_t ppm, uint64_t frequency, uint32_t rate,
                                   uint8_t *PASETONE_RESTRICT next, size_t next_len);

/*
 * ---- The tuner's calls with steps ----
 * `tuner` is a record of 78 bytes and stays as it is; `next` takes the next one, 78 bytes, where the call is done or refused by a step.
 * In it, the shadow of a register follows every write to it that is tried, done or not, and the register is doubtful until a write is done and
 * whenever the last one failed. So a register that is not doubtful holds its shadow byte. Other fields stay unless they are named below.
 */

/*
 * Sends the chip's initial bytes, each chunk's into the shadow as it is tried, then sets it up by way of that shadow; what the shadow had before plays no
 * part. IF, gain, lock and notch stay. Outcomes 19, room 312. Value 0. Refuses 1, 8, 9, 11.
 */
pasetone_reply pasetone_initialize(const uint8_t *tuner, size_t tuner_len, const uint8_t *outcomes, size_t outcomes_len,
                                   uint8_t *PASETONE_RESTRICT room, size_t room_len, uint8_t *PASETONE_RESTRICT next, size_t next_len);

/*
 * Tunes to `hz`: the mux, then the PLL at hz + IF. That the PLL did not lock is no refusal: the reply's `locked` and `tries` tell it. The record's
 * lock changes only when the tries for a lock have ended. A repair of the divider: where the fine tune in the fifth status byte (bits 5 and 4, reversed) is
 * above 1 (R820T: 2), or below it, 0x10 is written once more with the next lower or higher power, as the Rust does it, and N and the sum stay: by its
 * registers the oscillator is then at twice, or half, what was asked, and the answer is done all the same. A host sees it in the entries, as a write of
 * 0x10 after the read of five bytes whose three high bits are others (not at the lowest divider, which stays), and does not file that recording. Outcomes 53, replies 35, room 856. Value: the hz asked. Refuses 1, 2, 8, 9, 10, 11; 2 also in
 * the PLL, when the mux's steps are taken and stand (13 entries).
 */
pasetone_tune_reply pasetone_set_frequency(const uint8_t *tuner, size_t tuner_len, uint64_t hz, const uint8_t *outcomes,
                                           size_t outcomes_len, const uint8_t *replies, size_t replies_len, uint8_t *PASETONE_RESTRICT room,
                                           size_t room_len, uint8_t *PASETONE_RESTRICT next, size_t next_len);

/*
 * The gain step for `db`. First db * 10 (one binary32 product; a NaN is 0) is cut toward zero to whole tenths of a dB, then the step nearest to
 * these is taken, the lower one on a tie. So 0.46 is 4 tenths and gives 0.0 dB, not 0.9; 3.25 is 32 tenths and gives 2.7 dB, not 3.7.
 * `get_gain_table` has the steps. The record's gain changes only when all steps are done. Outcomes 7, room 120. Value: the gain set, as the 32
 * bits of a binary32. Refuses 1, 8, 9, 11.
 */
pasetone_reply pasetone_set_gain(const uint8_t *tuner, size_t tuner_len, float db, const uint8_t *outcomes, size_t outcomes_len,
                                 uint8_t *PASETONE_RESTRICT room, size_t room_len, uint8_t *PASETONE_RESTRICT next, size_t next_len);

/* As `set_gain`, by the step's index; above 28 it is 28. Outcomes 7, room 120. Value: the gain set, as 32 bits. Refuses 1, 8, 9, 11. */
pasetone_reply pasetone_set_gain_by_index(const uint8_t *tuner, size_t tuner_len, uint64_t index, const uint8_t *outcomes,
                                          size_t outcomes_len, uint8_t *PASETONE_RESTRICT room, size_t room_len,
                                          uint8_t *PASETONE_RESTRICT next, size_t next_len);

/* The IF filter: to 6 MHz, to 7 MHz, above; the record keeps no bandwidth. Outcomes 3, room 56. Value 0. Refuses 1, 8, 9, 11. */
pasetone_reply pasetone_set_bandwidth(const uint8_t *tuner, size_t tuner_len, uint32_t hz, const uint8_t *outcomes, size_t outcomes_len,
                                      uint8_t *PASETONE_RESTRICT room, size_t room_len, uint8_t *PASETONE_RESTRICT next, size_t next_len);

/*
 * The IF that tunings go by: tune after it, and set the demodulator's too (`set_if_freq_xtal`). The record's IF changes before the steps, so also with
 * 11. Outcomes 4, room 72. Value 0. Refuses 1, 8, 9, 11.
 */
pasetone_reply pasetone_set_if_freq(const uint8_t *tuner, size_t tuner_len, uint64_t hz, const uint8_t *outcomes, size_t outcomes_len,
                                    uint8_t *PASETONE_RESTRICT room, size_t room_len, uint8_t *PASETONE_RESTRICT next, size_t next_len);

/*
 * The chip's input: path 0 HF, 1 VHF, 2 UHF. Outcomes 4, room 72. Value 0. Refuses 1 (also a path above 2), 8, 9, 11. An R820T has one input:
 * done with no entry and no section, outcomes and room are not looked at and may be empty, and `next` is the given record.
 */
pasetone_reply pasetone_set_input_path(const uint8_t *tuner, size_t tuner_len, uint64_t path, const uint8_t *outcomes, size_t outcomes_len,
                                       uint8_t *PASETONE_RESTRICT room, size_t room_len, uint8_t *PASETONE_RESTRICT next, size_t next_len);

/*
 * Sends the shadow again, every register of it. All done, no register is doubtful and the chip holds the shadow. It is half of the way back after
 * refusal 11: the shadow has the bytes that the cut call came to, so that a tuning which was cut and only reloaded may stand beside its station with no
 * register doubtful, and of the demodulator, the GPIO and the board's input nothing is sent. The way back: reload, then the same call again until it
 * is done; after a sample rate or an IF also the tuning. The shadow stays, also with 11. Outcomes 9, room 152. Value 0. Refuses 1, 8, 9, 11.
 */
pasetone_reply pasetone_reload(const uint8_t *tuner, size_t tuner_len, const uint8_t *outcomes, size_t outcomes_len,
                               uint8_t *PASETONE_RESTRICT room, size_t room_len, uint8_t *PASETONE_RESTRICT next, size_t next_len);

/* ---- The tuner's calls without steps ---- */

/* Value: the gain last set, as the 32 bits of a binary32. Refuses 1. */
pasetone_reply pasetone_get_gain(const uint8_t *tuner, size_t tuner_len);

/* Value: the IF in Hz. Refuses 1. */
pasetone_reply pasetone_get_if_freq(const uint8_t *tuner, size_t tuner_len);

/*
 * Where the oscillator stands: by the five bytes last sent to registers 0x10, 0x12, 0x14, 0x15 and 0x16 and the record's corrected reference R, by no call
 * that was asked. Value: 2R(65,536 * N + S) / (65,536 * m) in Hz, cut; m is 2^(1 + 0x10 / 32), N is 13 + 4 * (0x14 mod 64) + 0x14 / 64, S is 256 * 0x16 + 0x15,
 * or 0 where bit 3 of 0x12 is set. After a tuning to hz that was done and asked for no repair of the divider it is within 25 kHz / m of hz + IF, where m
 * is 32 (hz + IF from 55,312,500 to 110,624,999) within 782 Hz. Tried at every Hz of the FM band with an IF of 2,300,000: 86 Hz below to 38 Hz above at a reference
 * of 28,800,000 Hz exactly. A correction costs: the plan takes R / 1000 cut, so with -1 ppm it was up to 287 Hz above. It cannot know whether the PLL has locked,
 * whether the chip was switched off since, and what the crystal does. Refuses 1, 20 (one of the five registers is doubtful: then it may stand elsewhere).
 * Before a register was sent it is doubtful.
 */
pasetone_reply pasetone_oscillator(const uint8_t *tuner, size_t tuner_len);

/* The 29 gain steps in tenths of a dB, i32 each, into `out` (116 bytes). Value 0. Refuses 1, 8. */
pasetone_reply pasetone_get_gain_table(const uint8_t *tuner, size_t tuner_len, uint8_t *PASETONE_RESTRICT out, size_t out_len);

/* The notch, for the next tuning: 0 off, else on. CHANGES the given record where it lies, in its byte at 50. Value 0. Refuses 1. */
pasetone_reply pasetone_apply_notch(uint8_t *PASETONE_RESTRICT tuner, size_t tuner_len, uint8_t on);

/* ---- The driver's calls. `driver` is a record of 29 bytes and stays as it is, but in `set_ppm`. ---- */

/* Value: the driver's corrected reference in Hz. Refuses 1. */
pasetone_reply pasetone_corrected_xtal_hz(const uint8_t *driver, size_t driver_len);

/*
 * The frequency in the middle of a recording: the oscillator, as `pasetone_oscillator`, less the tuner record's IF, less the shift of the band of `table` that
 * holds the driver's frequency. That is the one given at its making or by the last `tune_board` that was done; two bands can lead to one oscillator, so it alone
 * does not tell the band. An inverted band is answered in the same way: its spectrum is mirrored around the centre, which does not move. Hold it against the
 * frequency that was asked for, and not against the driver's, which stays where a tuning is cut: then it tells whether the oscillator stands where it should,
 * as far off as the oscillator is. It does not tell whether the board's input and the demodulator do: a call that was cut is made again until it is done,
 * whatever this says. It cannot know the demodulator: the IF is the tuner record's, and where a rate was cut the demodulator may be told another. Give the
 * table that the tunings were made with; after `set_frequency`, which leaves the driver's frequency, the band is that of the `tune_board` before. Value: Hz. Refuses 1 (either record), 19, 20, 2 (the table has
 * no plan for the driver's frequency: in no band, or shifted below 0 or past 64 bits; or the centre itself is below 0).
 */
pasetone_reply pasetone_centre(const uint8_t *driver, size_t driver_len, const uint8_t *tuner, size_t tuner_len, const uint8_t *table,
                               size_t table_len);

/*
 * The correction, of tuner and driver at once: each one's reference is nominal + nominal * ppm / 1,000,000 of its own nominal, the quotient cut toward
 * zero. CHANGES both given records where they lie, or neither: the tuner's corrected reference in its four bytes at 33, the driver's ppm in its four at 5.
 * The two slices must not overlap. It takes no step: the next tuning and the next rate go by it, and rate and true rate stay, so the true rate is that of
 * the old correction until a rate is set again. Before 5.0.0 there were two calls, and a host that made only one of them had two references. Value 0.
 * Refuses 1 (either record), 4 (either reference).
 */
pasetone_reply pasetone_set_ppm(uint8_t *PASETONE_RESTRICT tuner, size_t tuner_len, uint8_t *PASETONE_RESTRICT driver, size_t driver_len,
                                int32_t ppm);

/*
 * The sample rate: IF and filter of the tuner, reset, rate and IF of the demodulator, spectrum by the table's plan for the driver's frequency: inverted
 * if that plan is, and not where the table has none. `table` is a table of bands (below); the driver's board plans nothing here, `board_table` has its
 * table. An IF of 0 stays 0. Outcomes 17, room 280; `next_driver` 29 bytes, `next_tuner` 78. Both are written once steps were taken; the driver's
 * rate and true rate change only when all are done, the tuner's IF before them. The true rate is the corrected reference times 2^22 divided by the
 * ratio as it was sent, cut to a whole number, and at least the rate asked. A rate moves the IF and tunes nothing: TUNE AFTER IT, or the recording is
 * beside its station by the difference of the two IFs. Value 0. Refuses 1 (either record), 19, 3, 13 (by the corrected reference: at 28,800,000 Hz the
 * rates from 225,001 to 300,000 and from 900,001 up are taken), 8, 9, 11; after 11 the demodulator's rate and IF are not known until a rate is done.
 */
pasetone_reply pasetone_set_sample_rate(const uint8_t *driver, size_t driver_len, const uint8_t *tuner, size_t tuner_len,
                                        const uint8_t *table, size_t table_len, uint32_t rate, const uint8_t *outcomes, size_t outcomes_len,
                                        uint8_t *PASETONE_RESTRICT room, size_t room_len, uint8_t *PASETONE_RESTRICT next_driver,
                                        size_t next_driver_len, uint8_t *PASETONE_RESTRICT next_tuner, size_t next_tuner_len);

/*
 * Tunes a board to `hz` by the table's plan: the notch, the board's input (as `apply_input_path`; only on an R828D, and only where the band has a path), the
 * tuner at the shifted Hz, then the demodulator's byte for the spectrum, 0x05 inverted and 0x01 not, page 1, register 0x15. Nothing waits beside what a
 * tuning waits for, and neither IF nor rate is touched. The notch is in the next tuner record before the first step, so also with 11 and with a 2 of the
 * PLL; the driver's frequency becomes `hz` only where the call is done. Outcomes 64, replies 38, room 1,032, also where a run is shorter; replies go in
 * the order of reading, so without the board's input the first is the tuning's. `next_driver` 29 bytes, `next_tuner` 78: both are written once steps
 * were taken. Value: the hz asked. Refuses 1 (either record), 19, 2 (no plan, or one for 0 Hz, or whose Hz plus IF is over 64 bits), 8, 9, 10, 11; 2
 * also in the PLL, when the steps before it are taken and stand and the demodulator's byte is not sent (13 entries, or 23).
 */
pasetone_tune_reply pasetone_tune_board(const uint8_t *driver, size_t driver_len, const uint8_t *tuner, size_t tuner_len,
                                        const uint8_t *table, size_t table_len, uint64_t hz, const uint8_t *outcomes, size_t outcomes_len,
                                        const uint8_t *replies, size_t replies_len, uint8_t *PASETONE_RESTRICT room, size_t room_len,
                                        uint8_t *PASETONE_RESTRICT next_driver, size_t next_driver_len,
                                        uint8_t *PASETONE_RESTRICT next_tuner, size_t next_tuner_len);

/*
 * The board's input: GPIO 5, then the tuner's own path. Outcomes 10, replies 3, room 168, on an R820T too, which makes six entries.
 * `next`: 78 bytes. Value 0. Refuses 1 (also a path above 2), 8, 9, 10, 11.
 */
pasetone_reply pasetone_apply_input_path(const uint8_t *tuner, size_t tuner_len, uint64_t path, const uint8_t *outcomes,
                                         size_t outcomes_len, const uint8_t *replies, size_t replies_len, uint8_t *PASETONE_RESTRICT room,
                                         size_t room_len, uint8_t *PASETONE_RESTRICT next, size_t next_len);

/* ---- Demodulator and GPIO: no record; the room alone is written. Value 0. ---- */

/* Powers the demodulator and sets it up. Outcomes 45, room 728. Refuses 8, 9, 11. */
pasetone_reply pasetone_init_baseband(const uint8_t *outcomes, size_t outcomes_len, uint8_t *PASETONE_RESTRICT room, size_t room_len);

/* The same as `init_baseband`. Outcomes 45, room 728. Refuses 8, 9, 11. */
pasetone_reply pasetone_power_on(const uint8_t *outcomes, size_t outcomes_len, uint8_t *PASETONE_RESTRICT room, size_t room_len);

/* Soft reset, on and off. Outcomes 2, room 40. Refuses 8, 9, 11. */
pasetone_reply pasetone_reset_demod(const uint8_t *outcomes, size_t outcomes_len, uint8_t *PASETONE_RESTRICT room, size_t room_len);

/* For a tuner with an IF. Outcomes 2, room 40. Refuses 8, 9, 11. */
pasetone_reply pasetone_set_tuner_low_if(const uint8_t *outcomes, size_t outcomes_len, uint8_t *PASETONE_RESTRICT room, size_t room_len);

/* For a tuner without one. Outcomes 2, room 40. Refuses 8, 9, 11. */
pasetone_reply pasetone_set_tuner_zero_if(const uint8_t *outcomes, size_t outcomes_len, uint8_t *PASETONE_RESTRICT room, size_t room_len);

/* The endpoint: stalled and cleared, so that samples come. Outcomes 2, room 40. Refuses 8, 9, 11. */
pasetone_reply pasetone_start_streaming(const uint8_t *outcomes, size_t outcomes_len, uint8_t *PASETONE_RESTRICT room, size_t room_len);

/* The endpoint stalled, the demodulator's power off. Outcomes 2, room 40. Refuses 8, 9, 11. */
pasetone_reply pasetone_stop_streaming(const uint8_t *outcomes, size_t outcomes_len, uint8_t *PASETONE_RESTRICT room, size_t room_len);

/* One byte into a register of the demodulator, any page and address. Outcomes 1, room 24. Refuses 8, 9, 11. */
pasetone_reply pasetone_write_reg_direct(uint8_t page, uint16_t address, uint8_t value, const uint8_t *outcomes, size_t outcomes_len,
                                         uint8_t *PASETONE_RESTRICT room, size_t room_len);

/* The demodulator's IF at a reference of `xtal` Hz. Outcomes 3, room 56. Refuses 4 (xtal 0), 8, 9, 11. */
pasetone_reply pasetone_set_if_freq_xtal(uint32_t hz, uint32_t xtal, const uint8_t *outcomes, size_t outcomes_len,
                                         uint8_t *PASETONE_RESTRICT room, size_t room_len);

/* The resampler's rate at a reference of `xtal` Hz. Outcomes 4, room 72. Refuses 3, 4 (xtal 0), 13, 8, 9, 11. */
pasetone_reply pasetone_set_sample_rate_xtal(uint32_t rate, uint32_t xtal, const uint8_t *outcomes, size_t outcomes_len,
                                             uint8_t *PASETONE_RESTRICT room, size_t room_len);

/* Makes a GPIO (0..7) an output. Outcomes 4, replies 2, room 72. Refuses 6, 8, 9, 10, 11. */
pasetone_reply pasetone_set_gpio_output(uint8_t gpio, const uint8_t *outcomes, size_t outcomes_len, const uint8_t *replies,
                                        size_t replies_len, uint8_t *PASETONE_RESTRICT room, size_t room_len);

/* Sets a GPIO's level: 0 low, else high. Outcomes 2, replies 1, room 40. Refuses 6, 8, 9, 10, 11. */
pasetone_reply pasetone_set_gpio_bit(uint8_t gpio, uint8_t value, const uint8_t *outcomes, size_t outcomes_len, const uint8_t *replies,
                                     size_t replies_len, uint8_t *PASETONE_RESTRICT room, size_t room_len);

/* ---- Numbers and bytes: no record and no steps ---- */

/*
 * How a board (0 generic, 1 V4) is to be tuned to `hz`. `out`, 3 bytes: 1 if the spectrum is inverted; the path, or 3 for none; 1 if hz lies in
 * a notch. Value: the Hz for the tuner. Refuses 1, 8.
 */
pasetone_reply pasetone_plan_tuning(uint64_t board, uint64_t hz, uint8_t *PASETONE_RESTRICT out, size_t out_len);

/*
 * A board from a table: up to 16 bands, end to end in 27 bytes each. Numbers stand low byte first. A table is well formed if its length is a multiple of 27 up
 * to 432 and each band has a first Hz not above its last and above the last of the band before, flags of 0 or 1 and a path up to 3; one of no bands is.
 */
#define PASETONE_BAND_SIZE 27
#define PASETONE_BAND_FIRST 0     /* u64, the first Hz that it holds */
#define PASETONE_BAND_LAST 8      /* u64, the last */
#define PASETONE_BAND_SHIFT 16    /* i64, added to the Hz for the tuner */
#define PASETONE_BAND_INVERTED 24 /* 1 if the spectrum is inverted, else 0 */
#define PASETONE_BAND_PATH 25     /* the path, or 3 for none */
#define PASETONE_BAND_NOTCH 26    /* 1 if it lies in a notch, else 0 */
#define PASETONE_TABLE_BANDS 16   /* at most */
#define PASETONE_TABLE_FOR(n) ((size_t)27 * (n))

/*
 * The table of a built-in board (0 generic, 1 V4), at the start of `out` (27 or 216 bytes); bytes past it stay. By it the plan is that of `plan_tuning` at
 * every hz. Value: how many bytes were written. Refuses 1, 8.
 */
pasetone_reply pasetone_board_table(uint64_t board, uint8_t *PASETONE_RESTRICT out, size_t out_len);

/*
 * How the board of a table is to be tuned to `hz`: by the one band that holds it. `out`, 3 bytes, and value as in `plan_tuning`; the value may be 0.
 * Refuses 19 (not well formed), 2 (in no band, or shifted below 0 or past 64 bits), 8.
 */
pasetone_reply pasetone_plan_by_table(const uint8_t *table, size_t table_len, uint64_t hz, uint8_t *PASETONE_RESTRICT out, size_t out_len);

/*
 * The PLL's numbers for an oscillator at `lo` Hz (hz + IF of a tuning) and a reference in Hz, as a tuning of that kind sends them. `out`, 5 bytes:
 * the divider m (2 to 64); N; the byte for register 0x14, from which N comes back as 13 + 4 * (its low six bits) + its top two; S, low byte first.
 * Value: the rest, what the sum leaves of the fraction, in thousands of Hz. Refuses 1 (kind), 4 (reference 0), 2 (no divider, N below 13, N above 63
 * on an R820T or above 127 on an R828D), 8.
 */
pasetone_reply pasetone_plan_pll(uint64_t kind, uint64_t lo, uint32_t reference, uint8_t *PASETONE_RESTRICT out, size_t out_len);

/*
 * The same answer for every input, worked out by the technicians' worksheet: a table of six ranges of lo and one of the sixteen steps of the sum. For
 * checks by hand; tunings go by `plan_pll`. `out`: 5 bytes. Refuses 1, 4, 2, 8.
 */
pasetone_reply pasetone_plan_pll_by_worksheet(uint64_t kind, uint64_t lo, uint32_t reference, uint8_t *PASETONE_RESTRICT out, size_t out_len);

/* hz * 2^22 / xtal, kept to 22 bits, high byte first (`set_if_freq_xtal` sends it negated). `out`: 3 bytes. Value 0. Refuses 4 (xtal 0), 8. */
pasetone_reply pasetone_if_freq_regs(uint32_t hz, uint32_t xtal, uint8_t *PASETONE_RESTRICT out, size_t out_len);

/*
 * xtal * 2^22 / rate, kept to 30 bits, high byte first (`set_sample_rate_xtal` sends fewer), also where that call refuses 13. `out`: 4 bytes. Value 0.
 * Refuses 3, 4, 8.
 */
pasetone_reply pasetone_resample_regs(uint32_t rate, uint32_t xtal, uint8_t *PASETONE_RESTRICT out, size_t out_len);

/*
 * FIR coefficients. `values`: sixteen i32 (64 bytes), the first eight of 8 bits (-128..127), the others of 12 (-2048..2047). `out`: 20 bytes.
 * Value 0. Refuses 7 (a value, or not 64 bytes), 8.
 */
pasetone_reply pasetone_pack_fir(const uint8_t *values, size_t values_len, uint8_t *PASETONE_RESTRICT out, size_t out_len);

/* The inverse: 20 bytes into sixteen i32 (64 bytes). Value 0. Refuses 7 (not 20 bytes), 8. */
pasetone_reply pasetone_unpack_fir(const uint8_t *bytes, size_t bytes_len, uint8_t *PASETONE_RESTRICT out, size_t out_len);

/*
 * The section in which `bytes` end; what stands before it is not looked at. Accepts exactly what the tables above allow, up to 4,096 entries
 * (none is a section too; a wait's outcome is 0). Refuses 12.
 */
pasetone_section pasetone_read_section(const uint8_t *bytes, size_t bytes_len);

/*
 * Where the sections in which two slices end part: the entries of the second from the first that differs from the first section's, or that the first
 * lacks; where the second ends first, the rest of the first. Outcomes and what reads gave are not compared; kind, target, n, address and a write's data
 * are, a wait's milliseconds and a repeater's byte too. Equal sections give the second's empty part, where its entries end. What stands before either
 * section is not looked at. Nothing is written. Refuses 12 (either).
 */
pasetone_part pasetone_parting(const uint8_t *first, size_t first_len, const uint8_t *second, size_t second_len);

/*
 * ---- Settings on file. The edition stands in each name, so that a later one has functions of its own. ----
 * The settings of edition 1 in which `bytes` end; what stands before them is not looked at. The edition is tested before any field, so that another
 * edition is 16 and never half read. A rate or frequency of 0 and any correction are taken. Refuses 16, 17 (fewer than 23 bytes, under 4 whatever they
 * are, wrong distance, nonzero filler, kind, board or gain index out of range).
 */
pasetone_settings_1 pasetone_read_settings_1(const uint8_t *bytes, size_t bytes_len);

/*
 * The image of edition 1 of these settings, at the start of `out` (23 bytes); bytes past it stay. Every settings record has one image, and each image
 * that is read is the one that its record is written to. Value: how many bytes were written, 23. Refuses 17 (kind, board, gain index), 8.
 */
pasetone_reply pasetone_write_settings_1(uint64_t kind, uint64_t board, int32_t correction, uint32_t rate, uint64_t frequency, uint64_t gain,
                                         uint8_t *PASETONE_RESTRICT out, size_t out_len);

/*
 * The settings of edition 2 in which `bytes` end, or those of edition 1, with the IF that edition 1 stands for, 2,300,000. Else as
 * `read_settings_1`, which answers 16 to every image of edition 2. Refuses 16 (neither edition), 17.
 */
pasetone_settings_2 pasetone_read_settings_2(const uint8_t *bytes, size_t bytes_len);

/* The image of edition 2, at the start of `out` (27 bytes); bytes past it stay. Value: how many bytes were written, 27. Refuses 17, 8. */
pasetone_reply pasetone_write_settings_2(uint64_t kind, uint64_t board, int32_t correction, uint32_t rate, uint64_t frequency, uint64_t gain,
                                         uint32_t intermediate, uint8_t *PASETONE_RESTRICT out, size_t out_len);

/*
 * The settings of edition 1 in which `bytes` end as an image of edition 2 with the IF 2,300,000: the image alone, at the start of `out` (27 bytes).
 * Value: 27. Refuses 16 (also edition 2), 17, 8; then `out` is as it was.
 */
pasetone_reply pasetone_move_settings_1_to_2(const uint8_t *bytes, size_t bytes_len, uint8_t *PASETONE_RESTRICT out, size_t out_len);

/*
 * The settings of edition 2 in which `bytes` end as an image of edition 1 (23 bytes), if their IF is 2,300,000. There and back gives the same bytes. Value:
 * 23. Refuses 16 (also edition 1), 17, 18 (another IF), 8; then `out` is as it was.
 */
pasetone_reply pasetone_move_settings_2_to_1(const uint8_t *bytes, size_t bytes_len, uint8_t *PASETONE_RESTRICT out, size_t out_len);

/* ---- Setup packets of USB 2.0 ---- */

/* A room of PASETONE_PACKETS_FOR(n) bytes holds the packets of every section of n entries, and PASETONE_PACKETS_BACK(n) the section of n bytes of packets. */
#define PASETONE_PACKETS_MOST 18 /* bytes that an entry becomes: a demod write of two bytes, done */
#define PASETONE_PACKET_LEAST 8  /* bytes that come back as one entry: a read */
#define PASETONE_PACKETS_FOR(n) ((size_t)18 * (n))
#define PASETONE_PACKETS_BACK(n) ((size_t)16 * ((n) / 8) + 8)

/*
 * The section in which `section` ends, as control transfers: for each entry 8 bytes (type 0x40 for a write and 0xc0 for a read, request 0, value, index and
 * length, as the driver in Rust sends them) and a write's data; a read's data do not come. A demod write reported done has the read of page 0x0a, register 0x01
 * after it. A repeater entry is the demod write of 0x18 (opens) or 0x10 (closes) at page 1, register 0x01; a wait is nothing. Value: how many bytes were written
 * at the start of `out`, which are asked for exactly; the others stay. Refuses 12, 15 (a demod register above 0xff, a page above 15, block 0 or 6, whatever the
 * outcome), 8.
 */
pasetone_reply pasetone_expand(const uint8_t *section, size_t section_len, uint8_t *PASETONE_RESTRICT out, size_t out_len);

/*
 * The other way: the section of the entries whose packets these are, all of them. It has no waits, outcomes and read data, and a repeater entry is the demod
 * write that it became. So packets of a failed demod write come back as one that was done. No packets are the section of no entries. Value: how many bytes were
 * written at the start of `out`, 16 for each entry and 8. Refuses 15 (bytes that no section expands to: a stray read of page 0x0a, a cut packet, more than
 * 4,096 entries), 8.
 */
pasetone_reply pasetone_read_packets(const uint8_t *packets, size_t packets_len, uint8_t *PASETONE_RESTRICT out, size_t out_len);

/* ---- Restore lists ---- */

/* 14 writes and the trailer: a slice of this size holds every restore list. */
#define PASETONE_RESTORE_ROOM PASETONE_ROOM_FOR(14)

/*
 * From sections end to end, oldest first, where they left the registers 0x05..0x1f of the chip at `address`: a section of I2C writes with outcome 0 that
 * names each register whose last write was done, once, with its byte, in ascending runs of at most seven, the long ones filled from the left; no list has
 * fewer writes. A register whose last write failed, or that no write names, is doubtful, and in none of them. Writes to other chips and bytes for other
 * registers count for nothing; numbers past 0xff do not wrap. Repeater entries are not looked at. Sent behind an open repeater, with every write done, the
 * list leaves on any chip those registers as the sections left them. All of `sections` has to be sections, of which no bytes have none: they give the
 * section of no entries. Value: how many bytes were written at the start of `out`, 16 for each write and 8, which are asked for exactly; the others stay.
 * Refuses 12 (any section, or bytes before them that are none), 8.
 */
pasetone_reply pasetone_restore(const uint8_t *sections, size_t sections_len, uint8_t address, uint8_t *PASETONE_RESTRICT out, size_t out_len);

/* ---- Evidence ---- */

/* What `pasetone_evidence` writes. */
#define PASETONE_EVIDENCE_SIZE 52

/*
 * From sections end to end, oldest first, the station that the receiver with its chip at `address` stands on, by what was sent and nothing else.
 * `tuner_xtal` is the tuner's corrected reference (of the oscillator), `driver_xtal` the driver's (of IF and rate). The answer has 52 bytes, numbers low
 * byte first:
 *
 *    0  marks, a byte each: oscillator, IF, rate, DDC, lock, centre
 *    6  the DDC byte (page 1, register 0x15); 7 is zero
 *    8  u32  tries: done three-byte reads of the chip since the last write that names 0x10, 0x14, 0x15 or 0x16; a count past u32 stays at 4,294,967,295
 *   12  u32  the IF's word, 22 bits, as it was sent to 0x19..0x1b
 *   16  u32  the ratio, as it was sent to 0x9f..0xa2
 *   20  u64  the rate that it stands for, driver_xtal * 2^22 / ratio in whole Hz, cut; 0 where the ratio is 0
 *   28  u64  the oscillator, in units of 2^-23 Hz, exact
 *   36  u64  the IF, in the same units, exact
 *   44  u64  the centre of what is recorded, oscillator less IF in whole Hz, cut
 *
 * A mark is 0 (never: no write names one of its registers), 1 (doubtful) or 2 (sure: the last write of each was done); what is not sure is 0. The lock's
 * is 0 (no done three-byte read since a write that names 0x10, 0x12, 0x14, 0x15 or 0x16), 1 (the last without the bit) or 2 (with it). The centre's is
 * sure where oscillator and IF are, and 1 where the IF is the larger. A failed write may have left anything in what it names. A write that names page 1,
 * register 0x01 (the soft reset's) or block 2, 0x3000 (the power), or a demodulator register above 0xff or a page above 15, makes every register of the
 * demodulator doubtful until it is written again; a repeater entry does not. A board's shift is not taken back here: for a converted band the centre is
 * that of the tuner's side (an inverted one mirrors the spectrum around it; derived from the driver's text, never tried on a chip).
 * Value: 0. Refuses 4 (either reference 0), 12 (any section, or bytes before them that are none), 8; refused, `out` is as it was.
 */
pasetone_reply pasetone_evidence(const uint8_t *sections, size_t sections_len, uint8_t address, uint32_t tuner_xtal, uint32_t driver_xtal,
                                 uint8_t *PASETONE_RESTRICT out, size_t out_len);

/*
 * ---- Commands fed as they arrive ----
 * A command is nine bytes: an operation, then its argument in eight bytes, low byte first, those above it zero.
 *
 *   operation       argument                  call
 *   1 frequency     u64, Hz                   set_frequency: the tuner's tune, no board's. The driver's frequency stays
 *   2 rate          u32                       set_sample_rate, with the table
 *   3 gain          binary32 bits, dB         set_gain; every NaN is the one NaN
 *   4 gain index    u8                        set_gain_by_index: 29 to 255 are 28
 *   5 bandwidth     u32, Hz                   set_bandwidth
 *   6 correction    i32, four bytes           set_ppm, of both records
 *   7 reload        0                         reload
 *
 * The stream bytes are what a host keeps between chunks: how many bytes are pending (0 to 8), then eight bytes, the pending ones first and zeros behind them.
 * Nine zeros are a fresh stream. Cuts can't be seen: however a stream is chopped, the same calls are made, given the same script and room for each command.
 * A host's loop, which lends each command its own; room lent behind the last section leaves sections end to end, as `restore` takes them:
 *
 *   while (n > 0) {
 *       pasetone_feed_reply r;
 *       lend(number, &outcomes, &replies, &room);
 *       r = pasetone_feed(stream, 9, driver, 29, tuner, 78, table, t, bytes, n, outcomes, o, replies, p, room, m);
 *       if (!r.completed && r.refusal != 0) break;         (the stream bytes are none)
 *       if (r.completed) answer(number++, r, room);        (done or refused: the next one runs)
 *       bytes += r.used;
 *       n -= r.used;
 *   }
 *
 * On a receiver each round of a command has copies of the stream bytes and of both records; those of the last round take the place of the kept ones.
 */
#define PASETONE_STREAM_SIZE 9
#define PASETONE_COMMAND_SIZE 9
#define PASETONE_OPERATION_FREQUENCY 1
#define PASETONE_OPERATION_RATE 2
#define PASETONE_OPERATION_GAIN 3
#define PASETONE_OPERATION_GAIN_INDEX 4
#define PASETONE_OPERATION_BANDWIDTH 5
#define PASETONE_OPERATION_CORRECTION 6
#define PASETONE_OPERATION_RELOAD 7

/*
 * Takes a chunk of the stream up to one completed command. CHANGES stream bytes, driver and tuner where they lie. While the pending bytes and the chunk are
 * fewer than nine, the chunk joins the pending bytes, and nothing else is looked at or changed. Else the command's last bytes are taken, nothing is pending any
 * more, and the command runs on both records with these outcomes, replies and room, of which its call asks what it asks for when it is called by itself; the
 * rest of the chunk is for the next feeding. A record changes where that call would have written its next one: done, or once steps were taken. So a refused
 * command is answered and gone, with its nine bytes. The table is looked at by operation 2 alone. Refuses 1 (stream bytes that are none: then nothing is used
 * and nothing changes; behind 14, either record, for every operation), 14, 19 (operation 2), 2, 3, 4, 13, 8, 9, 10, 11 (each as the call does).
 */
pasetone_feed_reply pasetone_feed(uint8_t *PASETONE_RESTRICT stream, size_t stream_len, uint8_t *PASETONE_RESTRICT driver,
                                  size_t driver_len, uint8_t *PASETONE_RESTRICT tuner, size_t tuner_len, const uint8_t *table,
                                  size_t table_len, const uint8_t *chunk, size_t chunk_len, const uint8_t *outcomes, size_t outcomes_len,
                                  const uint8_t *replies, size_t replies_len, uint8_t *PASETONE_RESTRICT room, size_t room_len);

/* Value: how many bytes of a command are pending, 0 to 8; at the end of a stream, the length of the one that is not whole. Refuses 1 (bytes that are none). */
pasetone_reply pasetone_stream_pending(const uint8_t *stream, size_t stream_len);

#ifdef __cplusplus
}
#endif

#endif
