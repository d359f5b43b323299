/* Every function that libpasetone.a exports: what it takes, when document 01 refuses its arguments, what it answers. */
#include <string.h>

#include "calls.h"

#define S(slot) a->at[slot], a->told[slot]
#define RUN(name, expression) \
    static pasetone_reply name(struct attempt *a) { return expression; }

static pasetone_reply run_version(struct attempt *a)
{
    pasetone_reply reply = {0, 0, 0, 0};
    (void)a;
    reply.value = pasetone_version();
    return reply;
}

static float decibels(const struct attempt *a)
{
    uint32_t bits = (uint32_t)a->arg[0];
    float db;
    memcpy(&db, &bits, sizeof db);
    return db;
}

static pasetone_reply run_tune(struct attempt *a)
{
    pasetone_tune_reply told = pasetone_set_frequency(S(TUNER), a->arg[0], S(OUTCOMES), S(REPLIES), S(ROOM), S(NEXT));
    pasetone_reply reply = {told.value, told.index, told.refusal, told.count};
    a->tries = told.tries;
    a->locked = told.locked;
    return reply;
}

static pasetone_reply run_hop(struct attempt *a)
{
    pasetone_tune_reply told = pasetone_tune_board(S(DRIVER), S(TUNER), S(INPUT), a->arg[0], S(OUTCOMES), S(REPLIES), S(ROOM), S(NEXT_DRIVER), S(NEXT));
    pasetone_reply reply = {told.value, told.index, told.refusal, told.count};
    a->tries = told.tries;
    a->locked = told.locked;
    return reply;
}

static pasetone_reply run_feed(struct attempt *a)
{
    pasetone_feed_reply told = pasetone_feed(S(STREAM), S(DRIVER), S(TUNER), S(INPUT), S(CHUNK), S(OUTCOMES), S(REPLIES), S(ROOM));
    pasetone_reply reply = {told.value, told.index, told.refusal, told.count};
    a->tries = told.tries;
    a->locked = told.locked;
    a->fed.used = told.used;
    a->fed.completed = told.completed;
    a->fed.pending = told.pending;
    return reply;
}

RUN(run_pending, pasetone_stream_pending(S(STREAM)))

/* A section's start as value; `zero` as index. */
static pasetone_reply run_read(struct attempt *a)
{
    pasetone_section told = pasetone_read_section(S(INPUT));
    pasetone_reply reply = {told.start, told.zero, told.refusal, (uint32_t)told.count};
    return reply;
}

/* Where two sections part: start, whose and index as one value. */
static pasetone_reply run_parting(struct attempt *a)
{
    pasetone_part told = pasetone_parting(S(INPUT), S(SECOND));
    pasetone_reply reply = {0, 0, 0, 0};
    reply.value = parting_value(told.start, told.whose, told.index);
    reply.refusal = told.refusal;
    reply.count = (uint32_t)told.count;
    return reply;
}

/* The fields that both editions have. */
#define TAKE(fields, told)                                                                                                                            \
    ((fields)[0] = (told).kind, (fields)[1] = (told).board, (fields)[2] = (uint32_t)(told).correction, (fields)[3] = (told).rate,                    \
     (fields)[4] = (told).frequency, (fields)[5] = (told).gain)

/* Settings that were read: all fields as one value, and `zero`, which must be one, as index. */
static pasetone_reply run_read_settings_1(struct attempt *a)
{
    pasetone_settings_1 told = pasetone_read_settings_1(S(INPUT));
    uint64_t fields[FIELDS] = {0};
    pasetone_reply reply = {0, 0, 0, 0};
    TAKE(fields, told);
    reply.value = fields_value(fields, told.refusal);
    reply.index = told.zero;
    reply.refusal = told.refusal;
    return reply;
}

RUN(run_write_settings_1, pasetone_write_settings_1(a->arg[0], a->arg[1], (int32_t)(uint32_t)a->arg[2], (uint32_t)a->arg[3], a->arg[4], a->arg[5], S(OUT)))
static pasetone_reply run_read_settings_2(struct attempt *a)
{
    pasetone_settings_2 told = pasetone_read_settings_2(S(INPUT));
    uint64_t fields[FIELDS] = {0};
    pasetone_reply reply = {0, 0, 0, 0};
    TAKE(fields, told);
    fields[6] = told.intermediate;
    reply.value = fields_value(fields, told.refusal);
    reply.refusal = told.refusal;
    return reply;
}

RUN(run_write_settings_2, pasetone_write_settings_2(a->arg[0], a->arg[1], (int32_t)(uint32_t)a->arg[2], (uint32_t)a->arg[3], a->arg[4], a->arg[5], (uint32_t)a->arg[6], S(OUT)))
RUN(run_move_1_to_2, pasetone_move_settings_1_to_2(S(INPUT), S(OUT)))
RUN(run_move_2_to_1, pasetone_move_settings_2_to_1(S(INPUT), S(OUT)))
RUN(run_tuner_new, pasetone_tuner_new(a->arg[0], (uint8_t)a->arg[1], a->arg[2], S(NEXT)))
RUN(run_driver_new, pasetone_driver_new(a->arg[0], a->arg[1], (int32_t)(uint32_t)a->arg[2], a->arg[3], (uint32_t)a->arg[4], S(NEXT_DRIVER)))
RUN(run_initialize, pasetone_initialize(S(TUNER), S(OUTCOMES), S(ROOM), S(NEXT)))
RUN(run_gain, pasetone_set_gain(S(TUNER), decibels(a), S(OUTCOMES), S(ROOM), S(NEXT)))
RUN(run_gain_index, pasetone_set_gain_by_index(S(TUNER), a->arg[0], S(OUTCOMES), S(ROOM), S(NEXT)))
RUN(run_bandwidth, pasetone_set_bandwidth(S(TUNER), (uint32_t)a->arg[0], S(OUTCOMES), S(ROOM), S(NEXT)))
RUN(run_if, pasetone_set_if_freq(S(TUNER), a->arg[0], S(OUTCOMES), S(ROOM), S(NEXT)))
RUN(run_path, pasetone_set_input_path(S(TUNER), a->arg[0], S(OUTCOMES), S(ROOM), S(NEXT)))
RUN(run_reload, pasetone_reload(S(TUNER), S(OUTCOMES), S(ROOM), S(NEXT)))
RUN(run_get_gain, pasetone_get_gain(S(TUNER)))
RUN(run_get_if, pasetone_get_if_freq(S(TUNER)))
RUN(run_oscillator, pasetone_oscillator(S(TUNER)))
RUN(run_centre, pasetone_centre(S(DRIVER), S(TUNER), S(INPUT)))
RUN(run_table, pasetone_get_gain_table(S(TUNER), S(OUT)))
RUN(run_ppm, pasetone_set_ppm(S(TUNER), S(DRIVER), (int32_t)(uint32_t)a->arg[0]))
RUN(run_notch, pasetone_apply_notch(S(TUNER), (uint8_t)a->arg[0]))
RUN(run_xtal, pasetone_corrected_xtal_hz(S(DRIVER)))
RUN(run_rate, pasetone_set_sample_rate(S(DRIVER), S(TUNER), S(INPUT), (uint32_t)a->arg[0], S(OUTCOMES), S(ROOM), S(NEXT_DRIVER), S(NEXT)))
RUN(run_board_path, pasetone_apply_input_path(S(TUNER), a->arg[0], S(OUTCOMES), S(REPLIES), S(ROOM), S(NEXT)))
RUN(run_baseband, pasetone_init_baseband(S(OUTCOMES), S(ROOM)))
RUN(run_power, pasetone_power_on(S(OUTCOMES), S(ROOM)))
RUN(run_reset, pasetone_reset_demod(S(OUTCOMES), S(ROOM)))
RUN(run_low, pasetone_set_tuner_low_if(S(OUTCOMES), S(ROOM)))
RUN(run_zero, pasetone_set_tuner_zero_if(S(OUTCOMES), S(ROOM)))
RUN(run_start, pasetone_start_streaming(S(OUTCOMES), S(ROOM)))
RUN(run_stop, pasetone_stop_streaming(S(OUTCOMES), S(ROOM)))
RUN(run_direct, pasetone_write_reg_direct((uint8_t)a->arg[0], (uint16_t)a->arg[1], (uint8_t)a->arg[2], S(OUTCOMES), S(ROOM)))
RUN(run_if_xtal, pasetone_set_if_freq_xtal((uint32_t)a->arg[0], (uint32_t)a->arg[1], S(OUTCOMES), S(ROOM)))
RUN(run_rate_xtal, pasetone_set_sample_rate_xtal((uint32_t)a->arg[0], (uint32_t)a->arg[1], S(OUTCOMES), S(ROOM)))
RUN(run_output, pasetone_set_gpio_output((uint8_t)a->arg[0], S(OUTCOMES), S(REPLIES), S(ROOM)))
RUN(run_bit, pasetone_set_gpio_bit((uint8_t)a->arg[0], (uint8_t)a->arg[1], S(OUTCOMES), S(REPLIES), S(ROOM)))
RUN(run_plan, pasetone_plan_tuning(a->arg[0], a->arg[1], S(OUT)))
RUN(run_pll, pasetone_plan_pll(a->arg[0], a->arg[1], (uint32_t)a->arg[2], S(OUT)))
RUN(run_worksheet, pasetone_plan_pll_by_worksheet(a->arg[0], a->arg[1], (uint32_t)a->arg[2], S(OUT)))
RUN(run_if_regs, pasetone_if_freq_regs((uint32_t)a->arg[0], (uint32_t)a->arg[1], S(OUT)))
RUN(run_resample, pasetone_resample_regs((uint32_t)a->arg[0], (uint32_t)a->arg[1], S(OUT)))
RUN(run_pack, pasetone_pack_fir(S(INPUT), S(OUT)))
RUN(run_unpack, pasetone_unpack_fir(S(INPUT), S(OUT)))
RUN(run_expand, pasetone_expand(S(INPUT), S(OUT)))
RUN(run_hear, pasetone_read_packets(S(INPUT), S(OUT)))
RUN(run_restore, pasetone_restore(S(INPUT), (uint8_t)a->arg[0], S(OUT)))
RUN(run_evidence, pasetone_evidence(S(INPUT), (uint8_t)a->arg[0], (uint32_t)a->arg[1], (uint32_t)a->arg[2], S(OUT)))
RUN(run_board_table, pasetone_board_table(a->arg[0], S(OUT)))
RUN(run_plan_by_table, pasetone_plan_by_table(S(INPUT), a->arg[0], S(OUT)))

/* Arguments. A record has been judged before these are asked. */

#define ARGUMENT(name, expression) \
    static uint32_t name(const struct attempt *a) { return (void)a, (uint32_t)(expression); }
#define REFUSE(condition, number) ((condition) ? (number) : 0)
#define NO_REFERENCE(x) ((x) < 1 || (x) > 4294967295u)

ARGUMENT(any, 0)
ARGUMENT(tuner_args, REFUSE(a->arg[0] > 1 || NO_REFERENCE(a->arg[2]), 1))
ARGUMENT(driver_args, a->arg[0] > 1 || NO_REFERENCE(a->arg[1]) ? 1 : REFUSE(corrected(a->arg[1], (int32_t)(uint32_t)a->arg[2]) == 0, 4))
ARGUMENT(hz_args, REFUSE(a->arg[0] == 0 || a->arg[0] > UINT64_MAX - number_at(a->before[TUNER] + PASETONE_TUNER_IF, 8), 2))
ARGUMENT(path_args, REFUSE(a->arg[0] > 2, 1))
#define OUT_OF_RANGE(slot, field) (corrected(number_at(a->before[slot] + (field), 4), (int32_t)(uint32_t)a->arg[0]) == 0)
ARGUMENT(ppm_args, REFUSE(OUT_OF_RANGE(TUNER, PASETONE_TUNER_NOMINAL) || OUT_OF_RANGE(DRIVER, PASETONE_DRIVER_NOMINAL), 4))
ARGUMENT(xtal_args, REFUSE((uint32_t)a->arg[1] == 0, 4))
ARGUMENT(rate_xtal_args, rate_model((uint32_t)a->arg[0], (uint32_t)a->arg[1]))
ARGUMENT(resample_args, (uint32_t)a->arg[0] == 0 ? 3 : REFUSE((uint32_t)a->arg[1] == 0, 4))
ARGUMENT(pin_args, REFUSE((uint8_t)a->arg[0] > 7, 6))
ARGUMENT(board_args, REFUSE(a->arg[0] > 1, 1))
ARGUMENT(pll_args, a->arg[0] > 1 ? 1 : (uint32_t)a->arg[2] == 0 ? 4 : pll_model(a->arg[0], a->arg[1], (uint32_t)a->arg[2], 0))
ARGUMENT(unpack_args, REFUSE(a->n[INPUT] != PASETONE_FIR_SIZE, 7))

static uint32_t pack_args(const struct attempt *a)
{
    int i;
    if (a->n[INPUT] != PASETONE_FIR_VALUES_SIZE) {
        return 7;
    }
    for (i = 0; i < 16; i++) {
        int64_t v = (int32_t)(uint32_t)number_at(a->before[INPUT] + 4 * i, 4);
        int64_t bound = i < 8 ? 128 : 2048;
        if (v < -bound || v >= bound) {
            return 7;
        }
    }
    return 0;
}

static uint32_t read_args(const struct attempt *a)
{
    uint64_t start, count;
    return read_model(a->before[INPUT], a->n[INPUT], &start, &count);
}

static uint32_t stream_args(const struct attempt *a)
{
    uint64_t held;
    return stream_model(a->before[STREAM], a->n[STREAM], &held);
}

static uint32_t parting_args(const struct attempt *a)
{
    uint64_t value, count;
    return parting_model(a, &value, &count);
}

static uint32_t settings_args(const struct attempt *a)
{
    uint64_t fields[FIELDS];
    return settings_model(a->before[INPUT], a->n[INPUT], edition_of(a->call), fields);
}

static uint32_t either_args(const struct attempt *a)
{
    uint64_t fields[FIELDS];
    return either_model(a->before[INPUT], a->n[INPUT], fields);
}

static uint32_t move_args(const struct attempt *a)
{
    uint64_t fields[FIELDS];
    return move_model(a, fields);
}

static uint32_t fields_args(const struct attempt *a)
{
    return fields_model(a->arg);
}

static uint32_t measured_args(const struct attempt *a)
{
    const uint8_t *bytes;
    size_t length;
    return measured_model(a, &bytes, &length);
}

ARGUMENT(hop_args, hop_model(a))
ARGUMENT(oscillator_args, oscillator_args_model(a))

static uint32_t centre_args(const struct attempt *a)
{
    uint64_t centre;
    return centre_model(a, &centre);
}

/* "19 after 1", then the rate's own */
static uint32_t rate_args(const struct attempt *a)
{
    uint64_t tuned;
    uint8_t plan[3];
    uint32_t number = table_model(a->before[INPUT], a->n[INPUT], 0, &tuned, plan);
    return number == 19 ? 19 : rate_model((uint32_t)a->arg[0], driver_xtal(a->before[DRIVER]));
}

static uint32_t table_args(const struct attempt *a)
{
    uint64_t tuned;
    uint8_t plan[3];
    return table_model(a->before[INPUT], a->n[INPUT], a->arg[0], &tuned, plan);
}

/* Values of done calls. */

#define VALUE(name, expression) \
    static uint64_t name(const struct attempt *a) { return (void)a, (expression); }

VALUE(nothing, 0)
VALUE(version_value, PASETONE_VERSION)
VALUE(asked, a->arg[0])
VALUE(gain_set, number_at(a->at[NEXT] + PASETONE_TUNER_GAIN, 4))
VALUE(gain_held, number_at(a->before[TUNER] + PASETONE_TUNER_GAIN, 4))
VALUE(if_held, number_at(a->before[TUNER] + PASETONE_TUNER_IF, 8))
VALUE(xtal_value, driver_xtal(a->before[DRIVER]))
VALUE(oscillator_value, oscillator_model(a))
VALUE(plan_value, a->arg[1] + (a->arg[0] == 1 && a->arg[1] < 28800000 ? 28800000 : 0))

static uint64_t centre_value(const struct attempt *a)
{
    uint64_t centre;
    centre_model(a, &centre);
    return centre;
}

static uint64_t rest_value(const struct attempt *a)
{
    uint64_t rest = 0;
    pll_model(a->arg[0], a->arg[1], (uint32_t)a->arg[2], &rest);
    return rest;
}

static uint64_t start_value(const struct attempt *a)
{
    uint64_t start, count;
    read_model(a->before[INPUT], a->n[INPUT], &start, &count);
    return start;
}

static uint64_t pending_value(const struct attempt *a)
{
    uint64_t held;
    stream_model(a->before[STREAM], a->n[STREAM], &held);
    return held;
}

static uint64_t part_value(const struct attempt *a)
{
    uint64_t value, count;
    parting_model(a, &value, &count);
    return value;
}

static uint64_t settings_value(const struct attempt *a)
{
    uint64_t fields[FIELDS];
    uint32_t refusal = settings_model(a->before[INPUT], a->n[INPUT], edition_of(a->call), fields);
    return fields_value(fields, refusal);
}

static uint64_t either_value(const struct attempt *a)
{
    uint64_t fields[FIELDS];
    uint32_t refusal = either_model(a->before[INPUT], a->n[INPUT], fields);
    return fields_value(fields, refusal);
}

VALUE(written_value, a->call->out)

static uint64_t measured_value(const struct attempt *a)
{
    const uint8_t *bytes;
    size_t length;
    measured_model(a, &bytes, &length);
    return length;
}

static uint64_t board_table_value(const struct attempt *a)
{
    uint8_t table[PASETONE_TABLE_FOR(PASETONE_TABLE_BANDS)];
    return built_in_model(a->arg[0], table);
}

static uint64_t tuned_value(const struct attempt *a)
{
    uint64_t tuned;
    uint8_t plan[3];
    table_model(a->before[INPUT], a->n[INPUT], a->arg[0], &tuned, plan);
    return tuned;
}

#define FREE (HAS(OUTCOMES) | HAS(ROOM))
#define STEPS (HAS(TUNER) | FREE | HAS(NEXT))

const struct call calls[] = {
    {"version", COMMON, 0, 0, 0, 0, "", run_version, any, version_value},
    {"tuner_new", COMMON, HAS(NEXT), 0, 0, 0, "1 8", run_tuner_new, tuner_args, nothing},
    {"driver_new", COMMON, HAS(NEXT_DRIVER), 0, 0, 0, "1 4 8", run_driver_new, driver_args, nothing},
    {"initialize", COMMON, STEPS, 19, 0, 0, "1 8 9 11", run_initialize, any, nothing},
    {"set_frequency", TUNING, STEPS | HAS(REPLIES), 53, 35, 0, "1 2 8 9 10 11", run_tune, hz_args, asked},
    {"set_gain", COMMON, STEPS, 7, 0, 0, "1 8 9 11", run_gain, any, gain_set},
    {"set_gain_by_index", COMMON, STEPS, 7, 0, 0, "1 8 9 11", run_gain_index, any, gain_set},
    {"set_bandwidth", COMMON, STEPS, 3, 0, 0, "1 8 9 11", run_bandwidth, any, nothing},
    {"set_if_freq", COMMON, STEPS, 4, 0, 0, "1 8 9 11", run_if, any, nothing},
    {"set_input_path", CHIP_PATH, STEPS, 4, 0, 0, "1 8 9 11", run_path, path_args, nothing},
    {"reload", COMMON, STEPS, 9, 0, 0, "1 8 9 11", run_reload, any, nothing},
    {"get_gain", COMMON, HAS(TUNER), 0, 0, 0, "1", run_get_gain, any, gain_held},
    {"get_if_freq", COMMON, HAS(TUNER), 0, 0, 0, "1", run_get_if, any, if_held},
    {"oscillator", STANDING, HAS(TUNER), 0, 0, 0, "1 20", run_oscillator, oscillator_args, oscillator_value},
    {"get_gain_table", COMMON, HAS(TUNER) | HAS(OUT), 0, 0, 116, "1 8", run_table, any, nothing},
    {"apply_notch", NOTCH, HAS(TUNER), 0, 0, 0, "1", run_notch, any, nothing},
    {"corrected_xtal_hz", COMMON, HAS(DRIVER), 0, 0, 0, "1", run_xtal, any, xtal_value},
    {"centre", CENTRING, HAS(DRIVER) | HAS(TUNER) | HAS(INPUT), 0, 0, 0, "1 19 20 2", run_centre, centre_args, centre_value},
    {"set_ppm", PPM, HAS(TUNER) | HAS(DRIVER), 0, 0, 0, "1 4", run_ppm, ppm_args, nothing},
    {"set_sample_rate", RATING, STEPS | HAS(DRIVER) | HAS(INPUT) | HAS(NEXT_DRIVER), 17, 0, 0, "1 19 3 13 8 9 11", run_rate, rate_args, nothing},
    {"tune_board", HOPPING, STEPS | HAS(DRIVER) | HAS(INPUT) | HAS(REPLIES) | HAS(NEXT_DRIVER), 64, 38, 0, "1 19 2 8 9 10 11", run_hop, hop_args, asked},
    {"apply_input_path", COMMON, STEPS | HAS(REPLIES), 10, 3, 0, "1 8 9 10 11", run_board_path, path_args, nothing},
    {"init_baseband", COMMON, FREE, 45, 0, 0, "8 9 11", run_baseband, any, nothing},
    {"power_on", COMMON, FREE, 45, 0, 0, "8 9 11", run_power, any, nothing},
    {"reset_demod", COMMON, FREE, 2, 0, 0, "8 9 11", run_reset, any, nothing},
    {"set_tuner_low_if", COMMON, FREE, 2, 0, 0, "8 9 11", run_low, any, nothing},
    {"set_tuner_zero_if", COMMON, FREE, 2, 0, 0, "8 9 11", run_zero, any, nothing},
    {"start_streaming", COMMON, FREE, 2, 0, 0, "8 9 11", run_start, any, nothing},
    {"stop_streaming", COMMON, FREE, 2, 0, 0, "8 9 11", run_stop, any, nothing},
    {"write_reg_direct", COMMON, FREE, 1, 0, 0, "8 9 11", run_direct, any, nothing},
    {"set_if_freq_xtal", COMMON, FREE, 3, 0, 0, "4 8 9 11", run_if_xtal, xtal_args, nothing},
    {"set_sample_rate_xtal", COMMON, FREE, 4, 0, 0, "3 4 13 8 9 11", run_rate_xtal, rate_xtal_args, nothing},
    {"set_gpio_output", COMMON, FREE | HAS(REPLIES), 4, 2, 0, "6 8 9 10 11", run_output, pin_args, nothing},
    {"set_gpio_bit", COMMON, FREE | HAS(REPLIES), 2, 1, 0, "6 8 9 10 11", run_bit, pin_args, nothing},
    {"plan_tuning", COMMON, HAS(OUT), 0, 0, 3, "1 8", run_plan, board_args, plan_value},
    {"board_table", BUILT_IN, HAS(OUT), 0, 0, 0, "1 8", run_board_table, board_args, board_table_value},
    {"plan_by_table", BANDS, HAS(INPUT) | HAS(OUT), 0, 0, 3, "19 2 8", run_plan_by_table, table_args, tuned_value},
    {"plan_pll", COMMON, HAS(OUT), 0, 0, 5, "1 4 2 8", run_pll, pll_args, rest_value},
    {"plan_pll_by_worksheet", COMMON, HAS(OUT), 0, 0, 5, "1 4 2 8", run_worksheet, pll_args, rest_value},
    {"if_freq_regs", COMMON, HAS(OUT), 0, 0, 3, "4 8", run_if_regs, xtal_args, nothing},
    {"resample_regs", COMMON, HAS(OUT), 0, 0, 4, "3 4 8", run_resample, resample_args, nothing},
    {"pack_fir", COMMON, HAS(INPUT) | HAS(OUT), 0, 0, 20, "7 8", run_pack, pack_args, nothing},
    {"unpack_fir", COMMON, HAS(INPUT) | HAS(OUT), 0, 0, 64, "7 8", run_unpack, unpack_args, nothing},
    {"read_section", READER, HAS(INPUT), 0, 0, 0, "12", run_read, read_args, start_value},
    {"parting", PARTING, HAS(INPUT) | HAS(SECOND), 0, 0, 0, "12", run_parting, parting_args, part_value},
    {"read_settings_1", SETTINGS_READ, HAS(INPUT), 0, 0, 0, "16 17", run_read_settings_1, settings_args, settings_value},
    {"write_settings_1", SETTINGS_WRITE, HAS(OUT), 0, 0, 23, "17 8", run_write_settings_1, fields_args, written_value},
    {"read_settings_2", SETTINGS_READ, HAS(INPUT), 0, 0, 0, "16 17", run_read_settings_2, either_args, either_value},
    {"write_settings_2", SETTINGS_WRITE, HAS(OUT), 0, 0, 27, "17 8", run_write_settings_2, fields_args, written_value},
    {"move_settings_1_to_2", SETTINGS_MOVE, HAS(INPUT) | HAS(OUT), 0, 0, 27, "16 17 8", run_move_1_to_2, move_args, written_value},
    {"move_settings_2_to_1", SETTINGS_MOVE, HAS(INPUT) | HAS(OUT), 0, 0, 23, "16 17 18 8", run_move_2_to_1, move_args, written_value},
    {"expand", EXPANDING, HAS(INPUT) | HAS(OUT), 0, 0, 0, "12 15 8", run_expand, measured_args, measured_value},
    {"read_packets", HEARING, HAS(INPUT) | HAS(OUT), 0, 0, 0, "15 8", run_hear, measured_args, measured_value},
    {"restore", RESTORING, HAS(INPUT) | HAS(OUT), 0, 0, 0, "12 8", run_restore, measured_args, measured_value},
    {"evidence", EVIDENCING, HAS(INPUT) | HAS(OUT), 0, 0, 0, "4 12 8", run_evidence, measured_args, nothing},
    {"feed", FEEDING, HAS(STREAM) | HAS(DRIVER) | HAS(TUNER) | HAS(INPUT) | HAS(CHUNK) | FREE | HAS(REPLIES), 0, 0, 0, "1 14 19 2 3 4 13 8 9 10 11", run_feed, any, nothing},
    {"stream_pending", COMMON, HAS(STREAM), 0, 0, 0, "1", run_pending, stream_args, pending_value},
};
const unsigned call_count = sizeof calls / sizeof *calls;
