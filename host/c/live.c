/*
 * A receiver over libusb-1.0: brought up, set to 2,048,000 samples a second and tuned. A step is the packets of its one-entry section (pasetone_expand), and it is done
 * exactly where every byte went. After a step that failed: reload, and the same call again, three times at most.
 *
 *   live NODE HZ    /dev/bus/usb/BUS/NUMBER, as `lsusb` tells it, and a frequency
 *
 * It prints a line a call, and every register that is not doubtful. Exit status 0 done and locked, 3 a call was not done, 4 not locked, 5 the receiver is gone, 2 bad words or
 * no receiver. Never run on hardware: host/receiver/run runs it on a simulated receiver.
 *
 *   gcc $(pkg-config --cflags pasetone libusb-1.0) host/c/live.c $(pkg-config --libs pasetone libusb-1.0)
 */
#define _POSIX_C_SOURCE 200809L
#include <fcntl.h>
#include <libusb.h>
#include <stdio.h>
#include <stdlib.h>
#include <time.h>
#include <unistd.h>

#include "pasetone_host.h"

#define TIMEOUT 1000 /* ms of a control transfer */
#define PAUSE 40     /* ms after one without an answer: it may land as late as that */
#define TRIES 3

/* Beside libusb's own faults, which are below 0. */
#define SHORT 1
#define NO_PACKETS 2

/* An open receiver, and why the first step of the call at hand that failed did; 0: none has. */
struct live {
    libusb_device_handle *handle;
    int fault;
};

static const char *fault_word(int fault)
{
    return fault < 0 ? libusb_error_name(fault) : fault == SHORT ? "fewer bytes than asked for" : "no packets";
}

static void wait_ms(long ms)
{
    struct timespec time = {ms / 1000, ms % 1000 * 1000000};
    nanosleep(&time, NULL);
}

/* One control transfer by its packet; `bytes` is where a read goes. 0 where every byte went, or its fault. */
static int whole(struct live *live, const uint8_t *packet, uint8_t *bytes)
{
    uint8_t data[8] = {0};
    uint16_t value = (uint16_t)(packet[2] | packet[3] << 8), index = (uint16_t)(packet[4] | packet[5] << 8), length = (uint16_t)(packet[6] | packet[7] << 8);
    int reads = packet[0] & 0x80, count;
    if (length > sizeof data) {
        return NO_PACKETS;
    }
    if (!reads) {
        memcpy(data, packet + 8, length);
    }
    count = libusb_control_transfer(live->handle, packet[0], packet[1], value, index, data, length, TIMEOUT);
    if (count == LIBUSB_ERROR_TIMEOUT) {
        wait_ms(PAUSE);
    }
    if (count != length) {
        return count < 0 ? count : SHORT;
    }
    if (reads) {
        memcpy(bytes, data, length);
    }
    return 0;
}

/* An entry as the section of itself alone. */
static void section_of(const uint8_t *entry, uint8_t *section)
{
    memset(section, 0, PASETONE_ROOM_FOR(1));
    memcpy(section, entry, PASETONE_ENTRY_SIZE);
    section[PASETONE_ENTRY_SIZE] = 1;
    section[PASETONE_ENTRY_SIZE + 4] = PASETONE_ENTRY_SIZE;
}

/* Takes a step: 0 done, 1 failed. The read behind a demodulator write that was done is not looked at. */
static uint8_t take(void *receiver, const uint8_t *entry, uint8_t *bytes)
{
    struct live *live = receiver;
    uint8_t section[PASETONE_ROOM_FOR(1)], packets[PASETONE_PACKETS_FOR(1)], nothing[8];
    pasetone_reply reply;
    size_t first;
    int fault;
    if (entry[0] == 9) {
        wait_ms(entry[4] | entry[5] << 8);
        return 0;
    }
    section_of(entry, section);
    reply = pasetone_expand(PASETONE_LEND(section), PASETONE_LEND(packets));
    fault = reply.refusal != PASETONE_DONE ? NO_PACKETS : whole(live, packets, bytes);
    if (fault != 0) {
        live->fault = live->fault ? live->fault : fault;
        return 1;
    }
    first = 8 + (packets[0] & 0x80 ? 0 : (size_t)packets[6]);
    if (reply.value > first) {
        whole(live, packets + first, nothing);
    }
    return 0;
}

/* The calls without a record. */

#define OUTCOMES PASETONE_LEND(h->outcomes)
#define REPLIES PASETONE_LEND(h->replies)
#define ROOM PASETONE_LEND(h->room)
#define CALL(name, expression) \
    static pasetone_tune_reply name(pasetone_host *h, uint64_t number) { return (void)number, pasetone_host_widened(expression); }

CALL(power_on, pasetone_power_on(OUTCOMES, ROOM))
CALL(gpio_output, pasetone_set_gpio_output((uint8_t)number, OUTCOMES, REPLIES, ROOM))
CALL(gpio_high, pasetone_set_gpio_bit((uint8_t)number, 1, OUTCOMES, REPLIES, ROOM))
CALL(low_if, pasetone_set_tuner_low_if(OUTCOMES, ROOM))
CALL(spectrum, pasetone_write_reg_direct(1, 0x15, 1, OUTCOMES, ROOM))
CALL(reset, pasetone_reset_demod(OUTCOMES, ROOM))
CALL(start, pasetone_start_streaming(OUTCOMES, ROOM))

struct call {
    const char *name;
    pasetone_host_call *make;
    uint64_t argument;
    long wait; /* ms behind it */
};

/* In the order of host/README.md; the last one's argument is the frequency. */
static const struct call calls[] = {
    {"power_on", power_on, 0, 100},
    {"set_gpio_output 4", gpio_output, 4, 0},
    {"set_gpio_output 5", gpio_output, 5, 0},
    {"set_gpio_bit 4", gpio_high, 4, 0},
    {"set_gpio_bit 5", gpio_high, 5, 250},
    {"initialize", pasetone_host_initialize, 0, 0},
    {"set_tuner_low_if", low_if, 0, 0},
    {"write_reg_direct", spectrum, 0, 0},
    {"set_if_freq", pasetone_host_set_if_freq, 2300000, 0},
    {"reset_demod", reset, 0, 0},
    {"set_sample_rate", pasetone_host_set_sample_rate, 2048000, 0},
    {"write_reg_direct", spectrum, 0, 0},
    {"start_streaming", start, 0, 0},
    {"tune_board", pasetone_host_tune_board, 0, 0},
};
#define CALLS (sizeof calls / sizeof calls[0])

/* A call until it is done: after a step that failed a reload, whose own failure the next try meets too. */
static pasetone_tune_reply insist(pasetone_host *host, struct live *live, const struct call *call, uint64_t argument)
{
    pasetone_tune_reply reply;
    int i;
    for (i = 0; i < TRIES; i++) {
        if (i > 0) {
            pasetone_host_drive(host, pasetone_host_reload, 0, take, live);
        }
        live->fault = 0;
        reply = pasetone_host_drive(host, call->make, argument, take, live);
        if (live->fault) {
            printf("%s: %s\n", call->name, fault_word(live->fault));
        }
        if (reply.refusal != PASETONE_STEP || live->fault == LIBUSB_ERROR_NO_DEVICE) {
            break;
        }
    }
    printf("%s: %s\n", call->name, pasetone_refusal_word(reply.refusal));
    return reply;
}

static void print_registers(const pasetone_host *host)
{
    unsigned at;
    for (at = PASETONE_FIRST_REGISTER; at < PASETONE_FIRST_REGISTER + PASETONE_REGISTER_COUNT; at++) {
        if (!pasetone_host_doubtful(host, at)) {
            printf("register 0x%02x %02x\n", at, host->tuner[PASETONE_TUNER_SHADOW + at - PASETONE_FIRST_REGISTER]);
        }
    }
}

static int run(struct live *live, uint64_t hz)
{
    static pasetone_host host;
    pasetone_tune_reply reply = {0};
    size_t i;
    if (pasetone_host_open(&host, PASETONE_R828D, 0x74, PASETONE_V4, 28800000).refusal != PASETONE_DONE) {
        return 2;
    }
    for (i = 0; i < CALLS; i++) {
        reply = insist(&host, live, &calls[i], i + 1 == CALLS ? hz : calls[i].argument);
        if (reply.refusal != PASETONE_DONE) {
            break;
        }
        wait_ms(calls[i].wait);
    }
    print_registers(&host);
    if (reply.refusal != PASETONE_DONE) {
        return live->fault == LIBUSB_ERROR_NO_DEVICE ? 5 : 3;
    }
    printf("%s after %u tries\n", reply.locked ? "locked" : "not locked", (unsigned)reply.tries);
    return reply.locked ? 0 : 4;
}

/* The node, opened here and handed to libusb: no device is looked for. A driver of the kernel is left alone. */
static int opened(struct live *live, int node)
{
    int fault = libusb_set_option(NULL, LIBUSB_OPTION_NO_DEVICE_DISCOVERY);
    if (fault == 0) {
        fault = libusb_init(NULL);
    }
    if (fault == 0) {
        fault = libusb_wrap_sys_device(NULL, node, &live->handle);
    }
    if (fault == 0 && libusb_kernel_driver_active(live->handle, 0) == 1) {
        fault = LIBUSB_ERROR_BUSY;
    }
    return fault ? fault : libusb_claim_interface(live->handle, 0);
}

int main(int argc, char **argv)
{
    struct live live = {0};
    int node, fault, status;
    uint64_t hz = argc == 3 ? strtoull(argv[2], NULL, 10) : 0;
    if (hz == 0) {
        fputs("use: live NODE HZ\n", stderr);
        return 2;
    }
    node = open(argv[1], O_RDWR | O_CLOEXEC);
    if (node < 0) {
        perror(argv[1]);
        return 2;
    }
    fault = opened(&live, node);
    if (fault != 0) {
        fprintf(stderr, "%s: %s\n", argv[1], libusb_error_name(fault));
        return 2;
    }
    status = run(&live, hz);
    libusb_close(live.handle);
    libusb_exit(NULL);
    close(node);
    return status;
}
