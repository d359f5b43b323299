/*
 * Makes simulated receivers, and tells of them:
 *
 *   simulate make FOLDER COUNT [ADDRESS]   the nodes and the files of sysfs of so many receivers below FOLDER: R828D at 0x74, or R820T where ADDRESS is 0x34
 *   simulate layout                        where each field of a receiver's file is: name, offset, size
 *   simulate numbers                       the calls of this machine's usbfs: name, number, size
 *   simulate fail NODE NUMBER WAY          this receiver's transfer of this number, from now on, goes this way (receiver.h: 1 to 11)
 *   simulate show NODE                     where it stands by its registers, and the tuner's registers
 *   simulate storm SEED COUNT              so many transfers drawn at random on one receiver in memory: nothing may break
 */
#include <errno.h>
#include <fcntl.h>
#include <linux/usbdevice_fs.h>
#include <stdio.h>
#include <stdlib.h>
#include <string.h>
#include <sys/ioctl.h>
#include <sys/stat.h>
#include <unistd.h>

#include "receiver.h"

/* The device and its one configuration, of one interface with one endpoint. */
static const uint8_t descriptors[] = {
    18, 1, 0x00, 0x02, 0, 0, 0, 64, 0xda, 0x0b, 0x38, 0x28, 0x00, 0x01, 1, 2, 3, 1,
    9, 2, 25, 0, 1, 1, 0, 0x80, 250,
    9, 4, 0, 0, 1, 0xff, 0xff, 0xff, 0,
    7, 5, 0x81, 2, 0x00, 0x02, 0,
};

static int put(const char *path, const void *bytes, size_t n)
{
    int file = open(path, O_WRONLY | O_CREAT | O_TRUNC | O_CLOEXEC, 0666);
    int good = file >= 0 && write(file, bytes, n) == (ssize_t)n;
    if (file >= 0 && close(file) != 0) {
        good = 0;
    }
    if (!good) {
        fprintf(stderr, "simulate: %s: %s\n", path, strerror(errno));
    }
    return good;
}

/* A folder below another, with those between them. */
static int folder(const char *base, const char *below)
{
    char path[4096];
    size_t i, n;
    int length = snprintf(path, sizeof path, "%s/%s", base, below);
    if (length < 0 || (size_t)length >= sizeof path) {
        return 0;
    }
    n = (size_t)length;
    for (i = 1; i <= n; i++) {
        if (path[i] == '/' || path[i] == 0) {
            char kept = path[i];
            path[i] = 0;
            if (mkdir(path, 0777) != 0 && errno != EEXIST) {
                return 0;
            }
            path[i] = kept;
        }
    }
    return 1;
}

static int attribute(const char *base, unsigned number, const char *name, const char *text)
{
    char path[4096], line[64];
    int length = snprintf(path, sizeof path, "%s/sys/bus/usb/devices/1-%u/%s", base, number, name);
    int n = snprintf(line, sizeof line, "%s\n", text);
    return length > 0 && (size_t)length < sizeof path && n > 0 && (size_t)n < sizeof line && put(path, line, (size_t)n);
}

static int attributes(const char *base, unsigned number)
{
    char text[32], below[64];
    snprintf(below, sizeof below, "sys/bus/usb/devices/1-%u", number);
    if (!folder(base, below)) {
        return 0;
    }
    snprintf(text, sizeof text, "%u", number + 1);
    if (!attribute(base, number, "devnum", text)) {
        return 0;
    }
    snprintf(text, sizeof text, "%08u", number);
    return attribute(base, number, "serial", text) && attribute(base, number, "busnum", "1") && attribute(base, number, "idVendor", "0bda") &&
           attribute(base, number, "idProduct", "2838") && attribute(base, number, "manufacturer", "RTLSDRBlog") && attribute(base, number, "product", "Blog V4") &&
           attribute(base, number, "speed", "480") && attribute(base, number, "bConfigurationValue", "1");
}

/* A receiver that was just plugged in. */
static void fresh(struct receiver *r, unsigned number, unsigned address)
{
    memset(r, 0, sizeof *r);
    memcpy(r->descriptors, descriptors, sizeof descriptors);
    r->magic = RECEIVER_MAGIC;
    r->bus = 1;
    r->number = number + 1;
    r->address = address;
    r->reference = 28800000;
    r->settle = 1;
    r->afterwards = 25;
    r->fails_at = UINT64_MAX;
    r->seed = 0x5eed0000u + number;
    receiver_power(r);
}

/* What else sysfs has beside receivers: a hub, and an interface, which has no numbers of its own. */
static int others(const char *base)
{
    char path[4096];
    int n = snprintf(path, sizeof path, "%s/sys/bus/usb/devices/usb1/idVendor", base);
    return folder(base, "sys/bus/usb/devices/usb1") && folder(base, "sys/bus/usb/devices/1-1:1.0") && n > 0 && (size_t)n < sizeof path && put(path, "1d6b\n", 5);
}

static int make(const char *base, unsigned count, unsigned address)
{
    static struct receiver r;
    char path[4096];
    unsigned number;
    if (!folder(base, "dev/bus/usb/001") || !others(base)) {
        fprintf(stderr, "simulate: %s: %s\n", base, strerror(errno));
        return 1;
    }
    for (number = 1; number <= count; number++) {
        int length = snprintf(path, sizeof path, "%s/dev/bus/usb/001/%03u", base, number + 1);
        fresh(&r, number, address);
        if (length < 0 || (size_t)length >= sizeof path || !put(path, &r, sizeof r) || !attributes(base, number)) {
            return 1;
        }
    }
    return 0;
}

/* A receiver's file, for one change of it. */
static int on_file(const char *path, void (*what)(struct receiver *, const unsigned long *), const unsigned long *numbers)
{
    static struct receiver r;
    int file = open(path, O_RDWR | O_CLOEXEC);
    int good = file >= 0 && pread(file, &r, sizeof r, 0) == (ssize_t)sizeof r && r.magic == RECEIVER_MAGIC;
    if (good) {
        what(&r, numbers);
        good = pwrite(file, &r, sizeof r, 0) == (ssize_t)sizeof r;
    }
    if (file >= 0) {
        close(file);
    }
    if (!good) {
        fprintf(stderr, "simulate: %s is no receiver\n", path);
    }
    return good ? 0 : 1;
}

static void fail_at(struct receiver *r, const unsigned long *numbers)
{
    r->fails_at = r->sent + numbers[0];
    r->fails_by = (uint32_t)numbers[1];
}

/* What is still to land has landed. */
static void show(struct receiver *r, const unsigned long *nothing)
{
    unsigned at;
    (void)nothing;
    receiver_land(r, UINT64_MAX);
    printf("centre %lld Hz, oscillator %lld Hz, IF %lld Hz, rate %u Hz%s, %llu transfers\n", (long long)(r->centre >> 23), (long long)(r->oscillator >> 23),
           (long long)(r->shift >> 23), r->rate, r->locked ? ", locked" : "", (unsigned long long)r->sent);
    for (at = 0x05; at < 0x20; at++) {
        printf("register 0x%02x %02x\n", at, r->chip.tuner[at]);
    }
}

#define FIELD(name) printf(#name " %zu %zu\n", offsetof(struct receiver, name), sizeof((struct receiver *)0)->name)

static int layout(void)
{
    FIELD(reference);
    FIELD(settle);
    FIELD(repair);
    FIELD(resets);
    FIELD(gone);
    FIELD(afterwards);
    FIELD(driver);
    FIELD(clock);
    FIELD(sent);
    FIELD(fails_at);
    FIELD(fails_by);
    FIELD(odds);
    FIELD(ways);
    FIELD(failed);
    FIELD(seed);
    FIELD(oscillator);
    FIELD(shift);
    FIELD(centre);
    FIELD(rate);
    FIELD(locked);
    FIELD(pins);
    FIELD(on);
    FIELD(chip);
    FIELD(chip.demod);
    FIELD(chip.sys);
    FIELD(chip.tuner);
    FIELD(late);
    FIELD(log);
    printf("transfer 0 %zu\nwhole 0 %zu\n", sizeof(struct transfer), sizeof(struct receiver));
    return 0;
}

static int numbers(void)
{
    printf("USBDEVFS_CONTROL %u %zu\n", (unsigned)USBDEVFS_CONTROL, sizeof(struct usbdevfs_ctrltransfer));
    printf("USBDEVFS_GETDRIVER %u %zu\n", (unsigned)USBDEVFS_GETDRIVER, sizeof(struct usbdevfs_getdriver));
    printf("USBDEVFS_CLAIMINTERFACE %u %zu\n", (unsigned)USBDEVFS_CLAIMINTERFACE, sizeof(unsigned));
    printf("USBDEVFS_IOCTL %u %zu\n", (unsigned)USBDEVFS_IOCTL, sizeof(struct usbdevfs_ioctl));
    printf("USBDEVFS_DISCONNECT %u 0\n", (unsigned)USBDEVFS_DISCONNECT);
    return 0;
}

/* A transfer at random: one that the driver sends, with fields changed now and then. */
static void draw(struct receiver *r, uint8_t setup[8], uint8_t *data, size_t size)
{
    static const uint16_t usual[][2] = {{0x0011, 0x0120}, {0x0011, 0x1520}, {0x000a, 0x0120}, {0x0110, 0x2148}, {0x0210, 0x3000}, {0x0200, 0x3001}, {0x0610, 0x0074}, {0x0600, 0x0074}};
    static const uint8_t first[] = {0x18, 0x01, 0x00, 0x10, 0xe8, 0x00, 0x05, 0x00};
    uint64_t x = receiver_random(r);
    size_t i, row = x & 7;
    uint16_t index = usual[row][0], value = usual[row][1], n = (uint16_t)(1 + (row >= 6 ? x >> 6 & 7 : x >> 6 & 1));
    for (i = 0; i < size; i++) {
        data[i] = (uint8_t)(receiver_random(r) >> 32);
    }
    data[0] = x >> 54 & 7 ? first[row] : data[0];
    if ((x >> 10 & 15) == 0) {
        index = (uint16_t)(x >> 16);
        value = (uint16_t)(x >> 32);
        n = (uint16_t)(x >> 48 & 0x7f);
    }
    setup[0] = x >> 60 == 0 ? (uint8_t)(x >> 20) : index & 0x10 ? 0x40 : 0xc0;
    setup[1] = x >> 56 == 0;
    setup[2] = (uint8_t)value;
    setup[3] = (uint8_t)(value >> 8);
    setup[4] = (uint8_t)index;
    setup[5] = (uint8_t)(index >> 8);
    setup[6] = (uint8_t)n;
    setup[7] = (uint8_t)(n >> 8);
}

/* No way that ends the program. A count is the length asked for or less; the rest is the sanitizers' to find. */
static int storm(uint64_t seed, unsigned long count)
{
    static struct receiver r;
    unsigned long i, done = 0;
    fresh(&r, 1, 0x74);
    r.seed = seed;
    r.odds = 6000;
    r.ways = (1u << WAY_KILLED_BEFORE) - 1;
    for (i = 0; i < count; i++) {
        uint8_t setup[8], data[128] = {0};
        int answer;
        draw(&r, setup, data, sizeof data);
        answer = receiver_control(&r, setup, data, i * 1000000, 1000000000);
        if (answer > (int)receiver_length(setup)) {
            printf("simulate: FAULT: transfer %lu gave more bytes than asked for\n", i);
            return 1;
        }
        done += answer >= 0;
        r.gone = 0;
    }
    printf("simulate: %lu transfers drawn, %lu done\n", count, done);
    return 0;
}

static int use(void)
{
    fputs("use: simulate make FOLDER COUNT [ADDRESS] | fail NODE NUMBER WAY | show NODE | layout | numbers | storm SEED COUNT\n", stderr);
    return 2;
}

int main(int argc, char **argv)
{
    if ((argc == 4 || argc == 5) && strcmp(argv[1], "make") == 0) {
        unsigned long count = strtoul(argv[3], NULL, 10), address = argc == 5 ? strtoul(argv[4], NULL, 0) : 0x74;
        return count >= 1 && count <= 120 && (address == 0x74 || address == 0x34) ? make(argv[2], (unsigned)count, (unsigned)address) : use();
    }
    if (argc == 5 && strcmp(argv[1], "fail") == 0) {
        unsigned long given[2] = {strtoul(argv[3], NULL, 10), strtoul(argv[4], NULL, 10)};
        return given[1] < WAYS ? on_file(argv[2], fail_at, given) : use();
    }
    if (argc == 3 && strcmp(argv[1], "show") == 0) {
        return on_file(argv[2], show, NULL);
    }
    if (argc == 2 && strcmp(argv[1], "layout") == 0) {
        return layout();
    }
    if (argc == 2 && strcmp(argv[1], "numbers") == 0) {
        return numbers();
    }
    if (argc == 4 && strcmp(argv[1], "storm") == 0) {
        return storm(strtoull(argv[2], NULL, 10), strtoul(argv[3], NULL, 10));
    }
    return use();
}
