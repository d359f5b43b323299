/*
 * A library to be preloaded: it gives simulated receivers to a program that uses Linux's usbfs.
 *
 *   LD_PRELOAD=.../libreceiver.so RECEIVER_FOLDER=FOLDER [RECEIVER_TIME=quick] PROGRAM ..
 *
 * What lies below /dev/bus/usb and /sys/bus/usb is looked for below FOLDER, as `simulate make` has made it: real files, so that locks, inodes and times are the
 * system's own. A node is a receiver's file, which is mapped; usbfs's calls on it are answered here, and every other call is passed on. With RECEIVER_TIME=quick
 * sleeps are not slept: they move the clocks of the receivers that the program has open, a transfer without an answer by its timeout, any other by 1 ms.
 *
 * Not answered: bulk transfers, nodes that are reached by dup or passed to another program, and discovery by libudev.
 */
#define _GNU_SOURCE
#include <dirent.h>
#include <dlfcn.h>
#include <errno.h>
#include <fcntl.h>
#include <linux/usbdevice_fs.h>
#include <pthread.h>
#include <stdarg.h>
#include <stdio.h>
#include <stdlib.h>
#include <string.h>
#include <sys/ioctl.h>
#include <sys/mman.h>
#include <sys/stat.h>
#include <time.h>
#include <unistd.h>

#include "receiver.h"

#define NODES 1024
#define URBS 16

/* A node that is open: its receiver, and the requests that were handed in and not yet taken back. */
struct node {
    struct receiver *receiver;
    int claimed; /* interface 0 */
    struct usbdevfs_urb *urbs[URBS];
    int ended[URBS];
};

static struct node nodes[NODES];
static pthread_mutex_t lock = PTHREAD_MUTEX_INITIALIZER;

/* A function of the next library, which this one stands before. */
#define NEXT(name) __typeof__(&name) next_##name = (__typeof__(&name))dlsym(RTLD_NEXT, #name)

static int quick(void)
{
    const char *word = getenv("RECEIVER_TIME");
    return word && strcmp(word, "quick") == 0;
}

/* ---- paths ---- */

static int below(const char *path, const char *base)
{
    size_t n = strlen(base);
    return strncmp(path, base, n) == 0 && (path[n] == '/' || path[n] == 0);
}

/* The path to be opened in place of this one, in `room` where it is another. */
static const char *moved(const char *path, char *room, size_t size)
{
    const char *folder = getenv("RECEIVER_FOLDER");
    int n;
    if (!folder || !path || !(below(path, "/dev/bus/usb") || below(path, "/sys/bus/usb"))) {
        return path;
    }
    n = snprintf(room, size, "%s%s", folder, path);
    return n > 0 && (size_t)n < size ? room : path;
}

/* ---- nodes ---- */

static struct node *node_of(int fd)
{
    return fd >= 0 && fd < NODES && nodes[fd].receiver ? &nodes[fd] : NULL;
}

/* A node that was just opened. One that is unplugged cannot be. */
static int enter(int fd, const char *path)
{
    struct stat about;
    struct receiver *r;
    if (fd < 0 || fd >= NODES || !below(path, "/dev/bus/usb") || fstat(fd, &about) != 0 || about.st_size != (off_t)sizeof *r) {
        return fd;
    }
    r = mmap(NULL, sizeof *r, PROT_READ | PROT_WRITE, MAP_SHARED, fd, 0);
    if (r == MAP_FAILED || r->magic != RECEIVER_MAGIC || r->gone) {
        int missing = r != MAP_FAILED && r->gone ? ENODEV : EIO;
        if (r != MAP_FAILED) {
            munmap(r, sizeof *r);
        }
        close(fd);
        errno = missing;
        return -1;
    }
    pthread_mutex_lock(&lock);
    memset(&nodes[fd], 0, sizeof nodes[fd]);
    nodes[fd].receiver = r;
    pthread_mutex_unlock(&lock);
    return fd;
}

static void leave(int fd)
{
    struct node *node;
    pthread_mutex_lock(&lock);
    node = node_of(fd);
    if (node) {
        munmap(node->receiver, sizeof *node->receiver);
        node->receiver = NULL;
    }
    pthread_mutex_unlock(&lock);
}

/* ---- time ---- */

static uint64_t now(const struct receiver *r)
{
    struct timespec time;
    if (quick()) {
        return __atomic_load_n(&r->clock, __ATOMIC_RELAXED) + 1;
    }
    clock_gettime(CLOCK_MONOTONIC, &time);
    return (uint64_t)time.tv_sec * 1000000000u + (uint64_t)time.tv_nsec;
}

static void sleep_all(uint64_t ns)
{
    int fd;
    pthread_mutex_lock(&lock);
    for (fd = 0; fd < NODES; fd++) {
        if (nodes[fd].receiver) {
            __atomic_fetch_add(&nodes[fd].receiver->clock, ns, __ATOMIC_RELAXED);
        }
    }
    pthread_mutex_unlock(&lock);
}

/* A transfer without an answer: the host has waited for it. */
static void waited(struct receiver *r, uint64_t ns)
{
    struct timespec time = {(time_t)(ns / 1000000000u), (long)(ns % 1000000000u)};
    if (quick()) {
        __atomic_fetch_add(&r->clock, ns, __ATOMIC_RELAXED);
    } else {
        nanosleep(&time, NULL);
    }
}

/* ---- usbfs's calls; each answers a number, or an errno below 0 ---- */

/* A transfer; of those that every USB device has, the number of its configuration alone, which is no transfer of the receiver's own. */
static int transfer(struct receiver *r, const uint8_t setup[8], uint8_t *data, uint64_t timeout)
{
    if (setup[0] == 0x80 && setup[1] == 8 && receiver_length(setup) == 1) {
        data[0] = 1;
        return 1;
    }
    return receiver_control(r, setup, data, now(r), timeout);
}

static int control(struct receiver *r, struct usbdevfs_ctrltransfer *t)
{
    uint8_t setup[8] = {t->bRequestType, t->bRequest, (uint8_t)t->wValue, (uint8_t)(t->wValue >> 8), (uint8_t)t->wIndex, (uint8_t)(t->wIndex >> 8),
                        (uint8_t)t->wLength, (uint8_t)(t->wLength >> 8)};
    uint64_t timeout = t->timeout * (uint64_t)1000000;
    int count = transfer(r, setup, t->data, timeout);
    if (count == -ETIMEDOUT) {
        waited(r, timeout);
    } else if (quick()) {
        waited(r, 1000000);
    }
    return count;
}

/* Who holds the interface: a driver of the kernel, or a program, which the kernel calls usbfs. */
static int driver(const struct node *node, int fd, struct usbdevfs_getdriver *asked)
{
    struct flock held = {.l_type = F_WRLCK, .l_whence = SEEK_SET, .l_start = 0, .l_len = 1};
    memset(asked->driver, 0, sizeof asked->driver);
    if (node->receiver->driver[0]) {
        memcpy(asked->driver, node->receiver->driver, sizeof node->receiver->driver - 1);
        return 0;
    }
    if (node->claimed || (fcntl(fd, F_OFD_GETLK, &held) == 0 && held.l_type != F_UNLCK)) {
        strcpy(asked->driver, "usbfs");
        return 0;
    }
    return -ENODATA;
}

/* One open node has the interface: a lock of its file's description, which the system takes back when the host is gone. */
static int claim(struct node *node, int fd, short type)
{
    struct flock held = {.l_type = type, .l_whence = SEEK_SET, .l_start = 0, .l_len = 1};
    if (node->receiver->driver[0] || fcntl(fd, F_OFD_SETLK, &held) != 0) {
        return -EBUSY;
    }
    node->claimed = type == F_WRLCK;
    return 0;
}

static int disconnect(struct receiver *r)
{
    int bound = r->driver[0] != 0;
    memset(r->driver, 0, sizeof r->driver);
    return bound ? 0 : -ENODATA;
}

static int submit(struct node *node, struct usbdevfs_urb *urb)
{
    uint8_t *buffer = urb->buffer;
    int i, count;
    if (urb->type != USBDEVFS_URB_TYPE_CONTROL || urb->buffer_length < 8 || receiver_length(buffer) > (unsigned)urb->buffer_length - 8) {
        return -EINVAL;
    }
    for (i = 0; i < URBS && node->urbs[i]; i++) {
    }
    if (i == URBS) {
        return -ENOMEM;
    }
    count = transfer(node->receiver, buffer, buffer + 8, 1000000000);
    node->urbs[i] = urb;
    node->ended[i] = count != -ETIMEDOUT;
    urb->status = count < 0 ? count : 0;
    urb->actual_length = count < 0 ? 0 : count;
    return 0;
}

static int discard(struct node *node, const void *urb)
{
    int i;
    for (i = 0; i < URBS; i++) {
        if (node->urbs[i] == urb && !node->ended[i]) {
            node->urbs[i]->status = -ENOENT;
            node->ended[i] = 1;
            return 0;
        }
    }
    return -EINVAL;
}

static int reap(struct node *node, void **urb)
{
    int i;
    for (i = 0; i < URBS; i++) {
        if (node->urbs[i] && node->ended[i]) {
            *urb = node->urbs[i];
            node->urbs[i] = NULL;
            return 0;
        }
    }
    return node->receiver->gone ? -ENODEV : -EAGAIN;
}

static int connected(const struct receiver *r, struct usbdevfs_connectinfo *about)
{
    about->devnum = r->number;
    about->slow = 0;
    return 0;
}

/* The calls that a driver's interface is lent by. */
static int interface_call(struct node *node, int fd, unsigned long request, void *argument)
{
    switch (request) {
        case USBDEVFS_GETDRIVER: return driver(node, fd, argument);
        case USBDEVFS_CLAIMINTERFACE: return *(unsigned *)argument == 0 ? claim(node, fd, F_WRLCK) : -ENOENT;
        case USBDEVFS_RELEASEINTERFACE: return claim(node, fd, F_UNLCK);
        case USBDEVFS_IOCTL: return ((struct usbdevfs_ioctl *)argument)->ioctl_code == USBDEVFS_DISCONNECT ? disconnect(node->receiver) : -ENOTTY;
        default: return -ENOTTY;
    }
}

static int usbfs(struct node *node, int fd, unsigned long request, void *argument)
{
    struct receiver *r = node->receiver;
    receiver_land(r, now(r));
    if (r->gone && request != USBDEVFS_REAPURBNDELAY && request != USBDEVFS_DISCARDURB) {
        return -ENODEV;
    }
    switch (request) {
        case USBDEVFS_CONTROL: return control(r, argument);
        case USBDEVFS_SUBMITURB: return submit(node, argument);
        case USBDEVFS_DISCARDURB: return discard(node, argument);
        case USBDEVFS_REAPURB:
        case USBDEVFS_REAPURBNDELAY: return reap(node, argument);
        case USBDEVFS_GET_CAPABILITIES: *(uint32_t *)argument = 0; return 0;
        case USBDEVFS_CONNECTINFO: return connected(r, argument);
        case USBDEVFS_GET_SPEED: return 3;
        default: return interface_call(node, fd, request, argument);
    }
}

/* ---- what a program calls ---- */

int ioctl(int fd, unsigned long request, ...)
{
    NEXT(ioctl);
    struct node *node = node_of(fd);
    void *argument;
    va_list list;
    int answer;
    va_start(list, request);
    argument = va_arg(list, void *);
    va_end(list);
    if (!node) {
        return next_ioctl(fd, request, argument);
    }
    answer = usbfs(node, fd, request, argument);
    if (answer < 0) {
        errno = -answer;
        return -1;
    }
    return answer;
}

/* The mode is there where a file may be made. */
#define MODE(flags, mode)                               \
    do {                                                \
        if ((flags) & (O_CREAT | __O_TMPFILE)) {        \
            va_list list;                               \
            va_start(list, flags);                      \
            (mode) = va_arg(list, mode_t);              \
            va_end(list);                               \
        }                                               \
    } while (0)

#define OPEN(name)                                                                                 \
    int name(const char *path, int flags, ...)                                                     \
    {                                                                                              \
        NEXT(name);                                               \
        char room[4096];                                                                           \
        mode_t mode = 0;                                                                           \
        MODE(flags, mode);                                                                         \
        return enter(next_##name(moved(path, room, sizeof room), flags, mode), path);              \
    }
OPEN(open)
OPEN(open64)

#define OPENAT(name)                                                                               \
    int name(int folder, const char *path, int flags, ...)                                         \
    {                                                                                              \
        NEXT(name);                                          \
        char room[4096];                                                                           \
        mode_t mode = 0;                                                                           \
        MODE(flags, mode);                                                                         \
        return enter(next_##name(folder, moved(path, room, sizeof room), flags, mode), path);      \
    }
OPENAT(openat)
OPENAT(openat64)

int close(int fd)
{
    NEXT(close);
    leave(fd);
    return next_close(fd);
}

DIR *opendir(const char *path)
{
    NEXT(opendir);
    char room[4096];
    return next_opendir(moved(path, room, sizeof room));
}

#define ON_PATH(result, name, parameters, arguments)                                               \
    result name parameters                                                                         \
    {                                                                                              \
        NEXT(name);                                                                          \
        char room[4096];                                                                           \
        path = moved(path, room, sizeof room);                                                     \
        return next_##name arguments;                                                              \
    }
ON_PATH(int, stat, (const char *path, struct stat *about), (path, about))
ON_PATH(int, lstat, (const char *path, struct stat *about), (path, about))
ON_PATH(int, stat64, (const char *path, struct stat64 *about), (path, about))
ON_PATH(int, lstat64, (const char *path, struct stat64 *about), (path, about))
ON_PATH(int, access, (const char *path, int mode), (path, mode))
ON_PATH(ssize_t, readlink, (const char *path, char *out, size_t size), (path, out, size))
ON_PATH(int, statx, (int folder, const char *path, int flags, unsigned mask, struct statx *about),
        (folder, path, flags, mask, about))

int nanosleep(const struct timespec *time, struct timespec *rest)
{
    NEXT(nanosleep);
    if (!quick()) {
        return next_nanosleep(time, rest);
    }
    sleep_all((uint64_t)time->tv_sec * 1000000000u + (uint64_t)time->tv_nsec);
    return 0;
}

/* A sleep until a moment, and one that is no sleep's, are passed on. */
int clock_nanosleep(clockid_t clock, int flags, const struct timespec *time, struct timespec *rest)
{
    NEXT(clock_nanosleep);
    if (!quick() || flags != 0) {
        return next_clock_nanosleep(clock, flags, time, rest);
    }
    sleep_all((uint64_t)time->tv_sec * 1000000000u + (uint64_t)time->tv_nsec);
    return 0;
}
