/*
 * Where the slices lie. Each placement catches what another cannot:
 *   HEAP      a block of exactly n bytes: valgrind sees every access past it, in the archive too, and AddressSanitizer those of this program
 *   AT_END    ends where a page without access begins: any access past the end stops the program, whoever makes it
 *   AT_START  begins where a page without access ends: the same before the beginning
 * Bytes on the open side of a slice in a page are canaries: they are looked at after the call, so a write there is found too.
 */
#define _GNU_SOURCE
#include <stdio.h>
#include <stdlib.h>
#include <string.h>
#include <sys/mman.h>
#include <unistd.h>

#include "made.h"

#define CANARY 0xc7
#define CANARIES 48

static uint8_t *field[SLOTS]; /* pages with access, one page without on either side */
static size_t field_size;
static enum memory placed[SLOTS];

void memory_open(struct attempt *a)
{
    size_t page = (size_t)sysconf(_SC_PAGESIZE);
    int slot;
    field_size = (LONGEST + CANARIES + page - 1) / page * page;
    for (slot = 0; slot < SLOTS; slot++) {
        uint8_t *all = mmap(NULL, field_size + 2 * page, PROT_NONE, MAP_PRIVATE | MAP_ANONYMOUS, -1, 0);
        if (all == MAP_FAILED || mprotect(all + page, field_size, PROT_READ | PROT_WRITE) != 0) {
            perror("hostile: memory");
            exit(2);
        }
        field[slot] = all + page;
        a->before[slot] = calloc(1, LONGEST);
        if (a->before[slot] == NULL) {
            exit(2);
        }
    }
}

static void place_one(struct attempt *a, int slot, enum memory how)
{
    size_t n = a->n[slot];
    placed[slot] = how;
    if (how == HEAP) {
        a->at[slot] = malloc(n);
        if (a->at[slot] == NULL) {
            exit(2);
        }
    } else if (how == AT_END) {
        a->at[slot] = field[slot] + field_size - n;
        memset(a->at[slot] - CANARIES, CANARY, CANARIES);
    } else {
        a->at[slot] = field[slot];
        memset(a->at[slot] + n, CANARY, CANARIES);
    }
    if (n > 0) {
        memcpy(a->at[slot], a->before[slot], n);
    }
}

/* Lays out every slice of the call with its bytes as they were. */
void place(struct attempt *a, enum memory how)
{
    int slot;
    for (slot = 0; slot < SLOTS; slot++) {
        if (a->call->slots & HAS(slot)) {
            place_one(a, slot, how == MIXED ? (enum memory)(HEAP + below(3)) : how);
        }
    }
}

const char *canaries(const struct attempt *a)
{
    int slot, i;
    for (slot = 0; slot < SLOTS; slot++) {
        if (!(a->call->slots & HAS(slot)) || placed[slot] == HEAP) {
            continue;
        }
        for (i = 0; i < CANARIES; i++) {
            const uint8_t *canary = placed[slot] == AT_END ? a->at[slot] - 1 - i : a->at[slot] + a->n[slot] + i;
            if (*canary != CANARY) {
                return "a byte beside a slice has changed";
            }
        }
    }
    return NULL;
}

void release(struct attempt *a)
{
    int slot;
    for (slot = 0; slot < SLOTS; slot++) {
        if ((a->call->slots & HAS(slot)) && placed[slot] == HEAP) {
            free(a->at[slot]);
        }
    }
}
