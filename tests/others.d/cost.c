/*
 * cost.c: what a frame costs in another's stack (cost.h).
 *
 *     NAME COUNT      the first link hears an RR with P=1 so often, and answers; prints how many answers there were
 *     NAME            compiled with -DCOUNTED: prints the octets of the heap that four basic lines hold while all their links are up,
 *                     and how many blocks a poll and its answer take, an I-frame of 64 octets and its RR, and one that goes, until
 *                     it is acknowledged
 */
#include "cost.h"

#include <stdbool.h>
#include <stdio.h>
#include <stdlib.h>
#include <string.h>

static uint8_t last[4];
static unsigned long went;

void goes(const uint8_t *frame, size_t length) {
    memcpy(last, frame, length < sizeof last ? length : sizeof last);
    went++;
}

static void want(bool is, const char *what) {
    if (is)
        return;
    fprintf(stderr, "cost: %s\n", what);
    exit(1);
}

/* The same frame for each link, with its TEI. */
static void hears(unsigned link, uint8_t first, uint8_t third, uint8_t fourth, size_t length) {
    uint8_t frame[4 + INFORMATION] = {first, (uint8_t)(2 * (FIRST + link % TEIS) + 1), third, fourth};
    stack_hears(link, frame, length);
}

static void starts(void) {
    stack_starts();
    for (unsigned link = 0; link < LINKS; link++) {
        hears(link, 0x00, 0x7F, 0, 3);
        want(last[2] == 0x73, "a link does not come up");
    }
}

static void polls(unsigned long count) {
    static const uint8_t poll[] = {0x00, 2 * FIRST + 1, 0x01, 0x01};
    unsigned long answers = 0;
    for (unsigned long i = 0; i < count; i++) {
        unsigned long before = went;
        stack_hears(0, poll, sizeof poll);
        answers += went == before + 1 && last[2] == 0x01 && last[3] == 0x01;
    }
    want(answers == count, "a poll is not answered");
    printf("%lu\n", answers);
}

#ifdef COUNTED
/* The heap of the C library, counted: each block that is taken, and what is held. */
#include <malloc.h>

void *__libc_malloc(size_t size);
void *__libc_calloc(size_t count, size_t size);
void __libc_free(void *at);

static unsigned long taken;
static long held;

static void *took(void *at) {
    taken++;
    held += (long)malloc_usable_size(at);
    return at;
}
void *malloc(size_t size) { return took(__libc_malloc(size)); }
void *calloc(size_t count, size_t size) { return took(__libc_calloc(count, size)); }
void free(void *at) {
    if (at != NULL)
        held -= (long)malloc_usable_size(at);
    __libc_free(at);
}

/* Without what the program itself takes to write. */
static void counts(void) {
    static const uint8_t data[INFORMATION];
    unsigned long of_poll, of_received, of_sent;
    starts();
    long of_lines = held;
    taken = 0;
    hears(0, 0x00, 0x01, 0x01, 4);
    of_poll = taken;
    taken = 0;
    hears(0, 0x00, 0x00, 0x00, 4 + INFORMATION);
    of_received = taken;
    want(last[2] == 0x01 && last[3] == 2, "an I-frame is not acknowledged");
    taken = 0;
    stack_sends(0, data, sizeof data);
    want(last[2] == 0 && last[3] == 2, "an I-frame does not go");
    hears(0, 0x02, 0x01, 2, 4);
    of_sent = taken;
    printf("%ld %lu %lu %lu\n", of_lines, of_poll, of_received, of_sent);
}
#else
static void counts(void) { want(false, "it was not compiled with -DCOUNTED"); }
#endif

int main(int argc, char **argv) {
    if (argc == 1) {
        counts();
        return 0;
    }
    starts();
    polls(strtoul(argv[1], NULL, 10));
    return 0;
}
