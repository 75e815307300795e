/*
 * blocks.c: the heap of c/blocks.h, as c/heap.c has it, while blocks are taken and given back at random: each block keeps what
 * was written to it, a block is refused only where no gap between the others holds it, and in the end all of the region is one
 * block again.
 */
#include <stdint.h>
#include <stdio.h>
#include <string.h>

#include "lapd_memory.h"

enum { BLOCKS = 200, ROUNDS = 40000, HEADER = 16, UNIT_OCTETS = 16 };

static struct {
    unsigned char *at;
    size_t octets;
    unsigned char fill;
} blocks[BLOCKS];
static unsigned char *lowest;
static uint64_t seed = 921;

static uint32_t below(uint32_t most) {
    seed = seed * 6364136223846793005u + 1442695040888963407u;
    return (uint32_t)(seed >> 33) % most;
}

static size_t with_header(size_t octets) {
    return HEADER + (octets > 0 ? (octets + UNIT_OCTETS - 1) / UNIT_OCTETS * UNIT_OCTETS : UNIT_OCTETS);
}

/* The largest gap between blocks that are taken, from the beginning of the region to its end. */
static size_t largest_gap(size_t region) {
    static unsigned char taken[LAPD_HEAP_OCTETS];
    size_t largest = 0, gap = 0;
    memset(taken, 0, sizeof taken);
    for (int i = 0; i < BLOCKS; i++)
        if (blocks[i].at != NULL)
            memset(taken + (blocks[i].at - HEADER - lowest), 1, with_header(blocks[i].octets));
    for (size_t i = 0; i < region; i++) {
        gap = taken[i] ? 0 : gap + 1;
        largest = gap > largest ? gap : largest;
    }
    return largest;
}

static int fail(const char *what) {
    fprintf(stderr, "blocks.c: %s\n", what);
    return 1;
}

static int give(int i) {
    for (size_t j = 0; j < blocks[i].octets; j++)
        if (blocks[i].at[j] != blocks[i].fill)
            return fail("a block holds other octets than were written");
    rattle_dealloc(blocks[i].at);
    blocks[i].at = NULL;
    return 0;
}

static int take(int i, size_t region) {
    size_t octets = below(4) ? below(300) : below(LAPD_HEAP_OCTETS / 4);
    rattle_tried tried = rattle_alloc(octets, 8);
    if (!tried.there)
        return largest_gap(region) >= with_header(octets) ? fail("a block is refused that fits") : 0;
    blocks[i].at = tried.at;
    blocks[i].octets = octets;
    blocks[i].fill = (unsigned char)below(256);
    memset(blocks[i].at, blocks[i].fill, octets);
    return 0;
}

/* The whole region as one block: how many octets. */
static size_t whole(void) {
    for (size_t octets = LAPD_HEAP_OCTETS; octets > 0; octets -= UNIT_OCTETS) {
        rattle_tried tried = rattle_alloc(octets, 8);
        if (tried.there) {
            lowest = (unsigned char *)tried.at - HEADER;
            rattle_dealloc(tried.at);
            return octets;
        }
    }
    return 0;
}

int main(void) {
    size_t octets = whole();
    if (octets < LAPD_HEAP_OCTETS - 4 * UNIT_OCTETS)
        return fail("the region is not one block");
    for (int round = 0; round < ROUNDS; round++) {
        int i = (int)below(BLOCKS);
        if (blocks[i].at != NULL ? give(i) : take(i, octets + HEADER))
            return 1;
    }
    for (int i = 0; i < BLOCKS; i++)
        if (blocks[i].at != NULL && give(i))
            return 1;
    return whole() != octets ? fail("the region is not one block again") : 0;
}
