/*
 * lapd_malloc.c: what lapd.S asks for: three functions of memory, and what lapd.h defines as symbols. Written by
 * tools/assembly of Vithrynel; not to be edited.
 *
 * Cards and clocks lie in memory of malloc. A program that has none chooses one of the next two.
 *
 * -DLAPD_HEAP_OCTETS=N         they lie in one static region of so many octets; starts and frees then run one at a time
 * -DLAPD_OWN_MEMORY            they lie in memory of the program's own functions: lapd_memory.h declares the three
 * -DLAPD_MALLOC                malloc also where the compiler says that there is no C library (-ffreestanding)
 * -DLAPD_SYMBOLS               what lapd.h defines inline is exported, too, for languages that read no header of C
 */
#if defined(LAPD_HEAP_OCTETS) + defined(LAPD_OWN_MEMORY) + defined(LAPD_MALLOC) > 1
#error "where do cards lie? Choose one of -DLAPD_HEAP_OCTETS=N, -DLAPD_OWN_MEMORY and -DLAPD_MALLOC"
#endif
#if !defined(LAPD_MALLOC) && !defined(LAPD_OWN_MEMORY) && !defined(LAPD_HEAP_OCTETS)
#if defined(__STDC_HOSTED__) && !__STDC_HOSTED__
#error "where do cards lie? -DLAPD_HEAP_OCTETS=N: in a region of so many octets; or -DLAPD_OWN_MEMORY, or -DLAPD_MALLOC"
#endif
#define LAPD_MALLOC
#endif

#ifdef LAPD_SYMBOLS
#define LAPD_INLINE
#endif
#undef LAPD_CHECKED
#include "lapd.h"

#ifndef LAPD_OWN_MEMORY

#ifdef LAPD_MALLOC
#include <stdlib.h>
#endif

/* Of a shared library nobody else calls these. */
#if defined(__GNUC__) && defined(__ELF__)
#pragma GCC visibility push(hidden)
#endif
#include "lapd_memory.h"

#ifdef LAPD_MALLOC

static rattle_tried answer(void *at) {
    static char nothing;
    rattle_tried tried = {at != NULL, at != NULL ? at : &nothing};
    return tried;
}

rattle_tried rattle_alloc(size_t octets, size_t alignment) {
    return answer(malloc(octets > 0 ? octets : alignment));
}

rattle_tried rattle_realloc(void *at, size_t old_octets, size_t octets, size_t alignment) {
    (void)old_octets;
    return answer(realloc(at, octets > 0 ? octets : alignment));
}

void rattle_dealloc(void *at) {
    free(at);
}

#else

#ifndef LAPD_BLOCKS_H
#define LAPD_BLOCKS_H

enum { UNIT = 16 };

/* A header, and the unit of the heap. `units` counts the block's own units. */
typedef union {
    struct {
        uint32_t units;
        uint32_t used;
    } block;
    uint64_t words[UNIT / sizeof(uint64_t)];
} unit;

static uint32_t units_of(size_t octets) {
    return octets > 0 ? (uint32_t)((octets + UNIT - 1) / UNIT) : 1;
}

/* One free block from here to the end. */
static void lay(unit *header, const unit *end) {
    header->block.units = (uint32_t)(end - header - 1);
    header->block.used = 0;
}

/* Joins the free blocks that follow a free block. */
static void join(unit *header, const unit *end) {
    for (unit *next = header + 1 + header->block.units; next < end && !next->block.used;
         next = header + 1 + header->block.units)
        header->block.units += 1 + next->block.units;
}

/* Takes the first units of a free block, and leaves the rest as a free one. */
static void take(unit *header, uint32_t units) {
    uint32_t rest = header->block.units - units;
    if (rest > 0) {
        header->block.units = units;
        header[1 + units].block.units = rest - 1;
        header[1 + units].block.used = 0;
    }
    header->block.used = 1;
}

/* Takes the first free block with so many units, from a block on; NULL where there is none. */
static unit *first_fit(unit *header, const unit *end, uint32_t units) {
    for (; header < end; header += 1 + header->block.units) {
        if (header->block.used)
            continue;
        join(header, end);
        if (header->block.units >= units) {
            take(header, units);
            return header;
        }
    }
    return NULL;
}

/* The block that was taken last, if none was given back since: it is in use, so no search joins it to another. And so many
 * units no block before it has. */
static unit *latest;
static uint32_t refused = UINT32_MAX;

/* Takes a free block of the heap with so many units; NULL where there is none. */
static unit *fit(unit *first, const unit *end, uint32_t units) {
    unit *found = first_fit(latest != NULL ? latest : first, end, units);
    if (found == NULL && latest != NULL && units < refused) {
        found = first_fit(first, latest, units);
        if (found == NULL)
            refused = units;
    }
    if (found != NULL)
        latest = found;
    return found;
}

static rattle_tried answer(unit *header) {
    static unit nothing;
    rattle_tried tried = {header != NULL, header != NULL ? header + 1 : &nothing};
    return tried;
}

void rattle_dealloc(void *at) {
    ((unit *)at)[-1].block.used = 0;
    latest = NULL;
    refused = UINT32_MAX;
}

rattle_tried rattle_realloc(void *at, size_t old_octets, size_t octets, size_t alignment) {
    unit *header = (unit *)at - 1;
    if (octets <= (size_t)header->block.units * UNIT && alignment <= UNIT)
        return answer(header);
    rattle_tried tried = rattle_alloc(octets, alignment);
    if (tried.there) {
        const unsigned char *from = at;
        unsigned char *to = tried.at;
        for (size_t i = 0; i < old_octets && i < octets; i++)
            to[i] = from[i];
        rattle_dealloc(at);
    }
    return tried;
}

#endif

#ifndef LAPD_HEAP_OCTETS
#error "LAPD_HEAP_OCTETS: the octets of the region, as lapd_card_octets and lapd_clock_octets tell"
#endif

enum { UNITS = (LAPD_HEAP_OCTETS) / UNIT };
/* A block has a header and a unit. */
typedef char the_region_has_room_for_a_block[UNITS >= 2 ? 1 : -1];

/* One unit more than the region has, so that it can begin at a multiple of 16. */
static unit room[UNITS + 1];
static unit *region;

rattle_tried rattle_alloc(size_t octets, size_t alignment) {
    if (alignment > UNIT || octets > (size_t)(UNITS - 1) * UNIT)
        return answer(NULL);
    if (region == NULL) {
        region = (unit *)(((uintptr_t)room + UNIT - 1) / UNIT * UNIT);
        lay(region, region + UNITS);
    }
    return answer(fit(region, region + UNITS, units_of(octets)));
}

#endif

#if defined(__GNUC__) && defined(__ELF__)
#pragma GCC visibility pop
#endif

#endif
