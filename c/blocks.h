/*
 * blocks.h: a heap between two addresses, for heap.c and module.c. Blocks lie one after the other. In front of each stands a
 * header of 16 octets, which says how large the block is and whether it is free. A search takes the first block that fits,
 * and joins free neighbours on its way. It goes on from the block that was taken last, so that a start, which takes thousands
 * and gives none back, passes each block once; what it left on its way it looks for when nothing else fits. After a block was
 * given back it begins at the first block again. Who includes it has the types of stdint.h and lapd_memory.h, and rattle_alloc.
 */
#ifndef LAPD_BLOCKS_H
#define LAPD_BLOCKS_H

enum { UNIT = 16 };

/* A header, and the unit of the heap. `units` counts the block's own units. */
typedef union {
    struct {
        uint32_t units;
        uint32_t used;
    } block;
    uint64_t words[UNIT / sizeof(uint64_t)];
} unit;

static uint32_t units_of(size_t octets) {
    return octets > 0 ? (uint32_t)((octets + UNIT - 1) / UNIT) : 1;
}

/* One free block from here to the end. */
static void lay(unit *header, const unit *end) {
    header->block.units = (uint32_t)(end - header - 1);
    header->block.used = 0;
}

/* Joins the free blocks that follow a free block. */
static void join(unit *header, const unit *end) {
    for (unit *next = header + 1 + header->block.units; next < end && !next->block.used;
         next = header + 1 + header->block.units)
        header->block.units += 1 + next->block.units;
}

/* Takes the first units of a free block, and leaves the rest as a free one. */
static void take(unit *header, uint32_t units) {
    uint32_t rest = header->block.units - units;
    if (rest > 0) {
        header->block.units = units;
        header[1 + units].block.units = rest - 1;
        header[1 + units].block.used = 0;
    }
    header->block.used = 1;
}

/* Takes the first free block with so many units, from a block on; NULL where there is none. */
static unit *first_fit(unit *header, const unit *end, uint32_t units) {
    for (; header < end; header += 1 + header->block.units) {
        if (header->block.used)
            continue;
        join(header, end);
        if (header->block.units >= units) {
            take(header, units);
            return header;
        }
    }
    return NULL;
}

/* The block that was taken last, if none was given back since: it is in use, so no search joins it to another. And so many
 * units no block before it has. */
static unit *latest;
static uint32_t refused = UINT32_MAX;

/* Takes a free block of the heap with so many units; NULL where there is none. */
static unit *fit(unit *first, const unit *end, uint32_t units) {
    unit *found = first_fit(latest != NULL ? latest : first, end, units);
    if (found == NULL && latest != NULL && units < refused) {
        found = first_fit(first, latest, units);
        if (found == NULL)
            refused = units;
    }
    if (found != NULL)
        latest = found;
    return found;
}

static rattle_tried answer(unit *header) {
    static unit nothing;
    rattle_tried tried = {header != NULL, header != NULL ? header + 1 : &nothing};
    return tried;
}

void rattle_dealloc(void *at) {
    ((unit *)at)[-1].block.used = 0;
    latest = NULL;
    refused = UINT32_MAX;
}

rattle_tried rattle_realloc(void *at, size_t old_octets, size_t octets, size_t alignment) {
    unit *header = (unit *)at - 1;
    if (octets <= (size_t)header->block.units * UNIT && alignment <= UNIT)
        return answer(header);
    rattle_tried tried = rattle_alloc(octets, alignment);
    if (tried.there) {
        const unsigned char *from = at;
        unsigned char *to = tried.at;
        for (size_t i = 0; i < old_octets && i < octets; i++)
            to[i] = from[i];
        rattle_dealloc(at);
    }
    return tried;
}

#endif
