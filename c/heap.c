/*
 * heap.c: memory for liblapd.a where there is no malloc. The three functions that the library asks for, over one region
 * of the program's own, as blocks.h beside it has them. Compile it with the size of the region, which lapd_card_octets (with
 * _frames and _timed in its name, if the card is so) and lapd_clock_octets tell:
 *
 *     cc -DLAPD_HEAP_OCTETS=65536 $(pkg-config --cflags lapd) -c heap.c
 *
 * Cards and clocks take memory as they start and give it back as they end. One call at a time: starts and frees, also of
 * different cards, must not run side by side.
 */
#include <stdint.h>

#include "lapd_memory.h"

#include "blocks.h"

#ifndef LAPD_HEAP_OCTETS
#error "LAPD_HEAP_OCTETS: the octets of the region, as lapd_card_octets and lapd_clock_octets tell"
#endif

enum { UNITS = (LAPD_HEAP_OCTETS) / UNIT };
/* A block has a header and a unit. */
typedef char the_region_has_room_for_a_block[UNITS >= 2 ? 1 : -1];

/* One unit more than the region has, so that it can begin at a multiple of 16. */
static unit room[UNITS + 1];
static unit *region;

rattle_tried rattle_alloc(size_t octets, size_t alignment) {
    if (alignment > UNIT || octets > (size_t)(UNITS - 1) * UNIT)
        return answer(NULL);
    if (region == NULL) {
        region = (unit *)(((uintptr_t)room + UNIT - 1) / UNIT * UNIT);
        lay(region, region + UNITS);
    }
    return answer(fit(region, region + UNITS, units_of(octets)));
}
