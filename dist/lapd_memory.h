/*
 * lapd_memory.h: the functions of memory that the library asks for, for who writes them (C99 and C++).
 *
 *  - lapd.c with -DLAPD_OWN_MEMORY asks for two, rattle_alloc and rattle_dealloc. Without that it needs no more than
 *    lapd.h.
 *  - lapd.S and liblapd.a ask for all three. A program with lapd_malloc.c, or that links liblapd_malloc.a, as pkg-config has
 *    it, or heap.c, needs no more than lapd.h.
 *
 * The library calls them in lapd_card_start, lapd_clock_start and the two frees alone.
 */
#ifndef LAPD_MEMORY_H
#define LAPD_MEMORY_H

#include <stdbool.h>
#include <stddef.h>

#ifdef __cplusplus
extern "C" {
#endif

/* A block, or that there is none. `at` is not null in either case. */
typedef struct {
    bool there;
    void *at;
} rattle_tried;

/* A block of so many octets, which begins at a multiple of the alignment: a power of two, and 16 at most. */
rattle_tried rattle_alloc(size_t octets, size_t alignment);

/* For lapd.S and liblapd.a alone: the block with another size; what it held stays, as far as it fits. If there is none, the old
 * block stays. */
rattle_tried rattle_realloc(void *at, size_t old_octets, size_t octets, size_t alignment);

/* Takes a block back. */
void rattle_dealloc(void *at);

#ifdef __cplusplus
}
#endif

#endif
