/*
 * malloc.c: memory for liblapd.a where there is a malloc. tools/install makes liblapd_malloc.a of it, which lapd.pc
 * names, so that a program links with no further file. A program with the three functions of its own gets none of these:
 * the linker finds its own first.
 */
#include <stdlib.h>

#include "lapd_memory.h"

static rattle_tried answer(void *at) {
    static char nothing;
    rattle_tried tried = {at != NULL, at != NULL ? at : &nothing};
    return tried;
}

rattle_tried rattle_alloc(size_t octets, size_t alignment) {
    return answer(malloc(octets > 0 ? octets : alignment));
}

rattle_tried rattle_realloc(void *at, size_t old_octets, size_t octets, size_t alignment) {
    (void)old_octets;
    return answer(realloc(at, octets > 0 ? octets : alignment));
}

void rattle_dealloc(void *at) {
    free(at);
}
