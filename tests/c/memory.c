/*
 * memory.c: the three functions of memory that liblapd.a asks for, over malloc; for tests alone. They count the blocks
 * taken and given back, and refuse the allocation that REFUSED_ALLOCATION numbers, from 1 on. At the end the two counts
 * are written to the file that ALLOCATIONS names.
 */
#include <stdint.h>
#include <stdio.h>
#include <stdlib.h>

#include "lapd_memory.h"

static long asked, taken, given;

static void tell(void) {
    const char *name = getenv("ALLOCATIONS");
    FILE *file = name != NULL ? fopen(name, "w") : NULL;
    if (file == NULL)
        return;
    fprintf(file, "%ld %ld\n", taken, given);
    fclose(file);
}

static int is_refused(void) {
    const char *number = getenv("REFUSED_ALLOCATION");
    if (asked++ == 0)
        atexit(tell);
    return number != NULL && atol(number) == asked;
}

static rattle_tried answer(void *at) {
    static char nothing;
    rattle_tried tried = {at != NULL, at != NULL ? at : &nothing};
    taken += at != NULL;
    return tried;
}

rattle_tried rattle_alloc(size_t octets, size_t alignment) {
    return answer(is_refused() ? NULL : malloc(octets > 0 ? octets : alignment));
}

rattle_tried rattle_realloc(void *at, size_t old_octets, size_t octets, size_t alignment) {
    (void)old_octets;
    rattle_tried tried = answer(is_refused() ? NULL : realloc(at, octets > 0 ? octets : alignment));
    given += tried.there; /* the old block */
    return tried;
}

void rattle_dealloc(void *at) {
    given++;
    free(at);
}
