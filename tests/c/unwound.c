/*
 * unwound.c: the memory that a start takes is asked for by this program, which looks at who called: through all functions of the
 * library that stand between, main is found. For tests alone, which link it with lapd.S.
 *
 * Status 1 where that is not so, or nobody stands between.
 */
#include <stdio.h>
#include <stdlib.h>
#include <unwind.h>

#include "lapd.h"
#include "lapd_memory.h"

int main(void);

static unsigned deepest;

/* How many frames are below main's; none, if it is not found. */
static _Unwind_Reason_Code look(struct _Unwind_Context *context, void *at) {
    unsigned *depth = at;
    ++*depth;
    if (_Unwind_GetRegionStart(context) != (_Unwind_Word)(uintptr_t)main)
        return _URC_NO_REASON;
    if (*depth > deepest)
        deepest = *depth;
    return _URC_END_OF_STACK;
}

rattle_tried rattle_alloc(size_t octets, size_t alignment) {
    unsigned depth = 0;
    rattle_tried tried = {true, malloc(octets > 0 ? octets : alignment)};
    tried.there = tried.at != NULL;
    (void)_Unwind_Backtrace(look, &depth);
    return tried;
}

rattle_tried rattle_realloc(void *at, size_t old_octets, size_t octets, size_t alignment) {
    (void)old_octets;
    rattle_tried tried = {true, realloc(at, octets > 0 ? octets : alignment)};
    tried.there = tried.at != NULL;
    return tried;
}

void rattle_dealloc(void *at) {
    free(at);
}

int main(void) {
    static const lapd_config config = {.lines = 1, .terminals = 8, .k = 1, .k16 = 3, .queue = 8, .unit_queue = 4, .control = 4, .slots = 64,
                                       .n201 = 260, .n200 = 3};
    enum { OWN = 3 }; /* main, rattle_alloc, and a function between them at least */
    lapd_card card = LAPD_CARD_NONE;
    if (lapd_card_start(&card, &config) != LAPD_OK || lapd_card_free(&card) != LAPD_OK || deepest < OWN) {
        fprintf(stderr, "main is %u frames above\n", deepest);
        return 1;
    }
    return 0;
}
