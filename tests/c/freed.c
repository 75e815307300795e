/*
 * freed.c: a card that was freed is used through a copy, which lapd.h forbids, and its memory was written over meanwhile. With
 * lapd.c, compiled with -DLAPD_CHECKED, the program says why it ends. It is compiled with -DLAPD_OWN_MEMORY. For tests alone.
 */
#include <string.h>

#include "lapd.h"
#include "lapd_memory.h"

enum { MOST = 1 << 20 };

static char region[MOST];

rattle_tried rattle_alloc(size_t octets, size_t alignment) {
    rattle_tried tried = {octets <= MOST, region};
    (void)alignment;
    return tried;
}

rattle_tried rattle_realloc(void *at, size_t old_octets, size_t octets, size_t alignment) {
    rattle_tried tried = {false, at};
    (void)old_octets, (void)octets, (void)alignment;
    return tried;
}

void rattle_dealloc(void *at) {
    memset(at, 0xFF, (size_t)(region + MOST - (char *)at));
}

int main(void) {
    static const lapd_config config = LAPD_BASIC_ACCESS;
    static lapd_report report;
    lapd_card card = LAPD_CARD_NONE;
    if (lapd_card_start_frames(&card, &config) != LAPD_OK)
        return 1;
    lapd_card copy = card;
    if (lapd_assign(&copy, 0, 64, &report) != LAPD_OK || lapd_card_free(&card) != LAPD_OK)
        return 1;
    return lapd_establish(&copy, 0, LAPD_CALL, 64, &report) == LAPD_OK ? 0 : 1;
}
