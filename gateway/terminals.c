/* terminals.c: terminals' TEIs. See terminals.h. */
#define _GNU_SOURCE

#include "terminals.h"

#include <sys/random.h>

#include "lines.h"
#include "loop.h"

enum { AGAIN_MS = 10000 }; /* after three requests that the network did not answer */

void terminal_hears(line *own, const lapd_note *note) {
    if (line_side(own) != LAPD_TERMINAL)
        return;
    switch (note->note) {
    case LAPD_ASSIGNED: own->is_asking = false; break;
    case LAPD_REMOVED: own->ask_at = 0; break;
    case LAPD_UNASSIGNED:
        own->is_asking = false;
        own->ask_at = loop_now() + AGAIN_MS;
        break;
    case LAPD_REMOVE_ALL: own->is_to_remove = true; break;
    default: break;
    }
}

static void remove_all(line *own) {
    uint8_t place = 0;
    for (lapd_link link; lapd_next_link(&own->card->own, own->at, &place, &link) == LAPD_OK;)
        if (link.service == LAPD_CALL)
            (void)card_ask(own->card, own->at, LAPD_REMOVE, LAPD_CALL, link.tei, NULL, 0);
    own->is_to_remove = false;
    own->links.owes_teis = true;
}

void terminal_settle(line *own) {
    uint8_t place = 0;
    lapd_link link;
    if (line_side(own) != LAPD_TERMINAL)
        return;
    if (own->is_to_remove)
        remove_all(own);
    if (!own->is_up || own->is_asking || lapd_next_link(&own->card->own, own->at, &place, &link) == LAPD_OK)
        return;
    if (loop_now() < own->ask_at) {
        line_wake(own, own->ask_at);
        return;
    }
    own->is_asking = card_ask(own->card, own->at, LAPD_ASK_TEI, LAPD_CALL, LAPD_GROUP_TEI, NULL, 0) == LAPD_OK;
    if (!own->is_asking) { /* it verifies a TEI now */
        own->ask_at = loop_now() + 1000;
        line_wake(own, own->ask_at);
    }
}

uint16_t terminal_seed(void) {
    uint16_t seed = 0;
    return getrandom(&seed, sizeof seed, 0) == sizeof seed ? seed : (uint16_t)loop_now();
}
