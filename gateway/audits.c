/* audits.c: TEIs that no terminal has any more. See audits.h. */
#include "audits.h"

#include "lines.h"
#include "log.h"
#include "loop.h"

enum { FIRST_AUTOMATIC_TEI = 64, EACH_MS = 100, PAUSE_MS = 10000 };

void audit_hears(line *own) {
    struct lapd_counters all;
    if (line_side(own) != LAPD_NETWORK || lapd_counters(&own->card->own, own->at, &all) != LAPD_OK)
        return;
    bool is_denied = all.values[LAPD_BEGUN_DENIED] != own->denied;
    own->denied = all.values[LAPD_BEGUN_DENIED];
    if (!is_denied || own->is_audited || loop_now() < own->audit_at)
        return;
    log_line(LOG_EVENT, "line %u: a terminal got no TEI, and all are checked", own->identifier);
    own->is_audited = true;
    own->audit_place = 0;
    own->audit_at = loop_now();
    line_wake(own, own->audit_at);
}

/* The next automatic TEI, from a place on; false: there is none. */
static bool next_tei(line *own, uint8_t *place, uint8_t *tei) {
    for (lapd_link link; lapd_next_link(&own->card->own, own->at, place, &link) == LAPD_OK;)
        if (link.service == LAPD_CALL && link.tei >= FIRST_AUTOMATIC_TEI) {
            *tei = link.tei;
            return true;
        }
    return false;
}

void audit_goes_on(line *own) {
    uint8_t place = own->audit_place, tei;
    uint64_t now = loop_now();
    if (!own->is_audited)
        return;
    if (now >= own->audit_at && !next_tei(own, &place, &tei)) {
        own->is_audited = false;
        own->audit_at = now + PAUSE_MS;
        return;
    }
    /* One check at a time: while it runs, the next is refused, and is asked for again. */
    if (now >= own->audit_at && card_ask(own->card, own->at, LAPD_CHECK, LAPD_CALL, tei, NULL, 0) == LAPD_OK)
        own->audit_place = place;
    if (now >= own->audit_at)
        own->audit_at = now + EACH_MS;
    line_wake(own, own->audit_at);
}
