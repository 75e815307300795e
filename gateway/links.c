/* links.c: the links of a line, what their card tells of them, and what layer 1 does to them. See links.h. */
#include "links.h"

#include <stdlib.h>

#include "counts.h"
#include "lines.h"
#include "log.h"
#include "loop.h"
#include "servers.h"
#include "standby.h"
#include "terminals.h"

/* ---- Records ---------------------------------------------------------------------------------------------------------- */

bool links_begin(links *own, unsigned terminals) {
    own->count = 2 * terminals;
    own->at = calloc(own->count, sizeof *own->at);
    return own->at != NULL;
}

void links_end(links *own) {
    for (unsigned i = 0; own->at != NULL && i < own->count; i++)
        queue_clear(&own->at[i].waiting);
    free(own->at);
    own->at = NULL;
}

/* Whether a record is needed no more: the TEI is gone, and all was told. */
static bool is_spare(line *own, const link_record *it) {
    return !it->is_used
           || (!it->is_told_up && !it->owes_establish && !it->owes_release
               && card_state(own->card, own->at, it->service, it->tei) == 0);
}

link_record *links_find(line *own, uint8_t service, uint8_t tei) {
    link_record *spare = NULL;
    for (link_record *it = own->links.at; it < own->links.at + own->links.count; it++) {
        if (it->is_used && it->service == service && it->tei == tei)
            return it;
        if (is_spare(own, it))
            spare = it;
    }
    if (spare != NULL) {
        queue_clear(&spare->waiting);
        *spare = (link_record){.is_used = true, .service = service, .tei = tei, .reason = IUA_BY_OTHER};
    }
    return spare;
}

/* Links that found no record before, as their lines had TEIs come and go while no server was there to be told. */
void links_find_all(line *own) {
    uint8_t place = 0;
    own->links.is_short = false;
    for (lapd_link it; lapd_next_link(&own->card->own, own->at, &place, &it) == LAPD_OK;) {
        link_record *link = it.state < 7 ? NULL : links_find(own, it.service, it.tei);
        own->links.is_short = own->links.is_short || (it.state >= 7 && link == NULL);
    }
}

/* ---- What a card tells ------------------------------------------------------------------------------------------------ */

static void gives_up_waiting(link_record *link) {
    counts.contents_given_up += link->waiting.count;
    queue_clear(&link->waiting);
}

static bool is_established(line *own, const lapd_note *note) {
    link_record *link = links_find(own, note->service, note->tei);
    own->links.is_short = own->links.is_short || link == NULL;
    if (link == NULL)
        return false;
    if (note->note == LAPD_ESTABLISH_INDICATION && link->is_told_up)
        gives_up_waiting(link); /* the server hears that it begins anew */
    link->is_anew = true;
    link->is_busy = false; /* own busy goes off as an establishment begins */
    return true;
}

static bool is_down(line *own, const lapd_note *note) {
    link_record *link = links_find(own, note->service, note->tei);
    if (link != NULL)
        gives_up_waiting(link);
    return true;
}

static bool is_error(const line *own, const lapd_note *note) {
    counts.errors++;
    log_limited(LOG_MORE, "line %u: TEI %u: error %c", own->identifier, note->tei, note->error);
    return true; /* the link may be established anew now, and no note may tell how that ends */
}

static bool teis_change(line *own, const lapd_note *note) {
    log_line(LOG_EVENT, "line %u: TEI %u: %s", own->identifier, note->tei, lapd_note_text(note));
    own->links.owes_teis = true;
    terminal_hears(own, note);
    return true;
}

/* A note; whether the links have to be settled. */
static bool hears(line *own, const lapd_note *note, const lapd_report *report) {
    switch (note->note) {
    case LAPD_ESTABLISH_INDICATION:
    case LAPD_ESTABLISH_CONFIRM: return is_established(own, note);
    case LAPD_RELEASE_INDICATION:
    case LAPD_RELEASE_CONFIRM: return !own->links.is_beginning && is_down(own, note);
    case LAPD_DATA_INDICATION:
        if (!links_tell_contents(own, false, note, report->contents, report->length))
            links_lost(own, note->service, note->tei);
        return false;
    case LAPD_UNIT_INDICATION:
        counts.units_dropped += !links_tell_contents(own, true, note, report->contents, report->length);
        return false;
    case LAPD_ERROR_INDICATION: return is_error(own, note);
    case LAPD_XID_INDICATION: counts.xid++; return false;
    default: return teis_change(own, note);
    }
}

void links_report(line *own, const lapd_report *report) {
    bool changes = report->reopened != 0 || own->links.is_unsettled;
    if (report->note_count != 0)
        standby_changed(own);
    for (const lapd_note *note = report->notes; note < report->notes + report->note_count; note++)
        changes = hears(own, note, report) || changes;
    counts.contents_given_up += (uint64_t)report->given_up + report->given_up_16;
    counts.frames_dropped += report->cause != 0;
    if (changes)
        links_settle(own);
}

/* ---- Layer 1 ---------------------------------------------------------------------------------------------------------- */

void links_lose_layer1(line *own) {
    for (link_record *it = own->links.at; it < own->links.at + own->links.count; it++) {
        if (!it->is_used)
            continue;
        uint8_t state = card_state(own->card, own->at, it->service, it->tei);
        it->was_up = state == 5 || state >= 7;
        it->reason = IUA_BY_LAYER1;
    }
}

/* T200 ran while layer 1 was away, so a SABME may wait several times, or a DISC. All of these are given up. A link that was up, or
 * was asked for, is established, by one SABME that counts as the first. */
static void begin_anew(line *own, link_record *link) {
    uint8_t state = card_state(own->card, own->at, link->service, link->tei);
    bool is_again = state == 5 || (state == 4 && link->was_up && link->service == LAPD_CALL);
    link->was_up = false;
    link->reason = IUA_BY_OTHER;
    link->again_ms = 0;
    link->again_at = 0;
    (void)card_ask(own->card, own->at, LAPD_DEACTIVATE, link->service, link->tei, NULL, 0);
    if (is_again)
        (void)card_ask(own->card, own->at, LAPD_ESTABLISH, link->service, link->tei, NULL, 0);
}

void links_have_layer1(line *own) {
    own->links.is_beginning = own->links.is_settling = true;
    for (link_record *it = own->links.at; it < own->links.at + own->links.count; it++)
        if (it->is_used)
            begin_anew(own, it);
    own->links.is_beginning = own->links.is_settling = false;
    links_settle(own);
}

void links_want(line *own, uint8_t tei) {
    link_record *link = links_find(own, LAPD_CALL, tei);
    if (link == NULL)
        return;
    link->is_wanted = true;
    link->again_ms = 0;
    link->again_at = 0;
}

void links_retire(line *own) {
    for (link_record *it = own->links.at; it < own->links.at + own->links.count; it++)
        it->reason = IUA_BY_MANAGEMENT;
    own->is_up = false;
    card_down(own->card, own->at);
    links_settle(own);
}

/* ---- What the gateway itself gives up ----------------------------------------------------------------------------------- */

static void force_down(line *own, link_record *link) {
    counts.links_released++;
    log_limited(LOG_WARN, "line %u: TEI %u: the gateway releases the link, as contents are lost", own->identifier, link->tei);
    gives_up_waiting(link);
    link->reason = IUA_BY_MANAGEMENT;
    /* While it is being established annex B keeps the release, and carries it out as UA comes. If that is refused, too, the link is
     * deactivated. */
    if (card_ask(own->card, own->at, LAPD_RELEASE, link->service, link->tei, NULL, 0) != LAPD_OK)
        (void)card_ask(own->card, own->at, LAPD_DEACTIVATE, link->service, link->tei, NULL, 0);
}

void links_lost(line *own, uint8_t service, uint8_t tei) {
    link_record *link = links_find(own, service, tei);
    counts.messages_lost++;
    uint8_t state = card_state(own->card, own->at, service, tei);
    if (link == NULL || (state != 5 && state < 7))
        return;
    force_down(own, link);
    links_settle(own);
}

void links_untold(line *own, uint8_t class, uint8_t type, uint8_t service, uint8_t tei) {
    bool is_tei = class == IUA_MGMT && tei < LAPD_GROUP_TEI;
    link_record *link = is_tei ? NULL : links_find(own, service, tei);
    standby_changed(own);
    if (is_tei) {
        own->links.told_teis[tei / 64] ^= UINT64_C(1) << tei % 64;
        own->links.owes_teis = true;
    }
    if (link != NULL)
        link->is_told_up = type == IUA_RELEASE_CONFIRM || type == IUA_RELEASE_INDICATION;
}

unsigned links_waiting(const line *own) {
    unsigned count = 0;
    for (const link_record *it = own->links.at; it < own->links.at + own->links.count; it++)
        count += it->waiting.count;
    return count;
}

bool links_are_full(const line *own) {
    for (const link_record *it = own->links.at; it < own->links.at + own->links.count; it++)
        if (it->waiting.count >= MOST_OF_LINK)
            return true;
    return links_waiting(own) >= MOST_OF_LINE;
}

void links_release_full(line *own) {
    while (links_are_full(own)) {
        link_record *most = own->links.at;
        for (link_record *it = own->links.at; it < own->links.at + own->links.count; it++)
            if (it->waiting.count > most->waiting.count)
                most = it;
        force_down(own, most);
    }
    links_settle(own);
}
