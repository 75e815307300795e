/* settle.c: what a link is, against what the server was told and has asked for. See links.h. */
#include "links.h"

#include "counts.h"
#include "lines.h"
#include "loop.h"
#include "servers.h"
#include "standby.h"
#include "terminals.h"

enum { FIRST_AGAIN_MS = 1000, LAST_AGAIN_MS = 60000, ROOM_AGAIN_MS = 100, MOST_PASSES = 8 };
enum { DOWN = 4, COMING = 5, GOING = 6, UP = 7 }; /* states of Q.921; 8 is up, too */

static uint32_t ask(line *own, const link_record *link, uint8_t request) {
    return card_ask(own->card, own->at, request, link->service, link->tei, NULL, 0);
}

/* ---- What is told ----------------------------------------------------------------------------------------------------- */

static void begin(iua_octets *out, const line *own, uint8_t type, uint8_t service, uint8_t tei) {
    iua_begin(out, IUA_QPTM, type);
    iua_put_link(out, own->identifier, service == LAPD_CALL ? 0 : (uint8_t)own->of->is.sapi, tei);
}

static bool tell(line *own, uint8_t type, const link_record *link) {
    iua_octets out;
    begin(&out, own, type, link->service, link->tei);
    return server_tell(own, &out);
}

static bool tell_release(line *own, const link_record *link) {
    iua_octets out;
    begin(&out, own, link->owes_release ? IUA_RELEASE_CONFIRM : IUA_RELEASE_INDICATION, link->service, link->tei);
    if (!link->owes_release)
        iua_put_number(&out, IUA_TAG_REASON, link->reason);
    return server_tell(own, &out);
}

bool links_tell_contents(line *own, bool is_unit, const lapd_note *note, const uint8_t *contents, size_t length) {
    iua_octets out;
    begin(&out, own, is_unit ? IUA_UNIT_INDICATION : IUA_DATA_INDICATION, note->service, note->tei);
    iua_put(&out, IUA_TAG_DATA, contents, length);
    return server_give(own, &out);
}

static bool tell_tei(line *own, uint8_t tei, bool is_assigned) {
    iua_octets out;
    iua_begin(&out, IUA_MGMT, IUA_TEI_INDICATION);
    iua_put_link(&out, own->identifier, 0, tei);
    iua_put_number(&out, IUA_TAG_TEI_STATUS, !is_assigned);
    return server_tell(own, &out);
}

static void settle_teis(line *own) {
    links *all = &own->links;
    for (unsigned tei = 0; all->owes_teis && tei < LAPD_GROUP_TEI; tei++) {
        uint64_t bit = UINT64_C(1) << tei % 64;
        bool is_there = card_state(own->card, own->at, LAPD_CALL, (uint8_t)tei) != 0;
        if (is_there == ((all->told_teis[tei / 64] & bit) != 0))
            continue;
        if (!tell_tei(own, (uint8_t)tei, is_there))
            return;
        all->told_teis[tei / 64] ^= bit;
    }
    all->owes_teis = false;
}

/* ---- A link that is down ---------------------------------------------------------------------------------------------- */

/* The gateway itself establishes a link: at once, and if that failed, or the link went down, later, twice as long each time. */
static void establish_again(line *own, link_record *link) {
    uint64_t now = loop_now();
    if (link->again_at == LOOP_NEVER) {
        link->again_ms = link->again_ms == 0 ? FIRST_AGAIN_MS : 2 * link->again_ms;
        if (link->again_ms > LAST_AGAIN_MS)
            link->again_ms = LAST_AGAIN_MS;
        link->again_at = now + link->again_ms;
    }
    if (now < link->again_at) {
        line_wake(own, link->again_at);
        return;
    }
    link->again_at = LOOP_NEVER;
    (void)ask(own, link, LAPD_ESTABLISH);
}

static void settle_down(line *own, link_record *link, uint8_t state) {
    bool is_next = link->owes_establish && link->owes_release; /* asked for while it was released */
    counts.contents_given_up += link->waiting.count;
    queue_clear(&link->waiting);
    link->is_busy = link->is_anew = false;
    if ((link->is_told_up || link->owes_establish || link->owes_release) && tell_release(own, link)) {
        link->is_told_up = link->owes_release = false;
        link->owes_establish = is_next;
        link->is_told_down = true;
        link->reason = IUA_BY_OTHER;
    }
    if (state != DOWN)
        return;
    if (link->owes_establish && !link->owes_release)
        (void)ask(own, link, LAPD_ESTABLISH);
    else if (link->is_wanted && own->is_up)
        establish_again(own, link);
}

/* ---- A link that is up ------------------------------------------------------------------------------------------------ */

/* Whether the other end has all contents of a link. */
static bool is_drained(line *own, const link_record *link) {
    struct lapd_room room;
    if (link->waiting.first != NULL)
        return false;
    return lapd_room(&own->card->own, own->at, link->service, link->tei, &room) != LAPD_OK
           || room.queue == own->card->config.queue;
}

/* A release that is asked for waits for the data before it. */
static void settle_release(line *own, link_record *link) {
    if (is_drained(own, link) || loop_now() >= link->release_by)
        (void)ask(own, link, LAPD_RELEASE);
    else
        line_wake(own, link->release_by);
}

static void settle_busy(line *own, link_record *link) {
    bool is_congested = server_is_congested(own);
    if (link->is_busy == is_congested || ask(own, link, is_congested ? LAPD_BUSY : LAPD_READY) != LAPD_OK)
        return;
    link->is_busy = is_congested;
    counts.links_busied += is_congested;
}

static void settle_contents(line *own, link_record *link) {
    const queued *it;
    while ((it = link->waiting.first) != NULL
           && card_ask(own->card, own->at, LAPD_DATA, link->service, link->tei, it->octets, it->length) == LAPD_OK)
        queue_drop(&link->waiting);
    if (it != NULL)
        line_wake(own, loop_now() + ROOM_AGAIN_MS); /* other lines of the card may have its slots, and nothing tells of them */
}

static void settle_up(line *own, link_record *link) {
    link->again_ms = 0;
    link->again_at = LOOP_NEVER;
    if (!link->owes_release && (link->is_anew || !link->is_told_up)
        && tell(own, link->owes_establish ? IUA_ESTABLISH_CONFIRM : IUA_ESTABLISH_INDICATION, link)) {
        link->is_anew = link->owes_establish = link->is_told_down = link->is_warned = false;
        link->is_told_up = true;
    }
    settle_busy(own, link);
    settle_contents(own, link);
    if (link->owes_release)
        settle_release(own, link);
}

/* An establishment that is under way when a release is asked for is waited for, but no longer than data would be. */
static void settle_coming(line *own, link_record *link) {
    link->is_busy = false; /* own busy went off as it began */
    if (!link->owes_release)
        return;
    if (loop_now() >= link->release_by)
        (void)ask(own, link, LAPD_DEACTIVATE);
    else
        line_wake(own, link->release_by);
}

/* The gateway itself releases a link. The other end may take its time, or may never answer: the server hears of it at once. */
static void settle_going(line *own, link_record *link) {
    link->is_busy = false;
    if (link->owes_release || !link->is_told_up || !tell_release(own, link))
        return;
    link->is_told_up = link->owes_establish = false;
    link->is_told_down = true;
    link->reason = IUA_BY_OTHER;
}

/* ---- A line ----------------------------------------------------------------------------------------------------------- */

static void settle(line *own, link_record *link) {
    uint8_t state = card_state(own->card, own->at, link->service, link->tei);
    switch (state) {
    case 0:
    case DOWN: settle_down(own, link, state); break;
    case COMING: settle_coming(own, link); break;
    case GOING: settle_going(own, link); break;
    default: settle_up(own, link); break;
    }
}

/* Whether something is under way at a link that may end without a note. */
static bool is_unsettled(line *own, const link_record *link) {
    uint8_t state = card_state(own->card, own->at, link->service, link->tei);
    return state == COMING || state == GOING || (state >= UP && (link->owes_release || link->waiting.first != NULL));
}

void links_settle(line *own) {
    links *all = &own->links;
    standby_changed(own);
    all->is_stale = true;
    if (all->is_settling)
        return;
    all->is_settling = true;
    for (unsigned pass = 0; all->is_stale && pass < MOST_PASSES; pass++) {
        all->is_stale = false;
        terminal_settle(own);
        settle_teis(own);
        if (all->is_short)
            links_find_all(own);
        for (link_record *it = all->at; it < all->at + all->count; it++)
            if (it->is_used)
                settle(own, it);
    }
    all->is_unsettled = false;
    for (const link_record *it = all->at; it < all->at + all->count; it++)
        all->is_unsettled = all->is_unsettled || (it->is_used && is_unsettled(own, it));
    all->is_settling = false;
}
