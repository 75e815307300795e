/* requests.c: what a server asks of links. See requests.h. */
#include "requests.h"

#include "counts.h"
#include "lines.h"
#include "loop.h"
#include "standby.h"

/* Unit data need no link. What finds no room is lost, as on a line. */
static unsigned unit(line *own, uint8_t service, const iua_message *message) {
    uint32_t status = card_ask(own->card, own->at, LAPD_UNIT, service, message->tei, message->data, message->length);
    switch (status) {
    case LAPD_OK: return IUA_OK;
    case LAPD_REFUSED_QUEUE_FULL:
    case LAPD_REFUSED_POOL_FULL: counts.units_dropped++; return IUA_OK;
    case LAPD_REFUSED_TOO_LONG: return IUA_PROTOCOL_ERROR;
    case LAPD_REFUSED_BAD_TEI: return IUA_BAD_DLCI;
    default: return IUA_UNASSIGNED_TEI;
    }
}

/* Data for a link that is down, or about to be. Who believes that it is up hears of its release; who knows hears an error, once
 * until it is up again. While a release is on the way, nothing is answered: it will be told. */
static unsigned refuse_data(line *own, link_record *link, uint8_t state) {
    counts.data_refused++;
    if (link->owes_release || (state == 6 && link->is_told_up))
        return IUA_OK;
    if (!link->is_told_down) {
        link->is_told_up = true;
        links_settle(own);
        return IUA_OK;
    }
    bool is_warned = link->is_warned;
    link->is_warned = true;
    return is_warned ? IUA_OK : IUA_UNEXPECTED;
}

static unsigned data(line *own, link_record *link, uint8_t state, const iua_message *message) {
    standby_changed(own);
    if (message->length > own->of->is.n201)
        return IUA_PROTOCOL_ERROR;
    if (state == 4 || state == 6 || link->owes_release)
        return refuse_data(own, link, state);
    if (state >= 7 && link->waiting.first == NULL
        && card_ask(own->card, own->at, LAPD_DATA, link->service, link->tei, message->data, message->length) == LAPD_OK)
        return IUA_OK;
    if (queue_add_below(&link->waiting, own->identifier, message->data, message->length) == NULL)
        links_lost(own, link->service, link->tei);
    own->links.is_unsettled = true;
    return IUA_OK;
}

/* A link that the gateway itself establishes, unless the server has released it. */
static bool is_kept(const line *own, const link_record *link) {
    return own->of->is.establishes && link->service == LAPD_CALL && configuration_has(&own->of->is.teis, link->tei);
}

static void establish(line *own, link_record *link, uint8_t state) {
    link->owes_establish = true;
    link->is_told_down = false;
    if (is_kept(own, link))
        link->is_wanted = true;
    if (state >= 7 && !link->owes_release)
        link->is_told_up = false; /* it is up, and confirmed at once */
    if (state == 4)
        (void)card_ask(own->card, own->at, LAPD_ESTABLISH, link->service, link->tei, NULL, 0);
    links_settle(own);
}

static void release(line *own, link_record *link) {
    if (!link->owes_release)
        link->release_by = loop_now() + RELEASE_MS;
    link->owes_release = true;
    link->owes_establish = false;
    link->is_wanted = false;
    links_settle(own);
}

/* The request of a link whose form is right. */
static unsigned make(line *own, uint8_t service, const iua_message *message) {
    uint8_t state = card_state(own->card, own->at, service, message->tei);
    link_record *link = state == 0 ? NULL : links_find(own, service, message->tei);
    if (link == NULL)
        return IUA_UNASSIGNED_TEI;
    switch (message->type) {
    case IUA_DATA_REQUEST: return data(own, link, state, message);
    case IUA_ESTABLISH_REQUEST: establish(own, link, state); return IUA_OK;
    case IUA_RELEASE_REQUEST: release(own, link); return IUA_OK;
    default: return IUA_UNEXPECTED;
    }
}

unsigned request_made(line *own, const iua_message *message) {
    bool has_contents = message->type == IUA_DATA_REQUEST || message->type == IUA_UNIT_REQUEST;
    bool is_request = has_contents || message->type == IUA_ESTABLISH_REQUEST || message->type == IUA_RELEASE_REQUEST;
    if (!message->has_link || (has_contents && !message->has_data))
        return IUA_PROTOCOL_ERROR;
    if (!is_request)
        return IUA_UNEXPECTED;
    if (message->sapi != 0 && message->sapi != own->of->is.sapi)
        return IUA_BAD_SAPI;
    uint8_t service = message->sapi == 0 ? LAPD_CALL : LAPD_PACKET;
    if (message->type == IUA_UNIT_REQUEST)
        return unit(own, service, message);
    if (message->tei == LAPD_GROUP_TEI)
        return IUA_BAD_DLCI;
    return make(own, service, message);
}
