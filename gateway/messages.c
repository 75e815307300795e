/* messages.c: what processes of servers say. See messages.h. */
#define _GNU_SOURCE

#include "messages.h"

#include <string.h>

#include "counts.h"
#include "lines.h"
#include "log.h"
#include "processes.h"
#include "requests.h"
#include "servers.h"

/* ---- Answers ------------------------------------------------------------------------------------------------------------ */

static void acknowledge(association *own, uint8_t class, uint8_t type) {
    iua_octets out;
    iua_begin(&out, class, type);
    (void)association_send(own, 0, &out);
}

static void answer_error(association *own, unsigned code, const iua_message *about, const uint8_t *octets, size_t length) {
    iua_octets out;
    counts.iua_errors_sent[code]++;
    log_limited(LOG_MORE, "association %u: %s: error %u, %s", own->number, iua_name(about->class, about->type), code,
                iua_error_name(code));
    iua_begin(&out, IUA_MGMT, IUA_ERROR);
    iua_put_number(&out, IUA_TAG_ERROR, code);
    if (about->ranges > 0)
        iua_put_number(&out, IUA_TAG_IDENTIFIER, about->range[0].first);
    iua_put(&out, IUA_TAG_DIAGNOSTIC, octets, length < IUA_MOST_DIAGNOSTIC ? length : IUA_MOST_DIAGNOSTIC);
    (void)association_send(own, 0, &out);
}

/* ---- States of a process ------------------------------------------------------------------------------------------------ */

static bool is_active(const association *own) {
    for (unsigned i = 0; i < server_count; i++)
        if (servers[i]->is_active[own->number])
            return true;
    return false;
}

static void deactivate_all(association *own) {
    for (unsigned i = 0; i < server_count; i++)
        server_deactivate(servers[i], own);
}

/* From a process that is active already, ASP Up is answered, and is an error, too. */
static unsigned comes_up(association *own, const iua_message *message) {
    unsigned code = process_joins(own, message);
    if (code != IUA_OK)
        return code;
    bool was_active = is_active(own);
    acknowledge(own, IUA_ASPSM, IUA_UP_ACK);
    association_set_up(own, true);
    if (was_active)
        deactivate_all(own);
    servers_hear_up(own);
    return was_active ? IUA_UNEXPECTED : IUA_OK;
}

static void goes_down(association *own) {
    association_set_up(own, false);
    acknowledge(own, IUA_ASPSM, IUA_DOWN_ACK);
    servers_hear_down(own);
}

static void answer_beat(association *own, const iua_message *message) {
    iua_octets out;
    iua_begin(&out, IUA_ASPSM, IUA_BEAT_ACK);
    if (message->has_data)
        iua_put(&out, IUA_TAG_HEARTBEAT, message->data, message->length);
    (void)association_send(own, 0, &out);
}

static void hear_vouched(association *own, const iua_message *message) {
    if (message->length == 4)
        association_vouched(own, (uint32_t)message->data[0] << 24 | (uint32_t)message->data[1] << 16
                                     | (uint32_t)message->data[2] << 8 | message->data[3]);
}

static unsigned of_state(association *own, const iua_message *message) {
    switch (message->type) {
    case IUA_UP: return comes_up(own, message);
    case IUA_DOWN: goes_down(own); return IUA_OK;
    case IUA_BEAT: answer_beat(own, message); return IUA_OK;
    case IUA_BEAT_ACK: hear_vouched(own, message); return IUA_OK;
    default: return IUA_UNEXPECTED;
    }
}

/* ---- Traffic ------------------------------------------------------------------------------------------------------------ */

/* Whether a message is about a server: it names none, or one of its interfaces. */
static bool is_about(const association *own, const iua_message *message, const server *it) {
    if (message->ranges == 0)
        return process_may_serve(own, it);
    for (unsigned i = 0; i < message->ranges; i++)
        if (message->range[i].first <= it->is.last && it->is.first <= message->range[i].last)
            return true;
    return false;
}

/* What is wrong with a message about traffic, before anything is done. */
static unsigned check_traffic(const association *own, const iua_message *message) {
    unsigned found = 0;
    if (!own->is_up || (message->type != IUA_ACTIVE && message->type != IUA_INACTIVE))
        return IUA_UNEXPECTED;
    for (unsigned i = 0; i < message->ranges; i++)
        if (server_of(message->range[i].first) == NULL || server_of(message->range[i].last) == NULL)
            return IUA_BAD_IDENTIFIER;
    for (unsigned i = 0; i < server_count; i++) {
        if (!is_about(own, message, servers[i]))
            continue;
        if (!process_may_serve(own, servers[i]))
            return IUA_BLOCKED;
        if (message->has_mode && message->mode != servers[i]->is.mode + 1)
            return IUA_BAD_MODE;
        found++;
    }
    return found == 0 ? IUA_BAD_IDENTIFIER : IUA_OK;
}

static unsigned of_traffic(association *own, const iua_message *message) {
    iua_octets out;
    bool is_active = message->type == IUA_ACTIVE;
    unsigned code = check_traffic(own, message);
    for (unsigned i = 0; code == IUA_OK && i < server_count; i++) {
        server *it = servers[i];
        if (!is_about(own, message, it))
            continue;
        iua_begin(&out, IUA_ASPTM, is_active ? IUA_ACTIVE_ACK : IUA_INACTIVE_ACK);
        if (is_active)
            iua_put_number(&out, IUA_TAG_MODE, it->is.mode + 1);
        iua_put_range(&out, it->is.first, it->is.last);
        (void)association_send(own, 0, &out);
        if (is_active)
            server_activate(it, own);
        else
            server_deactivate(it, own);
    }
    return code;
}

/* ---- Lines -------------------------------------------------------------------------------------------------------------- */

static void answer_tei(association *own, const line *of, uint8_t type, uint8_t tei, bool is_assigned) {
    iua_octets out;
    iua_begin(&out, IUA_MGMT, type);
    iua_put_link(&out, of->identifier, 0, tei);
    iua_put_number(&out, IUA_TAG_TEI_STATUS, !is_assigned);
    (void)association_send(own, of->identifier, &out);
}

/* TEI status: of one TEI, or of all that are on the line. */
static unsigned of_tei(association *own, line *of, const iua_message *message) {
    uint8_t place = 0;
    if (message->type == IUA_TEI_REQUEST) {
        if (!message->has_link)
            return IUA_PROTOCOL_ERROR;
        answer_tei(own, of, IUA_TEI_CONFIRM, message->tei, card_state(of->card, of->at, LAPD_CALL, message->tei) != 0);
        return IUA_OK;
    }
    for (lapd_link link; lapd_next_link(&of->card->own, of->at, &place, &link) == LAPD_OK;)
        if (link.service == LAPD_CALL)
            answer_tei(own, of, IUA_TEI_INDICATION, link.tei, true);
    return IUA_OK;
}

static unsigned of_line(association *own, const iua_message *message) {
    bool is_tei = message->class == IUA_MGMT;
    if (!own->is_up || (is_tei && message->type != IUA_TEI_REQUEST && message->type != IUA_TEI_QUERY))
        return IUA_UNEXPECTED;
    if (message->ranges != 1 || message->range[0].first != message->range[0].last)
        return IUA_PROTOCOL_ERROR;
    line *of = line_of(message->range[0].first);
    if (of == NULL || of->server == NULL)
        return IUA_BAD_IDENTIFIER;
    if (!of->server->is_active[own->number])
        return IUA_UNEXPECTED;
    if (is_tei)
        return of_tei(own, of, message);
    unsigned code = request_made(of, message);
    if (code == IUA_OK && links_are_full(of))
        association_hold(own, of);
    return code;
}

/* ---- What came ---------------------------------------------------------------------------------------------------------- */

static unsigned take(association *own, unsigned stream, const iua_message *message) {
    if (message->has_text)
        return IUA_BAD_IDENTIFIER_TYPE;
    if (stream != 0 && (message->class == IUA_MGMT || message->class == IUA_ASPSM))
        return IUA_BAD_STREAM;
    if (message->class == IUA_ASPSM)
        return of_state(own, message);
    if (message->class == IUA_ASPTM)
        return of_traffic(own, message);
    if (message->class == IUA_MGMT && message->type == IUA_NOTIFY)
        return own->is_up ? IUA_OK : IUA_UNEXPECTED;
    return of_line(own, message);
}

void message_came(association *own, unsigned stream, const uint8_t *octets, size_t length) {
    iua_message message;
    unsigned code = iua_read(&message, octets, length);
    counts.iua_received++;
    if (length >= IUA_HEAD && message.class == IUA_MGMT && message.type == IUA_ERROR) { /* it is never answered by an error */
        counts.iua_errors_received++;
        log_limited(LOG_WARN, "association %u: its process tells error %u, %s", own->number, message.error,
                    iua_error_name(message.error));
        return;
    }
    if (code == IUA_OK)
        code = take(own, stream, &message);
    if (code != IUA_OK)
        answer_error(own, code, &message, octets, length);
}
