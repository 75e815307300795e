/* associations.c: what goes to processes, and heartbeats. See associations.h. */
#define _GNU_SOURCE

#include "associations.h"

#include <errno.h>
#include <stdio.h>
#include <stdlib.h>
#include <string.h>
#include <sys/epoll.h>
#include <sys/socket.h>
#include <unistd.h>

#include "counts.h"
#include "lines.h"
#include "log.h"
#include "loop.h"
#include "messages.h"
#include "octets.h"
#include "servers.h"
#include "standby.h"
#include "transports.h"

association *associations[MOST_ASSOCIATIONS];
uint32_t associations_beat = 1000;

enum { CLASS = 2, TYPE = 3, MOST_OF_TURN = 64 }; /* octets of a message with its class and type; messages that a turn reads */

/* ---- What waits and what is watched ------------------------------------------------------------------------------------- */

/* What a line has to say, which the next process has to hear if this one did not. */
static bool is_of_line(const queued *it) {
    return it->octets[CLASS] == IUA_QPTM || (it->octets[CLASS] == IUA_MGMT && it->octets[TYPE] == IUA_TEI_INDICATION);
}

static void watch_anew(association *own) {
    uint32_t events = (own->held == NULL ? EPOLLIN : 0u) | (own->is_full ? EPOLLOUT : 0u);
    watch_set(&own->watch, events);
}

static uint64_t earlier(uint64_t one, uint64_t other) {
    return one < other ? one : other;
}

static void set_timer(association *own) {
    uint64_t moment = own->held != NULL ? own->held_until : LOOP_NEVER;
    if (own->is_up)
        moment = earlier(moment, own->beat_at);
    if (own->is_up && own->held == NULL && own->beat_sent != own->beat_heard)
        moment = earlier(moment, own->beat_late);
    loop_set_timer(own->timer, moment);
}

void association_break(association *own, const char *why) {
    if (own->broken == NULL)
        own->broken = why;
}

/* Where what is not vouched for passes a mark, links are to be busy, or ready. */
static void look_at_marks(association *own) {
    bool is_congested = own->out.octets > (own->is_congested ? LOW_WATER : HIGH_WATER);
    own->is_changed = own->is_changed != (is_congested != own->is_congested);
    own->is_congested = is_congested;
    if (own->out.octets > HARD_LIMIT)
        association_break(own, "its process does not vouch for what it was sent");
}

/* What was sent and is vouched for goes, and so do answers, for which nobody vouches. */
static void trim(association *own) {
    for (queued *it = own->out.first; it != NULL && it != own->unsent; it = own->out.first) {
        if (is_of_line(it) && (int32_t)(it->mark - own->beat_heard) > 0)
            break;
        queue_drop(&own->out);
    }
    look_at_marks(own);
}

/* ---- Messages go -------------------------------------------------------------------------------------------------------- */

/* The stream of a message: 0 of management, and otherwise that of its line. */
static uint16_t stream_of(const association *own, uint32_t identifier, uint8_t class) {
    return class == IUA_QPTM && own->streams > 1 ? (uint16_t)(1 + identifier % (own->streams - 1)) : 0;
}

static bool add(association *own, uint32_t identifier, const iua_octets *out) {
    if (own->broken != NULL || own->is_shut)
        return false;
    queued *it = queue_add(&own->out, identifier, out->octets, out->length);
    if (it == NULL) {
        association_break(own, "there is no room for what it is sent");
        return false;
    }
    it->stream = stream_of(own, identifier, out->octets[CLASS]);
    it->mark = own->beat_sent + 1;
    if (own->unsent == NULL)
        own->unsent = it;
    own->unsent_octets += it->length;
    if (is_of_line(it))
        standby_added(it);
    counts.iua_sent++;
    return true;
}

/* A heartbeat, with its number. */
static void beat(association *own) {
    iua_octets out;
    uint64_t now = loop_now();
    if (own->beat_sent == own->beat_heard)
        own->beat_late = now + associations_beat;
    own->beat_at = now + associations_beat;
    own->since_beat = 0;
    iua_begin(&out, IUA_ASPSM, IUA_BEAT);
    iua_put_number(&out, IUA_TAG_HEARTBEAT, own->beat_sent + 1);
    if (add(own, 0, &out))
        own->beat_sent++;
}

bool association_send(association *own, uint32_t identifier, const iua_octets *out) {
    if (!add(own, identifier, out))
        return false;
    if (is_of_line(own->out.last))
        own->since_beat += out->length;
    if (own->since_beat >= BEAT_OCTETS)
        beat(own);
    look_at_marks(own);
    return true;
}

static void flush(association *own) {
    bool was_full = own->is_full;
    for (queued *it = own->unsent; it != NULL && !own->is_full && own->broken == NULL; it = own->unsent) {
        if (!transport_send(own, it)) {
            own->is_full = own->broken == NULL;
            break;
        }
        own->unsent_octets -= it->length;
        own->unsent = it->next;
    }
    trim(own);
    if (was_full != own->is_full)
        watch_anew(own);
}

void association_vouched(association *own, uint32_t number) {
    uint32_t news = number - own->beat_heard;
    if (news == 0 || news > own->beat_sent - own->beat_heard)
        return;
    own->beat_heard = number;
    own->beat_late = loop_now() + associations_beat;
    trim(own);
}

void association_set_up(association *own, bool is_up) {
    own->is_up = is_up;
    own->beat_at = own->beat_late = loop_now() + associations_beat;
}

void association_hand_back(association *own, const server *of, queue *back) {
    queue others = {NULL, NULL, 0, 0};
    bool is_unsent = false;
    queued *unsent = own->unsent;
    own->unsent = NULL;
    own->unsent_octets = 0;
    while (own->out.first != NULL) {
        queued *it = own->out.first;
        is_unsent = is_unsent || it == unsent;
        if (is_of_line(it) && server_of(it->identifier) == of) {
            queue_move(&own->out, back);
            continue;
        }
        queue_move(&own->out, &others);
        if (is_unsent && own->unsent == NULL)
            own->unsent = it;
        if (is_unsent)
            own->unsent_octets += it->length;
    }
    own->out = others;
    look_at_marks(own);
}

/* ---- Messages come ------------------------------------------------------------------------------------------------------ */

void association_hold(association *own, line *until) {
    own->held = until;
    own->held_until = loop_now() + HOLD_MS;
    counts.reads_held++;
    watch_anew(own);
}

static void go_on(association *own) {
    own->held = NULL;
    own->beat_late = loop_now() + associations_beat; /* answers were not read meanwhile */
    watch_anew(own);
}

void associations_forget(const line *own) {
    for (unsigned i = 0; i < MOST_ASSOCIATIONS; i++)
        if (associations[i] != NULL && associations[i]->held == own)
            go_on(associations[i]);
}

static void is_ready(void *user, uint32_t events) {
    association *own = user;
    if ((events & EPOLLOUT) != 0)
        own->is_full = false;
    watch_anew(own);
    if (own->held != NULL && (events & (EPOLLHUP | EPOLLERR)) != 0)
        go_on(own);
    if ((events & (EPOLLIN | EPOLLHUP | EPOLLERR)) == 0)
        return;
    for (unsigned i = 0; i < MOST_OF_TURN && own->held == NULL && own->broken == NULL; i++)
        if (!transport_receive(own))
            break;
}

static int is_due(sd_event_source *source, uint64_t time, void *user) {
    association *own = user;
    uint64_t now = loop_now();
    (void)source;
    (void)time;
    if (own->held != NULL && now >= own->held_until) {
        links_release_full(own->held);
        go_on(own);
    }
    if (own->is_up && own->held == NULL && own->beat_sent != own->beat_heard && now >= own->beat_late)
        association_break(own, "its process answers no heartbeat");
    else if (own->is_up && now >= own->beat_at)
        beat(own);
    return 0;
}

/* ---- Its start and its end ---------------------------------------------------------------------------------------------- */

bool association_begin(int fd, bool is_sctp, unsigned streams, const char *peer) {
    unsigned number = 0;
    while (number < MOST_ASSOCIATIONS && associations[number] != NULL)
        number++;
    association *own = number == MOST_ASSOCIATIONS ? NULL : calloc(1, sizeof *own);
    if (own == NULL)
        return false;
    *own = (association){.number = number, .fd = fd, .is_sctp = is_sctp, .streams = streams};
    snprintf(own->peer, sizeof own->peer, "%s", peer);
    own->timer = loop_timer(is_due, own);
    if (own->timer == NULL || !watch_begin(&own->watch, fd, EPOLLIN, is_ready, own)) {
        sd_event_source_disable_unref(own->timer);
        free(own);
        return false;
    }
    associations[number] = own;
    log_line(LOG_EVENT, "association %u: it begins, from %s", number, peer);
    return true;
}

static void end(association *own) {
    log_line(LOG_EVENT, "association %u: it ends: %s", own->number, own->broken);
    watch_end(&own->watch);
    sd_event_source_disable_unref(own->timer);
    close(own->fd);
    own->is_up = false;
    servers_hear_down(own);
    queue_clear(&own->out);
    associations[own->number] = NULL;
    free(own);
}

/* Links of lines that this process has learn that they are to be busy, or ready. */
static bool settle_lines(association *own) {
    if (!own->is_changed)
        return false;
    own->is_changed = false;
    for (unsigned i = 0; i < line_count; i++)
        if (lines[i]->by == own)
            links_settle(lines[i]);
    return true;
}

bool associations_settle(void) {
    bool is_news = false;
    for (unsigned i = 0; i < MOST_ASSOCIATIONS; i++) {
        association *it = associations[i];
        if (it == NULL)
            continue;
        if (it->held != NULL && !links_are_full(it->held))
            go_on(it);
        is_news = settle_lines(it) || is_news;
        if (it->broken == NULL)
            continue;
        end(it);
        is_news = true;
    }
    return is_news;
}

bool associations_flush(void) {
    bool is_news = false;
    for (unsigned i = 0; i < MOST_ASSOCIATIONS; i++) {
        association *it = associations[i];
        if (it == NULL)
            continue;
        flush(it);
        set_timer(it);
        is_news = is_news || it->broken != NULL || it->is_changed;
    }
    return is_news;
}

/* ---- The program ends --------------------------------------------------------------------------------------------------- */

void associations_end(void) {
    for (unsigned i = 0; i < MOST_ASSOCIATIONS; i++)
        if (associations[i] != NULL && associations[i]->is_up)
            beat(associations[i]);
}

void associations_shut(bool at_once) {
    for (unsigned i = 0; i < MOST_ASSOCIATIONS; i++) {
        association *it = associations[i];
        if (it == NULL || it->is_shut || (!at_once && it->is_up && it->beat_sent != it->beat_heard))
            continue;
        it->is_shut = true;
        shutdown(it->fd, SHUT_WR);
    }
}

bool associations_are_there(void) {
    for (unsigned i = 0; i < MOST_ASSOCIATIONS; i++)
        if (associations[i] != NULL)
            return true;
    return false;
}
