/* servers.c: application servers. See servers.h. */
#define _GNU_SOURCE

#include "servers.h"

#include <stdlib.h>
#include <string.h>

#include "counts.h"
#include "lines.h"
#include "log.h"
#include "loop.h"
#include "processes.h"
#include "standby.h"

enum { CLASS = 2, TYPE = 3, DLCI_AT = 20 }; /* octets of a message of a link */

unsigned server_count;
server *servers[MOST_SERVERS];
bool servers_are_ending;

server *server_of(uint32_t identifier) {
    for (unsigned i = 0; i < server_count; i++)
        if (servers[i]->is.first <= identifier && identifier <= servers[i]->is.last)
            return servers[i];
    return NULL;
}

/* ---- States ------------------------------------------------------------------------------------------------------------- */

static const char *state_name(uint32_t state) {
    static const char *const names[] = {"?", "down", "inactive", "active", "pending"};
    return names[state];
}

/* Whether a process is up that may be active for the server. */
static bool has_process(const server *own) {
    for (unsigned i = 0; i < MOST_ASSOCIATIONS; i++)
        if (associations[i] != NULL && associations[i]->is_up && process_may_serve(associations[i], own))
            return true;
    return false;
}

static unsigned active_count(const server *own) {
    unsigned count = 0;
    for (unsigned i = 0; i < MOST_ASSOCIATIONS; i++)
        count += own->is_active[i];
    return count;
}

static void notify(association *to, const server *own, uint32_t type, uint32_t status) {
    iua_octets out;
    iua_begin(&out, IUA_MGMT, IUA_NOTIFY);
    iua_put_number(&out, IUA_TAG_STATUS, type << 16 | status);
    iua_put_range(&out, own->is.first, own->is.last);
    (void)association_send(to, 0, &out);
}

static void become(server *own, uint32_t state) {
    if (own->state == state)
        return;
    log_line(LOG_EVENT, "server %s: it was %s, and is %s", own->is.name, state_name(own->state), state_name(state));
    own->state = state;
    for (unsigned i = 0; state != IUA_SERVER_DOWN && i < MOST_ASSOCIATIONS; i++)
        if (associations[i] != NULL && associations[i]->is_up && process_may_serve(associations[i], own))
            notify(associations[i], own, IUA_STATE_CHANGED, state);
}

/* ---- What waits for the next process ------------------------------------------------------------------------------------ */

static bool is_contents(const queued *it) {
    return it->octets[CLASS] == IUA_QPTM && (it->octets[TYPE] == IUA_DATA_INDICATION || it->octets[TYPE] == IUA_UNIT_INDICATION);
}

/* The first message that waits is given up. If it has contents, its link is released, so that its terminal learns of it. A note
 * is owed again. */
static void give_up(server *own) {
    const queued *it = own->held.first;
    line *of = line_of(it->identifier);
    uint8_t class = it->octets[CLASS], type = it->octets[TYPE];
    uint8_t sapi = it->octets[DLCI_AT] >> 2, tei = it->octets[DLCI_AT + 1] >> 1;
    uint8_t service = sapi == 0 ? LAPD_CALL : LAPD_PACKET;
    bool has_contents = is_contents(it);
    queue_drop(&own->held);
    if (of == NULL)
        return;
    if (!has_contents)
        links_untold(of, class, type, service, tei);
    else if (type == IUA_DATA_INDICATION)
        links_lost(of, service, tei);
    else
        counts.units_dropped++;
}

static void limit_held(server *own) {
    while (own->held.octets > MOST_HELD)
        give_up(own);
}

/* What a process did not vouch for waits for the next one, before all that came later. */
static void hold(server *own, association *process) {
    queue back = {NULL, NULL, 0, 0}, kept = {NULL, NULL, 0, 0};
    association_hand_back(process, own, &back);
    while (back.first != NULL)
        if (!own->is.retains && is_contents(back.first)) {
            counts.messages_lost++;
            queue_drop(&back);
        } else {
            counts.messages_held++;
            queue_move(&back, &kept);
        }
    while (own->held.first != NULL)
        queue_move(&own->held, &kept);
    own->held = kept;
}

/* What waits goes to those that are active now, in order. */
static void retrieve(server *own) {
    while (own->held.first != NULL) {
        const queued *it = own->held.first;
        line *of = line_of(it->identifier);
        iua_octets out = {.length = it->length};
        if (of != NULL && (of->by == NULL || of->by->broken != NULL))
            return;
        memcpy(out.octets, it->octets, it->length);
        if (of != NULL && !association_send(of->by, it->identifier, &out))
            return;
        counts.messages_retrieved += of != NULL;
        queue_drop(&own->held);
    }
}

/* T(r) is over, and no process has come. */
static int is_over(sd_event_source *source, uint64_t time, void *user) {
    server *own = user;
    (void)source;
    (void)time;
    while (own->held.first != NULL)
        give_up(own);
    become(own, has_process(own) ? IUA_SERVER_INACTIVE : IUA_SERVER_DOWN);
    return 0;
}

void server_wait(server *own) {
    loop_set_timer(own->timer, loop_now() + own->is.pending);
    become(own, IUA_SERVER_PENDING);
}

/* ---- Who has which line ------------------------------------------------------------------------------------------------- */

static bool is_in_use(line *own) {
    for (const link_record *it = own->links.at; it < own->links.at + own->links.count; it++)
        if (it->is_used && (it->is_told_up || it->owes_establish || it->owes_release))
            return true;
    return false;
}

/* The active process with the fewest lines; NULL: none is active. */
static association *least(const server *own, const unsigned *has) {
    association *found = NULL;
    for (unsigned i = 0; i < MOST_ASSOCIATIONS; i++)
        if (own->is_active[i] && (found == NULL || has[i] < has[found->number]))
            found = associations[i];
    return found;
}

static void count_lines(const server *own, unsigned *has) {
    memset(has, 0, MOST_ASSOCIATIONS * sizeof *has);
    for (unsigned i = 0; i < line_count; i++)
        if (lines[i]->server == own && lines[i]->by != NULL)
            has[lines[i]->by->number]++;
}

/* A line whose process is gone gets another. One that has no link in use gets the process with the fewest lines. */
static void give_lines(server *own) {
    unsigned has[MOST_ASSOCIATIONS];
    for (unsigned i = 0; i < line_count; i++)
        if (lines[i]->server == own && lines[i]->by != NULL && !own->is_active[lines[i]->by->number])
            lines[i]->by = NULL;
    count_lines(own, has);
    for (unsigned i = 0; i < line_count; i++) {
        line *it = lines[i];
        if (it->server != own)
            continue;
        association *best = least(own, has);
        bool moves = it->by == NULL || (best != NULL && has[it->by->number] > has[best->number] + 1 && !is_in_use(it));
        if (!moves || best == NULL)
            continue;
        if (it->by != NULL)
            has[it->by->number]--;
        has[best->number]++;
        it->by = best;
    }
}

void server_share(server *own) {
    give_lines(own);
    retrieve(own);
    for (unsigned i = 0; i < line_count; i++)
        if (lines[i]->server == own)
            links_settle(lines[i]);
}

/* ---- Processes ---------------------------------------------------------------------------------------------------------- */

void servers_hear_up(association *process) {
    for (unsigned i = 0; i < server_count; i++) {
        if (!process_may_serve(process, servers[i]))
            continue;
        if (servers[i]->state == IUA_SERVER_DOWN)
            become(servers[i], IUA_SERVER_INACTIVE);
        else
            notify(process, servers[i], IUA_STATE_CHANGED, servers[i]->state);
    }
}

void servers_hear_down(association *process) {
    for (unsigned i = 0; i < server_count; i++) {
        server_deactivate(servers[i], process);
        if (servers[i]->state == IUA_SERVER_INACTIVE && !has_process(servers[i]))
            become(servers[i], IUA_SERVER_DOWN);
    }
}

void server_activate(server *own, association *process) {
    own->is_active[process->number] = true;
    for (unsigned i = 0; own->is.mode + 1 == IUA_OVERRIDE && i < MOST_ASSOCIATIONS; i++) {
        if (!own->is_active[i] || i == process->number)
            continue;
        own->is_active[i] = false;
        notify(associations[i], own, IUA_OTHER, IUA_ALTERNATE_ACTIVE);
        hold(own, associations[i]);
    }
    loop_set_timer(own->timer, LOOP_NEVER);
    become(own, IUA_SERVER_ACTIVE);
    server_share(own);
}

void server_deactivate(server *own, association *process) {
    if (!own->is_active[process->number])
        return;
    own->is_active[process->number] = false;
    hold(own, process);
    if (active_count(own) == 0) {
        counts.takeovers++;
        server_wait(own);
    }
    server_share(own);
    limit_held(own);
}

/* ---- What lines say ----------------------------------------------------------------------------------------------------- */

bool server_tell(line *own, const iua_octets *out) {
    return own->by != NULL && !own->by->is_shut && own->by->broken == NULL && association_send(own->by, own->identifier, out);
}

bool server_give(line *own, const iua_octets *out) {
    if (server_tell(own, out))
        return true;
    if (own->server == NULL || !own->server->is.retains || own->server->held.octets > MOST_HELD)
        return false;
    queued *it = queue_add(&own->server->held, own->identifier, out->octets, out->length);
    if (it != NULL)
        standby_added(it);
    return it != NULL;
}

bool server_is_congested(const line *own) {
    return servers_are_ending || own->by == NULL || own->by->is_congested || own->by->is_shut || own->by->broken != NULL;
}

void servers_forget(line *own) {
    own->by = NULL;
    associations_forget(own);
}

/* ---- Its start and its end ---------------------------------------------------------------------------------------------- */

bool server_start(const configuration_server *from) {
    server *own = server_count == MOST_SERVERS ? NULL : calloc(1, sizeof *own);
    if (own == NULL)
        return false;
    own->is = *from;
    own->state = IUA_SERVER_DOWN;
    own->timer = loop_timer(is_over, own);
    if (own->timer == NULL) {
        free(own);
        return false;
    }
    servers[server_count++] = own;
    return true;
}

void server_end(server *own) {
    for (unsigned i = 0; i < server_count; i++)
        if (servers[i] == own)
            servers[i] = servers[--server_count];
    for (unsigned i = 0; i < line_count; i++)
        if (lines[i]->server == own) {
            lines[i]->server = NULL;
            lines[i]->by = NULL;
        }
    queue_clear(&own->held);
    sd_event_source_disable_unref(own->timer);
    free(own);
}
