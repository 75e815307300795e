/* reload.c: a configuration that is read anew. See reload.h. */
#define _GNU_SOURCE

#include "reload.h"

#include <string.h>

#include "associations.h"
#include "capture.h"
#include "lines.h"
#include "log.h"
#include "processes.h"
#include "servers.h"

static configuration fresh;

/* ---- Groups of lines -------------------------------------------------------------------------------------------------- */

static const configuration_group *group_named(const char *name) {
    for (unsigned i = 0; i < fresh.groups; i++)
        if (strcmp(fresh.group[i].name, name) == 0)
            return &fresh.group[i];
    return NULL;
}

static bool has_group(const char *name) {
    for (unsigned i = 0; i < group_count; i++)
        if (strcmp(groups[i]->is.name, name) == 0)
            return true;
    return false;
}

/* Groups end that are not there any more, or are others now. Records begin as zeros, so those that say the same are the same. */
static void end_groups(void) {
    for (unsigned i = group_count; i-- > 0;) {
        const configuration_group *it = group_named(groups[i]->is.name);
        if (it != NULL && memcmp(it, &groups[i]->is, sizeof *it) == 0)
            continue;
        log_line(LOG_EVENT, "lines %s: they end", groups[i]->is.name);
        group_retire(groups[i]);
        group_end(groups[i]);
    }
}

static void start_groups(void) {
    const char *fault;
    for (unsigned i = 0; i < fresh.groups; i++) {
        if (has_group(fresh.group[i].name))
            continue;
        if (!group_start(&fresh.group[i], &fault)) {
            log_line(LOG_FAULT, "lines %s: %s", fresh.group[i].name, fault);
            continue;
        }
        log_line(LOG_EVENT, "lines %s: they begin", fresh.group[i].name);
        (void)group_begin(groups[group_count - 1]);
    }
}

/* ---- Servers and their processes -------------------------------------------------------------------------------------- */

static const configuration_server *server_named(const char *name) {
    for (unsigned i = 0; i < fresh.servers; i++)
        if (strcmp(fresh.server[i].name, name) == 0)
            return &fresh.server[i];
    return NULL;
}

static bool has_server(const char *name) {
    for (unsigned i = 0; i < server_count; i++)
        if (strcmp(servers[i]->is.name, name) == 0)
            return true;
    return false;
}

/* A server with another range is another one. The rest of it may change as it goes on. */
static void change_servers(void) {
    for (unsigned i = server_count; i-- > 0;) {
        const configuration_server *it = server_named(servers[i]->is.name);
        if (it != NULL && it->first == servers[i]->is.first && it->last == servers[i]->is.last) {
            servers[i]->is = *it;
            continue;
        }
        log_line(LOG_EVENT, "server %s: it ends", servers[i]->is.name);
        server_end(servers[i]);
    }
    for (unsigned i = 0; i < fresh.servers; i++)
        if (!has_server(fresh.server[i].name) && !server_start(&fresh.server[i]))
            log_line(LOG_FAULT, "server %s: there is no memory", fresh.server[i].name);
    for (unsigned i = 0; i < line_count; i++)
        lines[i]->server = server_of(lines[i]->identifier);
}

/* Processes that may join no more end, and the others may be told of servers that are new. */
static void change_processes(void) {
    for (unsigned i = 0; i < MOST_ASSOCIATIONS; i++)
        if (associations[i] != NULL && associations[i]->is_up && !process_is_known(associations[i]))
            association_break(associations[i], "its process may join no more");
    for (unsigned i = 0; i < server_count; i++)
        server_share(servers[i]);
}

/* ---- All of it -------------------------------------------------------------------------------------------------------- */

/* The words of [gateway] stand before the groups, and take effect at a start alone. */
static void keep_gateway(const configuration *present) {
    size_t length = offsetof(configuration, groups);
    if (memcmp(present, &fresh, length) != 0)
        log_line(LOG_WARN, "the words of [gateway] have changed, and take effect at the next start");
    memcpy(&fresh, present, length);
}

void reload(configuration *present, const char *file) {
    char fault[CONFIGURATION_FAULT];
    if (!configuration_read(&fresh, file, fault)) {
        log_line(LOG_FAULT, "nothing changes: %s", fault);
        return;
    }
    keep_gateway(present);
    bool has_captures = present->captures == fresh.captures && memcmp(present->capture, fresh.capture, sizeof fresh.capture) == 0;
    end_groups();
    change_servers();
    start_groups();
    *present = fresh;
    change_processes();
    if (!has_captures && !captures_begin(present))
        log_line(LOG_FAULT, "there are no captures");
    log_line(LOG_EVENT, "the configuration is read anew: there are %u lines", line_count);
}
