/* processes.c: processes that may join. See processes.h. */
#define _GNU_SOURCE

#include "processes.h"

#include <stdio.h>
#include <string.h>

#include "servers.h"
#include "transports.h"

static const configuration *known;

void processes_set(const configuration *from) {
    known = from;
}

static const configuration_process *process_named(const char *name) {
    for (unsigned i = 0; known != NULL && i < known->processes; i++)
        if (strcmp(known->process[i].name, name) == 0)
            return &known->process[i];
    return NULL;
}

bool process_is_known(const association *own) {
    const configuration_process *it = process_named(own->process);
    return known == NULL || known->processes == 0 || (it != NULL && !it->is_blocked);
}

bool process_may_serve(const association *own, const server *of) {
    const configuration_process *it = process_named(own->process);
    if (known == NULL || known->processes == 0)
        return true;
    if (it == NULL || it->is_blocked)
        return false;
    for (unsigned i = 0; i < it->servers; i++)
        if (strcmp(it->server[i], of->is.name) == 0)
            return true;
    return it->servers == 0;
}

/* Whether another association is up with this identifier. */
static bool is_taken(const association *own, uint32_t asp) {
    for (unsigned i = 0; i < MOST_ASSOCIATIONS; i++)
        if (associations[i] != NULL && associations[i] != own && associations[i]->is_up && associations[i]->has_asp
            && associations[i]->asp == asp)
            return true;
    return false;
}

static bool has_address(const association *own, const configuration_process *it) {
    if (it->address.count == 0 && !it->is_unix)
        return true;
    return own->is_sctp ? transport_has_peer(own, &it->address) : it->is_unix != 0;
}

/* Of the processes with its address: that of its identifier, or else one that needs none. */
static unsigned find(const association *own, const iua_message *up, const configuration_process **found) {
    unsigned code = IUA_BLOCKED;
    *found = NULL;
    for (unsigned i = 0; i < known->processes; i++) {
        const configuration_process *it = &known->process[i];
        if (!has_address(own, it))
            continue;
        if (it->has_identifier && up->has_asp && it->identifier == up->asp) {
            *found = it;
            return IUA_OK;
        }
        if (!it->has_identifier && *found == NULL)
            *found = it;
        code = up->has_asp ? IUA_BAD_ASP : IUA_NO_ASP;
    }
    return *found == NULL ? code : IUA_OK;
}

unsigned process_joins(association *own, const iua_message *up) {
    const configuration_process *it = NULL;
    unsigned code = known == NULL || known->processes == 0 ? IUA_OK : find(own, up, &it);
    if (code == IUA_OK && it != NULL && it->is_blocked)
        code = IUA_BLOCKED;
    if (code == IUA_OK && it != NULL && it->has_identifier && is_taken(own, up->asp))
        code = IUA_BAD_ASP;
    if (code != IUA_OK)
        return code;
    own->has_asp = up->has_asp;
    own->asp = up->asp;
    snprintf(own->process, sizeof own->process, "%s", it == NULL ? "" : it->name);
    return IUA_OK;
}
