/* processes.h: which processes of servers may join, and for which servers they may be active, as it is configured. */
#ifndef PROCESSES_H
#define PROCESSES_H

#include <stdbool.h>

#include "associations.h"
#include "configuration.h"
#include "iua.h"

struct server;

/* The processes that may join. The caller keeps the configuration. */
void processes_set(const configuration *from);

/* ASP Up came: IUA_OK, or the error that answers it. */
unsigned process_joins(association *own, const iua_message *up);

/* Whether a process that is up may still be so. */
bool process_is_known(const association *own);

/* Whether the process may be active for a server. */
bool process_may_serve(const association *own, const struct server *server);

#endif
