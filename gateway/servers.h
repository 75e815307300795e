/* servers.h: application servers: who of their processes is active, who has which line, and what waits for the next process. */
#ifndef SERVERS_H
#define SERVERS_H

#include <stdbool.h>
#include <stddef.h>
#include <stdint.h>
#include <systemd/sd-event.h>

#include "associations.h"
#include "configuration.h"
#include "iua.h"

enum { MOST_HELD = 512 << 10 }; /* octets that wait for a server's next process */

typedef struct server server;

struct server {
    configuration_server is;
    uint32_t state; /* IUA_SERVER_DOWN and so on */
    bool is_active[MOST_ASSOCIATIONS];
    sd_event_source *timer; /* T(r) */
    queue held;             /* for the next process */
    bool has_served;        /* as its state was saved, it had a process, or was waiting for one */
};

extern unsigned server_count;
extern server *servers[MOST_SERVERS];
extern bool servers_are_ending; /* the program ends: all links are busy */

/* A server begins. False: there is no memory. */
bool server_start(const configuration_server *from);
void server_end(server *own);

/* The server of a line's identifier, or NULL. */
server *server_of(uint32_t identifier);

/* A note goes to the process that has the line. False: there is none, and the note stays owed. */
bool server_tell(struct line *own, const iua_octets *out);

/* Contents go there, or wait for the next process. False: they are lost. */
bool server_give(struct line *own, const iua_octets *out);

/* Whether links of the line are to be busy. */
bool server_is_congested(const struct line *own);

/* A process is up: it is told of each server. Or it is up no more. */
void servers_hear_up(association *process);
void servers_hear_down(association *process);

/* A process is active for a server, or is so no more. */
void server_activate(server *own, association *process);
void server_deactivate(server *own, association *process);

/* The server is pending from now on, as it had a process when its state was saved. */
void server_wait(server *own);

/* Lines have processes anew, and their links are settled. */
void server_share(server *own);

/* A line ends. */
void servers_forget(struct line *own);

#endif
