/*
 * associations.h: associations with processes of application servers (ASPs), by SCTP or by a Unix socket.
 *
 * SCTP's acknowledgements are the kernel's, also for a process that hangs. So a numbered heartbeat of IUA goes each second, and
 * after 4 KB; its answer vouches for what was sent before it. Until then an association keeps all messages of links, which go to
 * the server's next process if this one ends.
 */
#ifndef ASSOCIATIONS_H
#define ASSOCIATIONS_H

#include <stdbool.h>
#include <stddef.h>
#include <stdint.h>
#include <systemd/sd-event.h>

#include "configuration.h"
#include "iua.h"
#include "queue.h"
#include "watches.h"

enum {
    MOST_ASSOCIATIONS = 32,
    HIGH_WATER = 64 << 10, /* octets that are not vouched for make links busy */
    LOW_WATER = 16 << 10,  /* .. until they are so few */
    HARD_LIMIT = 1 << 20,  /* .. and so many end the association */
    BEAT_OCTETS = 4096,    /* a heartbeat follows so many */
    HOLD_MS = 1000,        /* a line may hold an association for so long */
    PEER_ROOM = 80
};

struct line;
struct server;

typedef struct association association;

struct association {
    unsigned number;
    int fd;
    bool is_sctp;
    unsigned streams; /* that go */
    char peer[PEER_ROOM]; /* for the log */
    watch watch;
    sd_event_source *timer;
    bool is_up; /* the process said ASP Up, and not ASP Down since */
    bool has_asp;
    uint32_t asp; /* its identifier */
    char process[NAME_ROOM]; /* which of the configuration it is; empty: none is configured */
    const char *broken; /* why it ends at the end of this turn */
    bool is_full;       /* the socket takes no more for now */
    bool is_shut;       /* nothing goes any more, and what comes is read until its end */
    bool is_congested, is_changed; /* its links are busy; that changed, and they do not know it */
    uint64_t beat_at, beat_late; /* when the next heartbeat goes, and when no answer is late */
    uint32_t beat_sent, beat_heard;
    size_t since_beat;
    struct line *held; /* this line has no room, so nothing is read for now */
    uint64_t held_until;
    queue out;      /* what the process did not vouch for, and then what was not sent */
    queued *unsent; /* the first of these, or NULL */
    size_t unsent_octets;
};

extern association *associations[MOST_ASSOCIATIONS]; /* or NULL */
extern uint32_t associations_beat; /* milliseconds between heartbeats */

/* A process joins, at this descriptor. False: there is no room. */
bool association_begin(int fd, bool is_sctp, unsigned streams, const char *peer);

/* A message goes to the process. False: the association ends, and the message was not taken. */
bool association_send(association *own, uint32_t identifier, const iua_octets *out);

/* The association ends, at the end of this turn. */
void association_break(association *own, const char *why);

/* The process said ASP Up, or ASP Down: heartbeats begin, or end. */
void association_set_up(association *own, bool is_up);

/* It answered a heartbeat with this number. */
void association_vouched(association *own, uint32_t number);

/* Nothing more is read until a line has room. */
void association_hold(association *own, struct line *until);

/* What its process did not vouch for, and was for this server, goes to a queue. */
void association_hand_back(association *own, const struct server *of, queue *back);

/* For the end of each turn: lines hear of marks that were passed, and associations end that are broken. True: something happened
 * at lines. Then messages go. True: there is something to settle. */
bool associations_settle(void);
bool associations_flush(void);

/* A line ends, and holds nobody. */
void associations_forget(const struct line *own);

/* The program ends: a last heartbeat asks each process. Associations are shut as that is answered, or at once. */
void associations_end(void);
void associations_shut(bool at_once);
bool associations_are_there(void);

#endif
