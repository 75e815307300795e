/*
 * links.h: what a link means to a server. Nothing is queued for a server but contents: what is owed to it is the difference
 * between what a link is and what the server was told of it last. So a server that was away, or a process that takes over, is
 * told what it lacks, and no more.
 *
 * A link is busy while no process has its line, or a slow one. A release goes after the data before it, if that takes no longer
 * than a second. What a link loses in the gateway itself is told by a release of the link, as IUA has no other word for it.
 */
#ifndef LINKS_H
#define LINKS_H

#include <stdbool.h>
#include <stddef.h>
#include <stdint.h>

#include "lapd.h"
#include "queue.h"

enum { MOST_OF_LINK = 64, MOST_OF_LINE = 256 }; /* contents that wait in front of a link, and of a line */
enum { RELEASE_MS = 1000 };                      /* data before a release have so long */

struct line;

/* A link, as far as its card does not know it. */
typedef struct {
    bool is_used;
    uint8_t service, tei;
    bool is_told_up;     /* the server believes that it is up */
    bool is_told_down;   /* it knows that it is down: data for it is an error */
    bool is_warned;      /* .. and was told that error */
    bool is_anew;        /* it was established since the server was told of it */
    bool owes_establish; /* the server asked for it, and is not answered yet */
    bool owes_release;
    bool is_busy;        /* own busy was asked for */
    bool is_wanted;      /* the gateway itself establishes it, until the server asks for a release */
    bool was_up;         /* as layer 1 was lost */
    uint8_t reason;      /* of the next release indication */
    uint32_t again_ms;   /* how long the gateway waits before it establishes it again */
    uint64_t again_at;
    uint64_t release_by; /* data before a release have time until then */
    queue waiting;       /* contents, for which the card has no room yet */
} link_record;

typedef struct {
    link_record *at;
    unsigned count;
    bool is_settling, is_stale;   /* it is being settled; and has to be once more */
    bool is_beginning;            /* layer 1 is back: its links begin anew, and that they go down before is no news */
    bool is_unsettled;            /* something is under way that no note may tell */
    bool owes_teis;               /* TEIs may differ from what was told */
    bool is_short;                /* a link found no record, since others are owed something */
    uint64_t told_teis[2];        /* by TEI: the server knows it */
} links;

/* Room for the links of a line. False: there is no memory. */
bool links_begin(links *own, unsigned terminals);
void links_end(links *own);

/* A call of the card led to this. */
void links_report(struct line *own, const lapd_report *report);

/* What is owed is told, and what is to be asked is asked. */
void links_settle(struct line *own);

/* Contents that came go to the server. False: they are lost. */
bool links_tell_contents(struct line *own, bool is_unit, const lapd_note *note, const uint8_t *contents, size_t length);

/* A record for each link that is up and has none yet. */
void links_find_all(struct line *own);

/* The record of a link: a new one if there is none. NULL: there is no room, as more links are owed something than there are. */
link_record *links_find(struct line *own, uint8_t service, uint8_t tei);

/* Layer 1 is lost: to be called before the links go down. It is back: those that were up are established anew. */
void links_lose_layer1(struct line *own);
void links_have_layer1(struct line *own);

/* The gateway itself establishes a link of call control from now on. */
void links_want(struct line *own, uint8_t tei);

/* The line ends: its links go down, and the server hears of it. */
void links_retire(struct line *own);

/* Contents of a link are lost: it is released. */
void links_lost(struct line *own, uint8_t service, uint8_t tei);

/* A message with these marks was given up before any process had it: if it is a note, it is owed again. */
void links_untold(struct line *own, uint8_t class, uint8_t type, uint8_t service, uint8_t tei);

/* A link, or the line, has no room for more contents; and the links that have none are released. */
bool links_are_full(const struct line *own);
void links_release_full(struct line *own);

/* Contents that wait in front of the line. */
unsigned links_waiting(const struct line *own);

#endif
