/*
 * lines.h: lines and their groups: D-channels with their cards below and their servers above. Layer 1 is told here by drivers,
 * and frames come and go here. links.h has what links mean to a server.
 */
#ifndef LINES_H
#define LINES_H

#include "cards.h"
#include "configuration.h"
#include "drivers/driver.h"
#include "links.h"

struct association;
struct server;

typedef struct group group;
typedef struct line line;

struct line {
    uint32_t identifier;
    group *of;
    card *card;
    unsigned at;         /* its number on the card */
    uint32_t place;      /* in its group */
    const driver *below;
    void *port;          /* of the driver */
    int adopted;         /* the descriptor that another process had; -1: none. The driver takes it as the line opens */
    bool is_up;          /* layer 1 is there */
    bool is_full;        /* the driver has no room */
    bool is_giving;      /* its frame goes at the end of this turn */
    size_t out_length;   /* of a frame that was taken from the card, and did not go yet */
    uint8_t out[LAPD_MOST_FRAME];
    uint64_t activate_at; /* when layer 1 may be asked for again */
    uint64_t grace;       /* restored: layer 1 counts as there until then; 0: it was told */
    sd_event_source *timer;
    uint64_t wake_at; /* what the timer is set to */
    struct server *server;
    struct association *by; /* of the server's active processes, the one that has this line */
    struct capture *capture;
    bool is_changed; /* the standby does not know yet what it is now */
    bool is_asking, is_to_remove; /* of a terminal: it asks for a TEI; it is to give its TEIs up */
    uint64_t ask_at;              /* .. when it asks again */
    bool is_audited;              /* its TEIs are being checked */
    uint8_t audit_place;          /* .. from here on */
    uint64_t audit_at;            /* .. when the next is, or when an audit may begin again */
    uint64_t denied;              /* so many terminals got no TEI */
    uint64_t disown_at;           /* when a terminal may be told again to give up a TEI that the card does not know */
    links links;
};

struct group {
    configuration_group is; /* as it was configured */
    line *lines;
    line **of_cards; /* the same lines, for cards */
    card **cards;
    unsigned card_count;
    bool is_restored; /* its lines go on from a saved state */
};

extern unsigned line_count;
extern line *lines[MOST_LINES]; /* in the order of their identifiers */
extern bool lines_log_frames;

/* A group begins: its cards, with no TEI yet. False: fault says why. */
bool group_start(const configuration_group *from, const char **fault);

/* Its lines begin: TEIs that are set by hand, drivers, links. If it was restored, they go on instead. */
bool group_begin(group *own);

/* The servers of its lines hear that links go down; then it ends. */
void group_retire(group *own);
void group_end(group *own);

extern unsigned group_count;
extern group *groups[MOST_GROUPS];

/* The line of an identifier, or NULL. */
line *line_of(uint32_t identifier);

/* Drivers tell: layer 1 is there, or was lost; a frame came; a fault came in place of one; there is room for frames again. */
void line_up(line *own);
void line_down(line *own);
void line_frame(line *own, const uint8_t *frame, size_t length);
void line_failed(line *own, uint8_t cause);
void line_has_room(line *own);

/* A line ends. */
void lines_forget(const line *own);

/* The line is to be looked at no later than at this moment: its links are settled then. */
void line_wake(line *own, uint64_t moment);

int line_is_due(sd_event_source *source, uint64_t time, void *user); /* its timer */

/* Which side of the line the program is: LAPD_NETWORK and so on. */
uint16_t line_side(const line *own);

/* For the end of each turn of the loop: the next frame of each line is taken whose driver has room, and the timers of cards run
 * anew. Then they go. True: there may be more. */
void lines_take(void);
bool lines_give(void);

#endif
