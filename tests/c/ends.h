/*
 * ends.h: two cards of octets as the two ends of a line, in beats, each with its timers. In a beat each end comes to the moment,
 * layer 3 asks, and what is due falls due. Then each end gives an octet, and receives one, or noise in its place. This is
 * read from docs/TWO-CARDS.md ("Time"), without any code of the library. For tests alone.
 */
#ifndef ENDS_H
#define ENDS_H

#include <stdbool.h>
#include <stdint.h>

#include "hdlc.h"
#include "lapd.h"

enum { TEI = 5, MOST_IN_TRANSIT = 64, NEVER = -1, NO_NOISE = -1 };

typedef struct {
    lapd_card card;
    bool network;
    int runs_t200, runs_t203;         /* in milliseconds */
    long t200, t203;                  /* when they fall due, or NEVER */
    uint8_t transit[MOST_IN_TRANSIT]; /* octets that were given, and not received yet: a ring */
    int first, count;
    long given, received;             /* octets */
    hdlc_listener own, other;         /* what stands in the octets given, and in those received */
    long last_command, last_response; /* the octet with which such a frame with P or F of 1 ended last, or NEVER */
    long ended[MOST_IN_TRANSIT];      /* of the latest frames the octets with which they ended, and their sums: a ring */
    uint32_t sums[MOST_IN_TRANSIT];
    int frames;
    long lost;                        /* frames that found no place */
} end;

/* What the latest call of a card told. */
extern lapd_report report;

/* What random numbers come from; and one that is less than `most`. */
extern uint64_t chance;
uint32_t below(uint32_t most);

/* What went wrong in the test itself ends it. */
void fails(const char *what);

/* An end whose line has so many flags in transit, with the TEI on its line; and its end. */
void start_end(end *e, const lapd_config *config, int way);
void free_end(end *e);

/* Octets of the longest frame with so many octets of information; and in how many octet times a command is answered at most,
 * if so many control frames may wait at both ends together. */
int longest_frame(int n201);
int answered_in(int n201, int way, int control);

/* T200 for that, in milliseconds, at so many octets a millisecond. */
int enough_t200(int answered, int rate);

int state_of(end *e);

/* Whether a frame is a command of this end, if this end sends it; and its P or F bit. */
bool is_command(const end *e, const uint8_t *frame);
bool has_bit(const uint8_t *frame, size_t length);

/* Layer 3 asks for something of the link. Answers whether it was granted. */
bool ask_end(end *e, long now, uint8_t request, const uint8_t *contents, size_t length);

/* The timer that is due, LAPD_T200 or LAPD_T203, or 0; and it expires. */
uint8_t due(const end *e, long now);
void expire(end *e, long now, uint8_t timer);

/* The next octet is given. Answers whether it ends a frame, which then stands in `own`. */
bool pull(end *e, long now);

/* An octet of the other end comes, or noise in its place. Answers false if noise has made a frame: it stood nowhere in what was
 * given. Then the end does not receive it. */
bool hear(end *e, end *other, int way, long now, int noise);

#endif
