/*
 * dearest.h: a card at a moment, for dearest.c: in which states its links are, and what goes on in its management of TEIs. For
 * tests alone.
 */
#ifndef DEAREST_H
#define DEAREST_H

#include "dearest_card.h"

/* What layer 3 has asked a link to send: nothing; one contents; as many as its queue has places; one more, which was refused, so that
 * the link waits for room. */
typedef enum { EMPTY, ONE, FULL, REFUSED, FILLINGS } filling;

/* How a link is. */
typedef struct {
    unsigned state; /* 4 to 8 */
    bool own_busy, peer_busy, rejects;
    bool answers_wait; /* as many as have room */
    bool is_begun_anew; /* in state 5: after an error, and layer 3 did not ask */
    filling filled;
} link_scene;

/* How many things can go on in the management of TEIs, at each side; 0 is nothing. */
enum { OF_NETWORK = 10, OF_TERMINAL = 11 };

typedef struct {
    link_scene links; /* all of them; or each is as if by lot */
    bool is_by_lot;
    bool is_old; /* numbers of frames are about to begin anew, and queues begin in the middle of their room */
    bool is_remembered; /* of the network's side: four of the TEIs were asked for, the last four of the line */
    unsigned procedure, messages; /* what goes on; of the network's side, how many messages wait besides */
} scene;

/* Has a card stand so, if there can be one. */
bool is_possible(const kind *of, const scene *wanted);
void prepare(const kind *of, const scene *wanted);

void tell_scene(const kind *of, const scene *told);

#endif
