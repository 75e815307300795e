/*
 * cards.h: our cards, and what their layer 3, which is here, knows of their links. It judges what they tell and what they send, and
 * hands the messages that come to their judge. As terminals of a bus each is a card of its own; otherwise there is one.
 */
#ifndef CARDS_H
#define CARDS_H

#include <stdbool.h>
#include <stddef.h>
#include <stdint.h>

#include "lapd.h"
#include "sent.h"

enum { MOST_CARDS = 8, FIRST_FIXED_TEI = 10 };

/* A link of a card, as its layer 3 knows it. */
typedef struct {
    bool is_up, is_establishing, is_releasing, is_busy;
    uint64_t ready_at; /* while it is busy */
    link_view view;
} our_link;

typedef struct {
    unsigned errors[128]; /* by their letter */
    unsigned assigned, removed, doubled, restarts, removals, checks, refusals;
} card_counts;

extern card_counts our_counts;
extern int card_count;

void cards_begin(void);
void card_start(int card);
void cards_free(void);
lapd_card *card_at(int card);
our_link *our_link_at(int card, int service, int tei);
uint8_t lapd_service(int service);

/* A TEI that an error has made doubtful (table II.1 of Q.921), or 0; and whether a terminal asks for a TEI. */
int *card_doubt(int card);
bool *card_is_asking(int card);

/* The time first: what is asked for after it happens at this moment. */
void card_pass(int card);

/* After a request: the notes of its report, if it is not refused, and the frames that wait. A refusal is noted. Whether it was
 * accepted. */
bool card_asked(int card, uint32_t status, const lapd_report *report, const char *what);

/* All that has come, waiting so many milliseconds at most. */
void cards_serve(int patience);

#endif
