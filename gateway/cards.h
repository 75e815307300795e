/*
 * cards.h: the cards of lapd.h, each with the timer that tells it the time. All that changes a card goes through here. What a
 * call leads to is told to links.h, at once, and frames go at the end of each turn of the loop (lines_give).
 *
 * Layer management has an automatic TEI checked, or at a terminal verified, after each of the errors C, D, G and H (Q.921,
 * appendix II): there may be a second terminal with it, or none any more.
 */
#ifndef CARDS_H
#define CARDS_H

#include <stdbool.h>
#include <stddef.h>
#include <stdint.h>
#include <systemd/sd-event.h>

#include "lapd.h"

typedef struct card card;
struct line;

struct card {
    lapd_card own;
    lapd_config config;
    struct line **lines; /* by their numbers on the card */
    sd_event_source *timer;
    unsigned depth; /* so many reports are being told, one because of the other */
    bool is_listed; /* in the list of cards at which something happened */
    card *next;
};

/* A card with these lines. NULL: fault says why. */
card *card_start(const lapd_config *config, const lapd_lengths *lengths, struct line **lines, const char **fault);
void card_end(card *own);

/* Whether an image is that of a card like this one: then `to`, which is none before, goes on from it. */
bool card_read(const card *own, const uint8_t *image, size_t length, lapd_card *to);

/* Another card takes the place of the present one, and is none afterwards. */
void card_replace(card *own, lapd_card *with);

/* It is now: what is due expires. */
void card_advance(card *own);

/* A frame came, without its check, or a fault in place of one. The first answers why the frame was dropped, as a report has it.
 * */
uint8_t card_frame(card *own, unsigned line, const uint8_t *frame, size_t length);
void card_failed(card *own, unsigned line, uint8_t cause);

/* Asks as by lapd_request, and answers its status. */
uint32_t card_ask(card *own, unsigned line, uint8_t request, uint8_t service, uint8_t tei, const uint8_t *contents, size_t length);

/* Layer 1 of a line is lost: its links go down. */
void card_down(card *own, unsigned line);

/* Takes the next frame of a line to send. False: none waits. */
bool card_take(card *own, unsigned line, uint8_t frame[LAPD_MOST_FRAME], size_t *length);

/* The state of a link, 4 to 8; 0: its TEI is not on the line. */
uint8_t card_state(card *own, unsigned line, uint8_t service, uint8_t tei);

/* Something happened at a card, or may have. */
void card_is_changed(card *own);

/* A card at which something happened, or NULL; and all was done for it: its timer runs anew. */
card *cards_first(void);
void card_is_done(card *own);

#endif
