/*
 * dearest_card.h: a card of one line with eight TEIs, and what can happen to it, for dearest_scenes.c. Its memory can be kept and
 * put back. For tests alone.
 */
#ifndef DEAREST_CARD_H
#define DEAREST_CARD_H

#include <stdbool.h>
#include <stddef.h>
#include <stdint.h>

#include "lapd.h"

enum { TEIS = 8, LINKS = 2 * TEIS, BY_HAND = 4, OTHER_TEI = 90, N201 = 260, HEAD = 4 };

/* Whose card it is, how it reads the standard, who keeps its timers, and whether its queues and windows are as great as can be. */
typedef struct {
    uint16_t side, reading;
    bool has_timers, is_wide;
} kind;

extern lapd_card card;
extern lapd_config config;
extern lapd_report report;

/* The TEIs by their places, V(A) and V(R) of each link, and the number of a terminal's latest request. */
extern uint8_t teis[TEIS], va[LINKS], vr[LINKS], reference[2];

/* Ends the program if it is not so. */
void wants(bool is, const char *what);

/* The next number below this one, as if by lot; the numbers of a seed. */
unsigned below(unsigned most);
void draw(uint32_t seed);

/* The first octet of a command or of a response of the other side (clause 3.3.2). */
uint8_t first_octet(unsigned sapi, bool is_command);

/* A message of the other side, of so many Ai; its length. */
size_t message(uint8_t *octets, uint8_t type, const uint8_t *number, const uint8_t *ai, size_t count);

/* Has the cards of a kind, whose links are in state 7; and brings one of them. See `scene` for both words. */
void begin(const kind *of);
void bring_up(bool is_old, bool is_remembered);

/* The card as it is now is kept; and is put back, except contents that wait: whether none was written over meanwhile. */
void keep(void);
void put_back(void);
bool is_kept(void);

/* What happens. Links are numbered by the places of their TEIs, call control first. */
uint8_t service_of(unsigned link);
void hears(unsigned link, bool is_command, uint8_t control, int second); /* a frame of three octets if `second` is less than 0 */
void says(uint8_t type, uint8_t tei);
uint32_t asks_to_send(unsigned link);

/* All that waits is sent. */
void drain(void);

/* A timer expires of these links, which all started it now; or, of the line, once. */
void expire(uint8_t timer, bool (*which)(unsigned link));

#endif
