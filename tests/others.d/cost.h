/*
 * cost.h: what a frame costs in another's stack, in time and in memory. cost.c has the program's words; a file for each stack
 * (misdn_cost.c, libpri_cost.c, lapd_core_cost.c) has its links, over the same stubs as for the comparison: so timers are only
 * noted, and a buffer is a block of the heap.
 */
#ifndef OTHERS_COST_H
#define OTHERS_COST_H

#include <stddef.h>
#include <stdint.h>

/* Four basic lines with as many TEIs as a bus may have, and N201 and k of basic access. */
enum { LINES = 4, TEIS = 8, LINKS = LINES * TEIS, FIRST = 64, WINDOW = 1, MOST_OCTETS = 260, INFORMATION = 64 };

/* The links, in state 4: the one at I has TEI `FIRST + I % TEIS`. */
void stack_starts(void);

/* A frame comes to a link. */
void stack_hears(unsigned link, const uint8_t *frame, size_t length);

/* Layer 3 has data sent. */
void stack_sends(unsigned link, const uint8_t *octets, size_t length);

/* A stack tells that a frame goes. */
void goes(const uint8_t *frame, size_t length);

#endif
