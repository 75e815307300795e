/*
 * teis.h: TEI management of one line as tests/others plays it, whoever wrote it: the network's side of a bus, or a terminal
 * of one TEI. teis.c has the program's words; misdn_teis.c, libpri_teis.c and our_teis.c are the stacks.
 */
#ifndef OTHERS_TEIS_H
#define OTHERS_TEIS_H

#include <stdbool.h>
#include <stddef.h>
#include <stdint.h>

enum { GROUP = 127, MESSAGE_OCTETS = 8, T201_TAKES = 1000, T202_TAKES = 2000, REPEATS = 3 };

/* ---- What a stack has ------------------------------------------------------------------------------------------------ */

/* A new line, at which no TEI is. */
void stack_begin(bool is_network);

/* A frame comes. */
void stack_hears(const uint8_t *frame, size_t length);

/* The timer of TEI management that runs expires: T201 of the network's side, T202 of a terminal. */
void stack_expires(void);

/* A terminal asks for a TEI; it has its TEI verified. */
void stack_asks(void);
void stack_verifies(void);

/* Whether a TEI is on the line. */
bool stack_has(int tei);

/* ---- What a stack tells ---------------------------------------------------------------------------------------------- */

/* A frame goes. Messages of TEI management alone are told. */
void sends(const uint8_t *frame, size_t length);

/* The timer. */
void starts(void);
void stops(void);

#endif
