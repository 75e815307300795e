/* terminals.h: lines at which the program is a terminal: it asks the network for its TEI, while layer 1 is there. */
#ifndef TERMINALS_H
#define TERMINALS_H

#include "lapd.h"

struct line;

/* A note of TEI management came. */
void terminal_hears(struct line *own, const lapd_note *note);

/* A terminal without a TEI asks for one. At other lines nothing happens. */
void terminal_settle(struct line *own);

/* Two octets by which the network tells terminals apart that ask. */
uint16_t terminal_seed(void);

#endif
