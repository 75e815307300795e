/*
 * link.h: one data link as tests/others plays it, whoever wrote it: TEI 64, SAPI 0, of the network's side, modulo 128, with a
 * window of 2, N200 3, N201 8, T200 1 s and T203 10 s. link.c has the program's words; a file for each stack leads its own
 * link (misdn_link.c, libpri_link.c, lapd_core_link.c), and our_link.c ours.
 */
#ifndef OTHERS_LINK_H
#define OTHERS_LINK_H

#include <stdbool.h>
#include <stddef.h>
#include <stdint.h>

enum { WINDOW = 2, MOST_REPEATS = 3, MOST_OCTETS = 8, T200_TAKES = 1000, T203_TAKES = 10000, TEI = 64 };

/* A state in which a link is put at once. Own and peer busy, the reject exception and `asked` (by layer 3) are on or off. */
typedef struct column {
    int state, asked, repeats, outstanding, unsent, own_busy, peer_busy, reject, timer; /* 0, 200 or 203 */
} column;

/* What happens to a link. Each but the first two is of layer 3 or of the line. */
typedef enum happening { FRAME, T200, T203, ESTABLISH, RELEASE, DATA, BUSY, READY, LEAVE, DOWN } happening;

/* ---- What a stack has ------------------------------------------------------------------------------------------------ */

/* A new link in this state. */
void stack_begin(const column *at);

/* Something happens, with the octets of a frame or of data. Whether it was served. */
bool stack_meets(happening what, const uint8_t *octets, size_t length);

/* The state, 1 to 8. */
int stack_state(void);

/* Whether a difference is to be made alike in what the stack does: a word of the command line (tests/others.d/sequences.py). */
bool is_alike(const char *difference);

/* ---- What a stack tells ---------------------------------------------------------------------------------------------- */

/* A frame goes. */
void sends(const uint8_t *frame, size_t length);

/* Layer 3 or management is told. */
void tells(const char *words);
void tells_error(char letter);

/* A timer, 200 or 203. */
void starts(int timer);
void stops(int timer);
bool runs(int timer);

/* How many frames went since the last event. */
unsigned sent_count(void);

#endif
