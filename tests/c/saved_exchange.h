/*
 * saved_exchange.h: what interop_saved.c and an exchange, a process of its own (saved_exchange.c), say to each other, over a socket
 * of packets. First comes SAVED_START, or SAVED_RESTORE and then the images of a card and of its clock, each a packet. SAVED_TURN is
 * a millisecond: what comes, what is asked for, and which lines have room for a frame; it is answered by another, of what was told
 * and what goes. SAVED_SAVE is answered by the two images. In place of a clock's image goes one octet if there is no clock.
 */
#ifndef SAVED_EXCHANGE_H
#define SAVED_EXCHANGE_H

#include <stddef.h>
#include <stdint.h>

#include "lapd.h"

enum { SAVED_SOCKET = 3, SAVED_LINES = 4, SAVED_MOST_ITEMS = 64, SAVED_OCTETS_A_MS = 2, SAVED_MOST_IMAGE = 1 << 16 };
/* No divisor of the time between two saves: otherwise each repeated frame would be under way as an exchange is saved. */
enum { SAVED_T200 = 230 };
enum { SAVED_START = 1, SAVED_RESTORE = 2, SAVED_TURN = 3, SAVED_SAVE = 4 };
enum {
    SAVED_FRAME = 1,  /* comes to the card, or goes from it */
    SAVED_OCTETS = 2, /* the same of a card of octets: SAVED_OCTETS_A_MS of them */
    SAVED_ASK = 3,    /* layer 3 asks to send contents */
    SAVED_TOLD = 4    /* a note, with contents if it has some */
};

typedef struct {
    uint8_t what, line;
    uint8_t note, tei, error; /* of a note; and the TEI of a request */
    uint16_t length;
    uint8_t octets[LAPD_MOST_FRAME];
} saved_item;

typedef struct {
    uint8_t kind;
    uint8_t has_room[SAVED_LINES];
    uint16_t count; /* items */
    uint64_t now;
    saved_item items[SAVED_MOST_ITEMS];
} saved_message;

/* How many octets of a message go. */
#define SAVED_OCTETS_OF(message) (offsetof(saved_message, items) + (message)->count * sizeof(saved_item))

#endif
