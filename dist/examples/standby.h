/*
 * standby.h: what layer 3 and standby.c say to each other: datagrams, each a standby_message and its contents. Both ends count what
 * they say. So nothing is done or told twice when a process is killed between a thing and its answer:
 *
 *  - Layer 3 numbers its requests from 1 on, in order, and keeps each until its answer has come. After STANDBY_ACTIVE it asks once
 *    more for all that it keeps. A request with the next number is made; the last one is answered again; another is ignored.
 *  - What is told is numbered from 1 on. After STANDBY_ACTIVE the last of it may come again: layer 3 ignores numbers that it has had.
 */
#ifndef STANDBY_H
#define STANDBY_H

#include <stdint.h>

#include "lapd.h"

enum {
    STANDBY_ASK = 1,    /* layer 3 asks: request, service, tei, contents */
    STANDBY_ANSWER = 2, /* what became of it: its number, and its status */
    STANDBY_TOLD = 3,   /* a note, with the contents of data and unit indications */
    STANDBY_ACTIVE = 4  /* a process is the active one from now on: its process id is the number */
};

typedef struct {
    uint8_t kind;
    uint8_t what; /* the request, or the note */
    uint8_t service, tei;
    uint8_t error;   /* of an error indication: its letter */
    uint16_t length; /* of the contents */
    uint32_t number; /* of the request, or of what is told */
    uint32_t status; /* of an answer */
    uint8_t contents[LAPD_MOST_OCTETS];
} standby_message;

/* How many octets of a message go: all up to its contents' end. */
#define STANDBY_OCTETS(message) (offsetof(standby_message, contents) + (message)->length)

#endif
