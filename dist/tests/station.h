/*
 * station.h: a card that obeys the lines of a script of lapdsim.5, through the C library, and writes the transcript, as
 * `lapdsim run` does. For tests alone.
 */
#ifndef STATION_H
#define STATION_H

#include <stdio.h>

#include "hdlc.h"
#include "lapd.h"
#include "words.h"

enum { MOST_TURNS = 2048 };

/* Octets that are to be taken and given in turn on a line: two steps for each, or one for the last. */
typedef struct {
    uint32_t line;
    uint8_t taken[MOST_TURNS + 1];
    size_t steps;
} station_run;

/* A card with its clock, if it has one, and at each line a terminal that sends and a listener that hears. */
typedef struct {
    FILE *to; /* the transcript */
    lapd_card card;
    lapd_clock clock;
    uint64_t now;
    bool is_timed;    /* the card keeps its own timers, and there is no clock */
    bool by_exchange; /* every pull is one of lapd_exchange; lines `rx LINE OCTET` and `pull LINE 1` in turn are one run of it */
    bool for_frames;
    bool losses;      /* what is given up is shown */
    station_run run; /* what is not handed over yet */
    hdlc_sender senders[LAPD_MOST_LINES];
    hdlc_listener listeners[LAPD_MOST_LINES];
} station;

/* No card yet. The name of the script is told if a call fails that can't; then the program ends with status 3. */
void station_begin(station *b, FILE *to, const char *name);

/* Obeys a line without its line feed. */
fault station_obey(station *b, const char *line, size_t length);

/* Hands over what waits, and frees the card. */
void station_end(station *b);

/* Writes the fault line, if there is a fault. */
void station_fault(FILE *to, fault kind, size_t number);

#endif
