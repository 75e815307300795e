/*
 * linecard.h: what exchange.c, hardware.c and terminal.c do alike. A card with one line, which keeps its own timers: notes go
 * to layer 3, and each timer expires at its moment. What layer 3 does with a message is each program's own. Layer management has
 * an automatic TEI checked, or at a terminal verified, after each of the errors C, D, G and H (Q.921, appendix II): there may be
 * a second terminal with it, or none any more.
 */
#ifndef LINECARD_H
#define LINECARD_H

#include <poll.h>
#include <stdbool.h>
#include <stddef.h>
#include <stdint.h>
#include <stdio.h>

#include "lapd.h"
#include "trace.h"

typedef struct linecard linecard;

struct linecard {
    const char *program; /* its name, for what it says of faults */
    bool (*message_came)(linecard *own, const lapd_note *note, const uint8_t *contents, size_t length);
    bool (*changed)(linecard *own, const lapd_note *note); /* a note of no contents came, where layer 3 does something; or NULL */
    FILE *record; /* where all that happens is written as a script of lapdsim.5, or NULL */
    trace *log;   /* or NULL */
    uint16_t side; /* of the card, as its configuration has it: LAPD_NETWORK, if it is not set */
    lapd_card card;
    uint64_t start, now; /* milliseconds of the system's monotonic time, and since the start */
};

/* The card, but for its kind, and the numbers that a script has for it; and how long its timers run. */
extern const lapd_config linecard_config;
extern const lapd_lengths linecard_lengths;
#define LINECARD_NUMBERS "1 8 1 8 4 4 132 260 3 3"

/* A call that can only fail by a fault of the program; says which, where it fails. */
bool linecard_is_ok(const linecard *own, uint32_t status, const char *call);

/* Whether the first word is --trace: then a log of all at a card of this side goes to standard error, and the word is taken off.
 * A card of octets is asked for one octet each way in a call then (trace_heads). */
bool linecard_traces(linecard *own, uint16_t side, int *words, char ***word);

/* Hands the notes of a report to layer 3. */
bool linecard_tell(linecard *own, const lapd_report *report);

/* Layer 3 asks for something by a request without contents, which the record calls so; a refusal is told. Of a terminal that
 * asks for a TEI, the TEI is LAPD_GROUP_TEI. */
bool linecard_ask(linecard *own, const char *name, uint8_t request, uint8_t tei);

/* Layer 3 sends a message on the link of this note. */
bool linecard_send(linecard *own, const lapd_note *note, const uint8_t *octets, size_t length);

/* Waits until the line is ready, for so many milliseconds at most (-1: it doesn't matter), and no longer than until a timer falls
 * due, nor than ten seconds: so who looks for a signal after it sees one that came just before it. Then it is now, own->now: each
 * timer that fell due meanwhile expires at its own moment. So nobody waits without telling the time. The line may be NULL. */
bool linecard_wait(linecard *own, struct pollfd *line, int most);

/* Time starts, with the card: this is what its start answered. */
bool linecard_begin(linecard *own, uint32_t status);

/* Tells all terminals to give up the TEIs that they still use: the card knows none of them. */
bool linecard_disown(linecard *own);

/* Frees the card, and closes the record; whether it was written. */
bool linecard_end(linecard *own);

/* Opens a file to write; says why not, and answers NULL, where that fails. */
FILE *linecard_open(const linecard *own, const char *path);

/* Closes a file, if there is one; says so of the file's name, and answers false, where not all of it was written. */
bool linecard_close(const linecard *own, FILE *file, const char *name);

/* Writes octets as a script has them, and ends the line. */
void put_octets(FILE *to, const uint8_t *octets, size_t length);

#endif
