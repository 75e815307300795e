/* A script's lines as words, numbers and octets: the language of lapdsim.5. For tests alone. */
#ifndef WORDS_H
#define WORDS_H

#include <stdbool.h>
#include <stddef.h>
#include <stdint.h>

#include "lapd.h"

#ifdef __cplusplus
extern "C" {
#endif

enum { MOST_LINE = 4096 };

/* What a line can be faulty in, in the order in which it is told. */
typedef enum {
    NO_FAULT,
    TOO_LONG,
    UNKNOWN_WORD,
    BAD_NUMBER_OF_WORDS,
    BAD_NUMBER,
    BAD_OCTETS,
    BAD_CAUSE,
    NO_CARD,
    SECOND_CARD,
    BAD_CARD,
    WRONG_CARD,
    BAD_LINE,
    BAD_FRAME,
    TIME_OVER,
    NO_MEMORY
} fault;

const char *fault_text(fault kind);

typedef enum { CARD, RX, IN, PULL, FAILED, NEXT, WAIT, TIMERS, STORED, LOSSES, SAVE, RESTORE, COUNTERS, MESSAGES, DOWN, REQUEST } verbs;

/* A line that was read: what it says, before a card is asked. */
typedef struct {
    verbs verb;
    uint8_t request, service; /* of a REQUEST */
    uint8_t cause;            /* of FAILED, as in a report */
    bool for_frames;          /* of a CARD */
    lapd_config config;       /* of a CARD; SAPI 0 of the line is 65535 in it, since 0 means 16 there */
    uint32_t numbers[4];      /* of others: the line, then what follows it; of TIMERS the lengths */
    uint8_t octets[MOST_LINE / 2];
    size_t length;
} command;

/* Reads the next line of standard input, up to its line feed or the end: its first MOST_LINE octets, and how many it has.
 * Answers false where nothing is left. */
bool next_line(char *line, size_t *length);

/* Reads a line without its line feed. */
fault read_command(const char *line, size_t length, command *read);

#ifdef __cplusplus
}
#endif

#endif
