/*
 * trace.h: a log of what happens at a card, in words: each frame, `<` one that came and `>` one that goes, and below it what
 * it led to: notes, why it was dropped, what was lost, orders for timers (`start t203 64`), and states of links that are others
 * than before. A card that keeps its own timers has no orders: of it the log tells which timers expired.
 *
 *     0.120 0 < sapi 0 tei 64 command sabme p 1 info -
 *     0.120 0   establish-indication 64
 *     0.120 0   state 64: 4 (TEI assigned) to 7 (multiple frame established)
 *     0.120 0 > sapi 0 tei 64 response ua f 1 info -
 *     10.120 0   expired t203 64
 *     10.120 0   state 64: 7 (multiple frame established) to 8 (timer recovery)
 *     10.120 0 > sapi 0 tei 64 command rr nr 0 p 1
 *
 * Each line begins with the seconds and the line of the card.
 */
#ifndef TRACE_H
#define TRACE_H

#include <stdbool.h>
#include <stddef.h>
#include <stdint.h>
#include <stdio.h>

#include "lapd.h"

enum { TRACE_PLACES = 254 };

/* A log, with the states of links that it told last, and how many frames were heard until then; begins as zeros but for where it
 * goes, the side of the card, and the SAPI of the second service, if it is another than 16. */
typedef struct {
    FILE *to;
    uint16_t side, sapi;
    uint8_t states[LAPD_MOST_LINES][TRACE_PLACES];
    uint64_t heard[LAPD_MOST_LINES];
} trace;

/* A frame that came or goes, without its check. Of its `length` octets the first `known` are there: all, or those that
 * lapd_heard tells. */
void trace_frame(trace *log, uint64_t milliseconds, uint32_t line, bool is_sent, const uint8_t *octets, size_t known,
                 size_t length);

/* Of a card of octets: the frame that was heard since the call before, if one was, and the one that a pull began, if the report
 * says so. To be called with each report, and after each octet that comes: then frames are whole, except of one that is too long
 * its first four octets. With up to four octets between two calls, a frame that came has its first four: no two end in so few.
 * At a card of frames nothing is told. */
void trace_heads(trace *log, uint64_t milliseconds, lapd_card *card, const lapd_report *report);

/* Which timer expired: for a report of lapd_fall_due, before trace_report of it. */
void trace_expiry(trace *log, uint64_t milliseconds, const lapd_report *report);

/* What a report tells, and which links of its line are in another state than before. */
void trace_report(trace *log, uint64_t milliseconds, lapd_card *card, const lapd_report *report);

#endif
