/*
 * counting.h: what a line counts, counted again by tables 5 and 8 of the standard, and not by the library's code: from the
 * frames that came and went, and from what reports tell. For counts.c and gateway_day.c.
 */
#ifndef COUNTING_H
#define COUNTING_H

#include <stdbool.h>
#include <stddef.h>
#include <stdint.h>

#include "lapd.h"

/* What is counted of a line of a card of this side, each at its place. */
typedef struct {
    uint16_t side, n201;
    uint64_t values[LAPD_COUNTERS];
} counting;

/* A frame that was heard or begun, by its first four octets, 0 where it has not so many, and its length. */
void count_head(counting *to, bool is_begun, const uint8_t octets[4], size_t length);

/* The message of TEI management that it has, if it has one. */
void count_message(counting *to, bool is_begun, const uint8_t *octets, size_t length);

/* A frame with a good check came; a frame was given whole. */
void count_heard(counting *to, const uint8_t *octets, size_t length);
void count_given(counting *to, const uint8_t *octets, size_t length);

/* What a report tells. */
void count_told(counting *to, const lapd_report *report);

/* Whether the card has counted the same of the line; says of NAME where it has not. */
bool counts_the_same(const counting *of, lapd_card *card, uint32_t line, const char *name);

#endif
