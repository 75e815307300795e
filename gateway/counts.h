/* counts.h: what the program counts, each number with its name in the metrics. */
#ifndef COUNTS_H
#define COUNTS_H

#include <stdint.h>

#include "iua.h"

#define COUNTS(each) \
    each(iua_received) each(iua_sent) each(iua_errors_received) each(frames_received) each(frames_sent) each(frames_dropped) \
    each(contents_given_up) each(messages_held) each(messages_retrieved) each(messages_lost) each(units_dropped) \
    each(data_refused) each(reads_held) each(links_released) each(links_busied) each(takeovers) each(errors) each(xid)

#define COUNTS_FIELD(name) uint64_t name;

typedef struct {
    COUNTS(COUNTS_FIELD)
    uint64_t iua_errors_sent[IUA_ERRORS];
} counts_of_all;

extern counts_of_all counts;

#endif
