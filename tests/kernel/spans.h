/* spans.h: two spans of DAHDI that are each other's end (dahdi_dynamic_loc), each with one channel, in HDLC mode with its check. */
#ifndef SPANS_H
#define SPANS_H

#include <stdbool.h>

enum { SPAN_OURS = 0, SPAN_PEERS = 1 };

/* Loads DAHDI. */
bool spans_load(void);

/* A span of the two is there, with the path of its channel; or it ends, and layer 1 of the other is lost. False: why is told. */
bool span_begins(int span, char *path, unsigned room);
bool span_ends(int span);

/* The channel, or -1; its next event, or 0; and a frame, with two octets for its check. */
int span_open(const char *path);
int span_event(int file);

#endif
