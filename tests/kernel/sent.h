/*
 * sent.h: the judge of the frames that our cards send: what Q.921 says of each, as far as the frames of the link alone tell. So
 * N(R) is V(R), I-frames stay in the window, an enquiry and a command are repeated N200 times at most, and no frame is malformed.
 */
#ifndef SENT_H
#define SENT_H

#include <stdbool.h>
#include <stddef.h>
#include <stdint.h>

/* What the frames of a link tell of it. */
typedef struct {
    uint8_t vr, va;
    uint8_t commands;  /* SABME or DISC that went since one was answered or asked for */
    uint8_t enquiries; /* that went since one was answered */
} link_view;

/* The link is new, or is asked to come up or to go down. */
void sent_link_is_new(link_view *link);
void sent_link_is_asked(link_view *link);

/* A frame comes for the link, in this state of it; and it has come, in that one. */
void sent_comes(link_view *link, uint8_t state, const uint8_t *frame, size_t length);
void sent_came(link_view *link, uint8_t state, const uint8_t *frame, size_t length);

/* Of a frame for a link, the service and the TEI; false if it is for none. */
bool sent_is_of_link(const uint8_t *frame, size_t length, int *service, int *tei);

/* A frame goes; `link` is its link, or NULL. */
void sent_goes(link_view *link, const uint8_t *frame, size_t length);

#endif
