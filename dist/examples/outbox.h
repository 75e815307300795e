/*
 * outbox.h: layer 3's copies of what it sends on a link, so that it sends again, first and in order, what the link gives up
 * (docs/EMBEDDING.md, "While layer 3 asks"). Include it in the file that has your layer 3:
 *
 *     static outbox calls;                               of one link
 *     if (report.given_up_tei == tei)                    of each report, also one without notes
 *         outbox_gave_up(&calls, report.given_up);       of packet mode given_up_16
 *     outbox_send(&calls, &card, line, LAPD_CALL, tei, layer_3);       last, for each report
 *
 *     if (!outbox_enter(&calls, octets, length))         a new message
 *         ... it is full ...
 *     outbox_send(&calls, &card, line, LAPD_CALL, tei, layer_3);
 *
 * An outbox takes OUTBOX_COPIES * 272 octets and 8 more, on 64 bits: 8,712 by default.
 */
#ifndef OUTBOX_H
#define OUTBOX_H

#include <string.h>

#include "lapd.h"

#ifndef OUTBOX_QUEUE
#define OUTBOX_QUEUE 8 /* `queue` of the card: a link keeps, and gives up, so many contents at most */
#endif
#ifndef OUTBOX_COPIES
#define OUTBOX_COPIES 32 /* a power of two up to 256, and more than OUTBOX_QUEUE: the others may wait */
#endif

typedef struct {
    struct {
        uint8_t octets[LAPD_MOST_OCTETS];
        size_t length;
    } copies[OUTBOX_COPIES];
    uint8_t next, waiting; /* so many wait, from copies[next] on; those before it were granted */
    bool is_sending;
} outbox;

/* Keeps a new message. False if as many wait as may, or if it is too long. */
static inline bool outbox_enter(outbox *own, const uint8_t *octets, size_t length) {
    if (own->waiting >= OUTBOX_COPIES - OUTBOX_QUEUE || length > LAPD_MOST_OCTETS)
        return false;
    size_t place = (size_t)(own->next + own->waiting++) % OUTBOX_COPIES;
    memcpy(own->copies[place].octets, octets, length);
    own->copies[place].length = length;
    return true;
}

/* The newest so many that were granted wait again, before all others. */
static inline void outbox_gave_up(outbox *own, uint8_t count) {
    own->next = (uint8_t)((own->next + OUTBOX_COPIES - count) % OUTBOX_COPIES);
    own->waiting = (uint8_t)(own->waiting + count);
}

/* Sends what waits, as far as the card grants it. What it refuses waits for a later report. Layer 3 reads the report of each
 * request, and may call this again. */
static inline void outbox_send(outbox *own, lapd_card *card, uint32_t line, uint8_t service, uint8_t tei,
                               void (*layer_3)(const lapd_report *)) {
    static lapd_report asked;
    if (own->is_sending)
        return;
    own->is_sending = true;
    while (own->waiting > 0 && lapd_data(card, line, service, tei, own->copies[own->next].octets,
                                         own->copies[own->next].length, &asked) == LAPD_OK) {
        own->next = (uint8_t)((own->next + 1) % OUTBOX_COPIES);
        own->waiting--;
        layer_3(&asked);
    }
    own->is_sending = false;
}

#endif
