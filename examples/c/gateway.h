/*
 * gateway.h: the data link layer of a gateway with many D-channels, whose drivers give and take whole frames: a card that
 * keeps its own timers, a log of it, and what a whole line needs.
 *
 *     gateway own = GATEWAY_NONE;
 *     own.on_report = layer_3;
 *     uint32_t status = gateway_start(&own, &config, &lengths);
 *     for (uint32_t line = 0; status == LAPD_OK && line < config.lines; line++)
 *         status = gateway_disown(&own, line);
 *     ... wait for a frame, for room in a controller, or until the moment of lapd_next_moment at the latest; now = ..; then ...
 *     status = gateway_advance(&own, now);
 *     ... each frame that came: gateway_frame(&own, now, ..); then ...
 *     for (uint32_t line = 0; lapd_next_waiting(&own.card, line, &line) == LAPD_OK;)
 *         ... if the controller of this line has room for a frame: gateway_take(&own, now, ..); else line++ ...
 *     ... and so on ...
 *     gateway_end(&own);
 *
 * Each call that may start a timer takes the moment that is now, in milliseconds from any origin, and advances to it first, so
 * that nobody forgets it. A gateway has no lock: one call at a time, except that on_report may make each but gateway_start and
 * gateway_end. These happen at own->now, whatever moment it hands over.
 *
 * Layer management has an automatic TEI checked, or at a terminal verified, after each of the errors C, D, G and H (Q.921, appendix
 * II), if on_report did not ask for that: there may be a second terminal with it, or none any more. Each TEI from 64 on counts
 * as automatic, whoever put it on the line. So set one of 0 to 63 by hand (clause 3.3.4.1): a check that nobody answers takes
 * its TEI off the line.
 *
 * Each call answers LAPD_OK: it did what it says. Else, as lapd.h says of it, what was wrong, and nothing has changed, except the
 * moment: LAPD_NO_CARD (the gateway was not started), LAPD_WRONG_LINE, LAPD_WRONG_TIME of a moment, and what stands at each call.
 */
#ifndef GATEWAY_H
#define GATEWAY_H

#include <stdbool.h>
#include <stddef.h>
#include <stdint.h>

#include "lapd.h"
#include "trace.h"

typedef struct gateway gateway;

/* A gateway, which begins as GATEWAY_NONE; its callback is set before the start. */
struct gateway {
    /* What an event led to, at report->line, where it led to notes, contents, a drop, a loss or room, or gave something up: that is
     * of report->given_up_tei, also if there is no note, as of a release that is granted. */
    void (*on_report)(gateway *own, const lapd_report *report);
    lapd_card card;
    uint64_t now; /* the latest moment that it was told */
    trace *log;   /* where all that happens is told in words, or NULL; its side and sapi are those of the configuration */
    bool is_told; /* on_report is being called */
};

#define GATEWAY_NONE { NULL, LAPD_CARD_NONE, 0, NULL, false }

/* Starts the card, at moment 0. LAPD_SECOND_START, the first bad field of the configuration (LAPD_BAD_LINES to
 * LAPD_BAD_READING, or LAPD_BAD_RESERVED, also of the lengths), LAPD_WRONG_TIME of a length, or LAPD_NO_MEMORY: none that was
 * not there before is there. */
LAPD_STATUS gateway_start(gateway *own, const lapd_config *config, const lapd_lengths *lengths);

/* Tells all terminals of a line to give up the TEIs that they still use, twice, since one message may be lost. It is called
 * after the start, as the card knows none of them, except of a line whose TEIs are set by hand. LAPD_REFUSED_TEI_TAKEN: one
 * is on the line. LAPD_REFUSED_CONTROL_FULL: take frames and call again. LAPD_REFUSED_WRONG_SIDE: on the user's side. */
LAPD_STATUS gateway_disown(gateway *own, uint32_t line);

/* Gives back what the start took; the gateway can be started again. Where it was not started nothing happens. */
void gateway_end(gateway *own);

/* It is now this moment: each timer that is due expires, once, and what it starts runs from now on, however late the call
 * is. What has come meanwhile is handed over after it, so a link whose answer waits in a driver for so long asks again.
 * LAPD_WRONG_TIME: the moment is before the last one, or 2^63 and later. */
LAPD_STATUS gateway_advance(gateway *own, uint64_t now);

/* A frame came, without its check, which was good. */
LAPD_STATUS gateway_frame(gateway *own, uint64_t now, uint32_t line, const uint8_t *frame, size_t length);

/* The controller of a line told a fault in place of a frame. LAPD_WRONG_CAUSE, as of lapd_frame_failed. */
LAPD_STATUS gateway_frame_failed(gateway *own, uint32_t line, uint8_t cause);

/* Layer 3 or management asks for something, as by lapd_request_with: LAPD_REFUSED_BAD_TEI to LAPD_REFUSED_CONTROL_FULL,
 * or LAPD_REFUSED_WRONG_SIDE, where it is refused; LAPD_WRONG_REQUEST, LAPD_WRONG_SERVICE, LAPD_WRONG_LENGTH. */
LAPD_STATUS gateway_ask(gateway *own, uint64_t now, uint32_t line, uint8_t request, uint8_t service, uint8_t tei,
                        const uint8_t *contents, size_t length);

/* Layer 1 of a line is lost: each of its links is given up, with all that waits on the line, and on_report hears of each
 * that was not down. A check that runs ends. TEIs stay. Ask for nothing there until layer 1 is back, nor in on_report
 * meanwhile: what is asked for then may wait, and its timer runs. */
LAPD_STATUS gateway_down(gateway *own, uint32_t line);

/* Takes the next frame of a line to send, without a check; *more says whether another waited after it. It counts as sent
 * from now on, and T200 of an I-frame runs: take one when the controller has room for it. LAPD_NO_FRAME: none waits.
 * LAPD_WRONG_LENGTH: `room` is less than n201 and four; LAPD_MOST_FRAME is always enough. */
LAPD_STATUS gateway_take(gateway *own, uint64_t now, uint32_t line, uint8_t *frame, size_t room, size_t *length,
                         bool *more);

/* Management asks whether the next automatic TEI of a line, from *place on, is still in use: *place is 0 for the first,
 * and each call leaves it after the TEI that it asked for. So audit a line where LAPD_BEGUN_DENIED of lapd_counters has
 * risen; a TEI that no terminal has leaves the line within two T201, which on_report hears of. LAPD_NO_MORE_LINKS: there
 * is none from there on. LAPD_REFUSED_CHECK_RUNNING, LAPD_REFUSED_CONTROL_FULL: call again later, with the same place. */
LAPD_STATUS gateway_audit(gateway *own, uint64_t now, uint32_t line, uint8_t *place);

#endif
