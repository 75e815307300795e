/* gateway.c: the data link layer of a gateway. See gateway.h. */
#include "gateway.h"

#include <string.h>

enum { FIRST_AUTOMATIC_TEI = 64 };

uint32_t gateway_start(gateway *own, const lapd_config *config, const lapd_lengths *lengths) {
    uint32_t status = lapd_card_start_frames_timed(&own->card, config, lengths);
    if (status == LAPD_OK)
        own->now = 0;
    return status;
}

uint32_t gateway_disown(gateway *own, uint32_t line) {
    uint32_t status = LAPD_OK;
    for (int times = 0; status == LAPD_OK && times < 2; times++)
        status = gateway_ask(own, own->now, line, LAPD_DISOWN, LAPD_CALL, LAPD_GROUP_TEI, NULL, 0);
    return status;
}

void gateway_end(gateway *own) {
    (void)!lapd_card_free(&own->card);
}

static bool has_news(const lapd_report *report) {
    return report->note_count != 0 || report->cause != 0 || report->lost != 0 || report->delivered != 0
           || report->reopened != 0 || report->given_up != 0 || report->given_up_16 != 0;
}

/* What layer management does about an error: where a TEI that was assigned may be doubled or gone, it asks. What is refused is
 * asked already, or not of this side. */
static void manage(gateway *own, uint32_t line, const lapd_note *note) {
    if (note->note != LAPD_ERROR_INDICATION || strchr("CDGH", note->error) == NULL || note->tei < FIRST_AUTOMATIC_TEI)
        return;
    if (gateway_ask(own, own->now, line, LAPD_CHECK, LAPD_CALL, note->tei, NULL, 0) == LAPD_REFUSED_WRONG_SIDE)
        (void)!gateway_ask(own, own->now, line, LAPD_VERIFY_TEI, LAPD_CALL, note->tei, NULL, 0);
}

/* After a call of the card's, whose report is the caller's own: on_report may make other calls, at the same moment. */
static uint32_t finish(gateway *own, uint32_t status, const lapd_report *report) {
    bool was_told = own->is_told;
    if (status == LAPD_OK && own->log != NULL)
        trace_report(own->log, own->now, &own->card, report);
    if (status != LAPD_OK || !has_news(report))
        return status;
    own->is_told = true;
    own->on_report(own, report);
    for (unsigned i = 0; i < report->note_count; i++)
        manage(own, report->line, &report->notes[i]);
    own->is_told = was_told;
    return status;
}

uint32_t gateway_advance(gateway *own, uint64_t now) {
    lapd_report report;
    uint32_t status = own->is_told ? LAPD_NO_TIMER : LAPD_OK;
    while (status == LAPD_OK) {
        status = lapd_fall_due(&own->card, now, &report);
        if (status == LAPD_OK || status == LAPD_NO_TIMER)
            own->now = now;
        if (status == LAPD_OK && own->log != NULL)
            trace_expiry(own->log, now, &report);
        (void)!finish(own, status, &report);
    }
    return status == LAPD_NO_TIMER ? LAPD_OK : status;
}

uint32_t gateway_frame(gateway *own, uint64_t now, uint32_t line, const uint8_t *frame, size_t length) {
    lapd_report report;
    uint32_t status = gateway_advance(own, now);
    if (status == LAPD_OK)
        status = lapd_frame(&own->card, line, frame, length, &report);
    if (own->log != NULL && status == LAPD_OK)
        trace_frame(own->log, own->now, line, false, frame, length, length);
    return finish(own, status, &report);
}

uint32_t gateway_frame_failed(gateway *own, uint32_t line, uint8_t cause) {
    lapd_report report;
    return finish(own, lapd_frame_failed(&own->card, line, cause, &report), &report);
}

uint32_t gateway_ask(gateway *own, uint64_t now, uint32_t line, uint8_t request, uint8_t service, uint8_t tei,
                     const uint8_t *contents, size_t length) {
    lapd_report report;
    uint32_t status = gateway_advance(own, now);
    if (status == LAPD_OK)
        status = lapd_request_with(&own->card, line, request, service, tei, contents, length, &report);
    return finish(own, status, &report);
}

uint32_t gateway_down(gateway *own, uint32_t line) {
    lapd_report report;
    uint8_t place = 0;
    uint32_t status;
    while ((status = lapd_line_down(&own->card, line, &place, &report)) == LAPD_OK)
        (void)!finish(own, status, &report);
    return status == LAPD_NO_MORE_LINKS ? LAPD_OK : status;
}

uint32_t gateway_take(gateway *own, uint64_t now, uint32_t line, uint8_t *frame, size_t room, size_t *length,
                      bool *more) {
    lapd_report report;
    uint32_t status = gateway_advance(own, now);
    if (status == LAPD_OK)
        status = lapd_next_frame(&own->card, line, frame, room, length, &report);
    if (status == LAPD_OK)
        *more = report.more != 0;
    if (own->log != NULL && status == LAPD_OK)
        trace_frame(own->log, own->now, line, true, frame, *length, *length);
    return finish(own, status, &report);
}

uint32_t gateway_audit(gateway *own, uint64_t now, uint32_t line, uint8_t *place) {
    uint8_t after = *place;
    uint32_t status;
    lapd_link link; /* a TEI has one for each service */
    while ((status = lapd_next_link(&own->card, line, &after, &link)) == LAPD_OK)
        if (link.service == LAPD_CALL && link.tei >= FIRST_AUTOMATIC_TEI) {
            status = gateway_ask(own, now, line, LAPD_CHECK, LAPD_CALL, link.tei, NULL, 0);
            if (status == LAPD_OK)
                *place = after;
            break;
        }
    return status;
}
