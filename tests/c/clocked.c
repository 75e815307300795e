/* clocked.c: a card with a clock beside it, in place of one that keeps its own timers. See clocked.h. For tests alone. */
#include <stdio.h>
#include <stdlib.h>

#include "clocked.h"
#include "lapd.h"

#undef lapd_card_start_timed
#undef lapd_card_start_frames_timed
#undef lapd_card_free
#undef lapd_octet
#undef lapd_pull
#undef lapd_exchange
#undef lapd_frame
#undef lapd_frame_failed
#undef lapd_next_frame
#undef lapd_expire
#undef lapd_request
#undef lapd_fall_due
#undef lapd_next_moment

/* The library's own, which lapd.h has declared by other names. */
uint32_t lapd_card_start(lapd_card *card, const lapd_config *config);
uint32_t lapd_card_free(lapd_card *card);
uint32_t lapd_octet(lapd_card *card, uint32_t line, uint8_t octet, lapd_report *report);
uint32_t lapd_pull(lapd_card *card, uint32_t line, uint8_t *octet, lapd_report *report);
uint32_t lapd_exchange(lapd_card *card, uint32_t line, const uint8_t *in, size_t in_length, uint8_t *out, size_t out_length,
                       size_t *steps, lapd_report *report);
uint32_t lapd_frame(lapd_card *card, uint32_t line, const uint8_t *octets, size_t length, lapd_report *report);
uint32_t lapd_frame_failed(lapd_card *card, uint32_t line, uint8_t cause, lapd_report *report);
uint32_t lapd_next_frame(lapd_card *card, uint32_t line, uint8_t *out, size_t room, size_t *length, lapd_report *report);
uint32_t lapd_expire(lapd_card *card, uint32_t line, const lapd_timer *timer, lapd_report *report);
uint32_t lapd_request(lapd_card *card, uint32_t line, uint8_t request, uint8_t service, uint8_t tei, const uint8_t *contents,
                      size_t length, lapd_report *report);

/* The clock beside a card, and the moment at which calls happen. */
typedef struct {
    const lapd_card *card; /* or NULL: no card has it */
    lapd_clock timers;
    uint64_t now;
} beside;

static beside all[8];

static beside *of(const lapd_card *card) {
    for (size_t i = 0; i < sizeof all / sizeof *all; i++)
        if (all[i].card == card)
            return &all[i];
    return NULL;
}

static void must(bool is, const char *what) {
    if (!is) {
        fprintf(stderr, "clocked: %s\n", what);
        exit(3);
    }
}

/* A clock of these lengths for a card that has started. */
static uint32_t with_clock(lapd_card *card, const lapd_config *config, const lapd_lengths *lengths) {
    beside *it = of(NULL);
    must(it != NULL, "too many cards");
    uint32_t status = lapd_clock_start(&it->timers, config);
    if (status == LAPD_OK)
        status = lapd_clock_set_lengths(&it->timers, lengths->t200, lengths->t203, lengths->t201, lengths->t202);
    it->now = 0;
    if (status == LAPD_OK) {
        it->card = card;
    } else {
        (void)!lapd_clock_free(&it->timers);
        (void)!lapd_card_free(card);
    }
    return status;
}

uint32_t clocked_start(lapd_card *card, const lapd_config *config, const lapd_lengths *lengths) {
    uint32_t status = lapd_card_start(card, config);
    return status == LAPD_OK ? with_clock(card, config, lengths) : status;
}

uint32_t clocked_start_frames(lapd_card *card, const lapd_config *config, const lapd_lengths *lengths) {
    uint32_t status = lapd_card_start_frames(card, config);
    return status == LAPD_OK ? with_clock(card, config, lengths) : status;
}

uint32_t clocked_free(lapd_card *card) {
    beside *it = of(card);
    if (it != NULL)
        must(lapd_clock_free(&it->timers) == LAPD_OK, "the clock does not end");
    if (it != NULL)
        it->card = NULL;
    return lapd_card_free(card);
}

/* After a call: its orders go to the clock, and the caller is told none. */
static uint32_t obeyed(const lapd_card *card, uint32_t line, uint32_t status, lapd_report *report) {
    beside *it = of(card);
    if (status != LAPD_OK || it == NULL)
        return status;
    must(lapd_clock_apply_report(&it->timers, line, report, it->now) == LAPD_OK, "an order is not carried out");
    must(report->line == line, "a report is of another line");
    report->order_count = 0;
    return LAPD_OK;
}

uint32_t clocked_octet(lapd_card *card, uint32_t line, uint8_t octet, lapd_report *report) {
    return obeyed(card, line, lapd_octet(card, line, octet, report), report);
}

uint32_t clocked_pull(lapd_card *card, uint32_t line, uint8_t *octet, lapd_report *report) {
    return obeyed(card, line, lapd_pull(card, line, octet, report), report);
}

uint32_t clocked_exchange(lapd_card *card, uint32_t line, const uint8_t *in, size_t in_length, uint8_t *out, size_t out_length,
                          size_t *steps, lapd_report *report) {
    return obeyed(card, line, lapd_exchange(card, line, in, in_length, out, out_length, steps, report), report);
}

uint32_t clocked_frame(lapd_card *card, uint32_t line, const uint8_t *octets, size_t length, lapd_report *report) {
    return obeyed(card, line, lapd_frame(card, line, octets, length, report), report);
}

uint32_t clocked_frame_failed(lapd_card *card, uint32_t line, uint8_t cause, lapd_report *report) {
    return obeyed(card, line, lapd_frame_failed(card, line, cause, report), report);
}

uint32_t clocked_next_frame(lapd_card *card, uint32_t line, uint8_t *out, size_t room, size_t *length, lapd_report *report) {
    return obeyed(card, line, lapd_next_frame(card, line, out, room, length, report), report);
}

uint32_t clocked_request(lapd_card *card, uint32_t line, uint8_t request, uint8_t service, uint8_t tei, const uint8_t *contents,
                         size_t length, lapd_report *report) {
    return obeyed(card, line, lapd_request(card, line, request, service, tei, contents, length, report), report);
}

uint32_t clocked_expire(lapd_card *card, uint32_t line, const lapd_timer *timer, lapd_report *report) {
    return of(card) != NULL ? LAPD_WRONG_CARD : lapd_expire(card, line, timer, report);
}

uint32_t clocked_fall_due(lapd_card *card, uint64_t now, lapd_report *report) {
    beside *it = of(card);
    lapd_due due;
    if (it == NULL)
        return card->started ? LAPD_WRONG_CARD : LAPD_NO_CARD;
    if (now < it->now || now >= LAPD_LATEST)
        return LAPD_WRONG_TIME;
    it->now = now;
    uint32_t status = lapd_clock_due(&it->timers, now, &due);
    if (status != LAPD_OK)
        return status;
    status = obeyed(card, due.line, lapd_expire(card, due.line, &due.timer, report), report);
    if (status == LAPD_OK)
        report->expired = due.timer;
    return status;
}

uint32_t clocked_next_moment(lapd_card *card, uint64_t *moment) {
    beside *it = of(card);
    if (it == NULL)
        return card->started ? LAPD_WRONG_CARD : LAPD_NO_CARD;
    return lapd_clock_next(&it->timers, moment);
}
