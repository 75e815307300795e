/* cards.c: cards, and their time. See cards.h. */
#define _GNU_SOURCE

#include "cards.h"

#include <stdlib.h>
#include <string.h>

#include "links.h"
#include "log.h"
#include "loop.h"
#include "standby.h"

enum { FIRST_AUTOMATIC_TEI = 64 };

static card *list; /* at which something happened */

static void enlist(card *own) {
    if (own->is_listed)
        return;
    own->is_listed = true;
    own->next = list;
    list = own;
}

void card_is_changed(card *own) {
    enlist(own);
}

card *cards_first(void) {
    return list;
}

static void delist(card *own) {
    for (card **it = &list; *it != NULL; it = &(*it)->next)
        if (*it == own) {
            *it = own->next;
            own->is_listed = false;
            return;
        }
}

/* ---- After each call -------------------------------------------------------------------------------------------------- */

/* What layer management does about an error: if a TEI may be doubled or gone, it asks. What is refused is asked already, or not
 * of this side. */
static void manage(card *own, uint32_t line, const lapd_note *note) {
    if (note->note != LAPD_ERROR_INDICATION || strchr("CDGH", note->error) == NULL || note->tei < FIRST_AUTOMATIC_TEI)
        return;
    if (card_ask(own, line, LAPD_CHECK, LAPD_CALL, note->tei, NULL, 0) == LAPD_REFUSED_WRONG_SIDE)
        (void)card_ask(own, line, LAPD_VERIFY_TEI, LAPD_CALL, note->tei, NULL, 0);
}

/* A call was made, and this is its report, which the caller keeps: what is told may lead to other calls at the same moment. */
static uint32_t finish(card *own, uint32_t status, const lapd_report *report) {
    enlist(own);
    if (status != LAPD_OK)
        return status;
    own->depth++;
    links_report(own->lines[report->line], report);
    for (unsigned i = 0; i < report->note_count; i++)
        manage(own, report->line, &report->notes[i]);
    own->depth--;
    return status;
}

/* While a report is told, it stays the moment of that report. */
void card_advance(card *own) {
    lapd_report report;
    uint32_t status = own->depth > 0 ? LAPD_NO_TIMER : LAPD_OK;
    uint64_t now = loop_now();
    while (status == LAPD_OK) {
        standby_made(own, &(standby_call){.kind = STANDBY_TIME, .now = now});
        status = finish(own, lapd_fall_due(&own->own, now, &report), &report);
    }
    if (status != LAPD_NO_TIMER)
        log_line(LOG_FAULT, "a card refuses the time: %s", lapd_status_text(status));
}

/* ---- Calls ------------------------------------------------------------------------------------------------------------ */

uint8_t card_frame(card *own, unsigned line, const uint8_t *frame, size_t length) {
    lapd_report report;
    card_advance(own);
    standby_made(own, &(standby_call){.kind = STANDBY_FRAME, .line = line, .octets = frame, .length = length});
    return finish(own, lapd_frame(&own->own, line, frame, length, &report), &report) == LAPD_OK ? report.cause : 0;
}

void card_failed(card *own, unsigned line, uint8_t cause) {
    lapd_report report;
    standby_made(own, &(standby_call){.kind = STANDBY_FAILED, .line = line, .request = cause});
    (void)finish(own, lapd_frame_failed(&own->own, line, cause, &report), &report);
}

uint32_t card_ask(card *own, unsigned line, uint8_t request, uint8_t service, uint8_t tei, const uint8_t *contents, size_t length) {
    lapd_report report;
    card_advance(own);
    standby_made(own, &(standby_call){.kind = STANDBY_ASK, .line = line, .request = request, .service = service, .tei = tei,
                                      .octets = contents, .length = length});
    return finish(own, lapd_request_with(&own->own, line, request, service, tei, contents, length, &report), &report);
}

void card_down(card *own, unsigned line) {
    lapd_report report;
    uint8_t place = 0;
    uint32_t status = LAPD_OK;
    card_advance(own);
    while (status == LAPD_OK) {
        standby_made(own, &(standby_call){.kind = STANDBY_DOWN, .line = line, .request = place});
        status = finish(own, lapd_line_down(&own->own, line, &place, &report), &report);
    }
}

bool card_take(card *own, unsigned line, uint8_t frame[LAPD_MOST_FRAME], size_t *length) {
    lapd_report report;
    card_advance(own);
    standby_made(own, &(standby_call){.kind = STANDBY_TAKE, .line = line});
    return finish(own, lapd_next_frame(&own->own, line, frame, LAPD_MOST_FRAME, length, &report), &report) == LAPD_OK;
}

uint8_t card_state(card *own, unsigned line, uint8_t service, uint8_t tei) {
    uint8_t state = 0;
    return lapd_state(&own->own, line, service, tei, &state) == LAPD_OK ? state : 0;
}

/* ---- Its start and its end -------------------------------------------------------------------------------------------- */

void card_is_done(card *own) {
    uint64_t moment = LOOP_NEVER;
    (void)!lapd_next_moment(&own->own, &moment);
    loop_set_timer(own->timer, moment);
    delist(own);
}

static int is_due(sd_event_source *source, uint64_t time, void *user) {
    (void)source;
    (void)time;
    card_advance(user);
    enlist(user);
    return 0;
}

card *card_start(const lapd_config *config, const lapd_lengths *lengths, struct line **lines, const char **fault) {
    card *own = calloc(1, sizeof *own);
    *fault = "there is no memory";
    if (own == NULL)
        return NULL;
    own->config = *config;
    own->lines = lines;
    uint32_t status = lapd_card_start_frames_timed(&own->own, config, lengths);
    own->timer = loop_timer(is_due, own);
    if (status != LAPD_OK || own->timer == NULL) {
        *fault = status != LAPD_OK ? lapd_status_text(status) : *fault;
        card_end(own);
        return NULL;
    }
    card_advance(own);
    return own;
}

void card_end(card *own) {
    delist(own);
    (void)!lapd_card_free(&own->own);
    sd_event_source_disable_unref(own->timer);
    free(own);
}

bool card_read(const card *own, const uint8_t *image, size_t length, lapd_card *to) {
    uint32_t lines = 0;
    if (lapd_card_restore(to, image, length) != LAPD_OK)
        return false;
    if (lapd_lines(to, &lines) == LAPD_OK && lines == own->config.lines)
        return true;
    (void)!lapd_card_free(to);
    return false;
}

void card_replace(card *own, lapd_card *with) {
    (void)!lapd_card_free(&own->own);
    own->own = *with;
    *with = (lapd_card)LAPD_CARD_NONE;
    enlist(own);
}
