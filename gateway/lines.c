/* lines.c: lines, their layer 1 and their frames. See lines.h. */
#define _GNU_SOURCE

#include "lines.h"

#include <string.h>

#include "audits.h"
#include "capture.h"
#include "counts.h"
#include "log.h"
#include "loop.h"

enum { ACTIVATE_MS = 1000, DISOWN_MS = 1000, MANAGEMENT_SAPI = 63 };

unsigned line_count;
line *lines[MOST_LINES];
bool lines_log_frames;

line *line_of(uint32_t identifier) {
    unsigned from = 0, to = line_count;
    while (from < to) {
        unsigned middle = (from + to) / 2;
        if (lines[middle]->identifier < identifier)
            from = middle + 1;
        else
            to = middle;
    }
    return from < line_count && lines[from]->identifier == identifier ? lines[from] : NULL;
}

uint16_t line_side(const line *own) {
    return (uint16_t)own->of->is.side;
}

void line_wake(line *own, uint64_t moment) {
    if (moment >= own->wake_at)
        return;
    own->wake_at = moment;
    loop_set_timer(own->timer, moment);
}

/* ---- Layer 1 ---------------------------------------------------------------------------------------------------------- */

void line_up(line *own) {
    own->grace = 0;
    if (own->is_up)
        return;
    own->is_full = false;
    own->is_up = true;
    log_line(LOG_EVENT, "line %u: layer 1 is there", own->identifier);
    links_have_layer1(own);
    card_is_changed(own->card); /* frames may have waited */
}

void line_down(line *own) {
    own->grace = 0;
    own->is_full = false;
    own->out_length = 0;
    own->is_asking = false;
    if (!own->is_up)
        return;
    own->is_up = false;
    log_line(LOG_EVENT, "line %u: layer 1 is lost", own->identifier);
    links_lose_layer1(own);
    card_down(own->card, own->at);
    links_settle(own);
}

/* What was to be looked at by now: layer 1 that did not come back after a restart, and links. */
int line_is_due(sd_event_source *source, uint64_t time, void *user) {
    line *own = user;
    (void)source;
    (void)time;
    own->wake_at = LOOP_NEVER;
    if (own->grace != 0 && own->grace <= loop_now())
        line_down(own);
    else if (own->grace != 0)
        line_wake(own, own->grace);
    audit_goes_on(own);
    links_settle(own);
    return 0;
}

/* ---- Frames come ------------------------------------------------------------------------------------------------------ */

static void show(const line *own, bool is_sent, const uint8_t *frame, size_t length) {
    if (lines_log_frames)
        log_frame(own->identifier, line_side(own), is_sent, frame, length);
    if (own->capture != NULL)
        capture_frame(own->capture, own, is_sent, frame, length);
}

/* A terminal uses a TEI of an earlier time, of which the card does not know: it is told to give it up. */
static void disown(line *own, const uint8_t *frame) {
    uint8_t tei = frame[1] >> 1;
    if (line_side(own) != LAPD_NETWORK || own->of->is.is_primary || frame[0] >> 2 == MANAGEMENT_SAPI || tei == LAPD_GROUP_TEI
        || loop_now() < own->disown_at)
        return;
    own->disown_at = loop_now() + DISOWN_MS;
    (void)card_ask(own->card, own->at, LAPD_DISOWN, LAPD_CALL, tei, NULL, 0);
}

void line_frame(line *own, const uint8_t *frame, size_t length) {
    if (!own->is_up)
        return;
    counts.frames_received++;
    show(own, false, frame, length);
    if (card_frame(own->card, own->at, frame, length) == LAPD_TEI)
        disown(own, frame);
    if (length > 0 && frame[0] >> 2 == MANAGEMENT_SAPI)
        audit_hears(own);
}

void line_failed(line *own, uint8_t cause) {
    if (own->is_up)
        card_failed(own->card, own->at, cause);
}

/* ---- Frames go -------------------------------------------------------------------------------------------------------- */

/* Lines whose next frame was taken from the card, or had no room before. */
static struct {
    unsigned count;
    line *at[MOST_LINES];
} giving;

static void take(line *own) {
    if (!own->is_up || own->is_full || own->port == NULL || own->is_giving)
        return;
    if (own->out_length == 0) {
        if (!card_take(own->card, own->at, own->out, &own->out_length))
            return;
        show(own, true, own->out, own->out_length);
    }
    own->is_giving = true;
    giving.at[giving.count++] = own;
}

static void activate(line *own) {
    uint64_t now = loop_now();
    if (own->port == NULL || own->is_up || now < own->activate_at)
        return;
    own->activate_at = now + ACTIVATE_MS;
    own->below->activate(own);
}

void line_has_room(line *own) {
    own->is_full = false;
    take(own);
    card_is_changed(own->card);
}

void lines_take(void) {
    for (card *it; (it = cards_first()) != NULL;) {
        for (uint32_t at = 0; lapd_next_waiting(&it->own, at, &at) == LAPD_OK; at++) {
            take(it->lines[at]);
            activate(it->lines[at]);
        }
        card_is_done(it);
    }
}

/* The frame of a line goes; whether there may be another. */
static bool give(line *own) {
    own->is_giving = false;
    if (own->out_length == 0 || own->port == NULL)
        return false;
    driver_result result = own->below->send(own, own->out, own->out_length);
    own->is_full = result != DRIVER_SENT;
    if (result == DRIVER_FULL)
        return false;
    counts.frames_sent++;
    own->out_length = 0;
    if (result == DRIVER_SENT)
        card_is_changed(own->card);
    return result == DRIVER_SENT;
}

bool lines_give(void) {
    bool is_more = false;
    unsigned count = giving.count;
    for (unsigned i = 0; i < count; i++)
        is_more = give(giving.at[i]) || is_more;
    giving.count -= count;
    memmove(giving.at, giving.at + count, giving.count * sizeof *giving.at);
    return is_more;
}

void lines_forget(const line *own) {
    unsigned left = 0;
    for (unsigned i = 0; i < giving.count; i++)
        if (giving.at[i] != own)
            giving.at[left++] = giving.at[i];
    giving.count = left;
}
