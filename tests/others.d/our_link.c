/*
 * our_link.c: a link of ours (link.h) by annex B, at a card of frames of lapd.c, whose queues are so large that nothing finds
 * no room. It begins in state 4 alone.
 */
#include "link.h"

#include <stdio.h>
#include <stdlib.h>
#include <string.h>

#include "lapd.h"

enum { QUEUE = 64, CONTROL = 16 };

static lapd_card card = LAPD_CARD_NONE;
static lapd_report report;

static void want(uint32_t status, const char *what) {
    if (status == LAPD_OK)
        return;
    fprintf(stderr, "our_link: %s: status %lu\n", what, (unsigned long)status);
    exit(1);
}

static const char *name_of(uint8_t note) {
    switch (note) {
    case LAPD_ESTABLISH_INDICATION: return "establish indication";
    case LAPD_ESTABLISH_CONFIRM: return "establish confirm";
    case LAPD_RELEASE_INDICATION: return "release indication";
    case LAPD_RELEASE_CONFIRM: return "release confirm";
    case LAPD_DATA_INDICATION: return "data indication";
    case LAPD_UNIT_INDICATION: return "unit data indication";
    default: return "another note";
    }
}

/* What a report tells, and its orders for T200 and T203. */
static void takes(void) {
    for (unsigned i = 0; i < report.note_count; i++)
        if (report.notes[i].note == LAPD_ERROR_INDICATION)
            tells_error((char)report.notes[i].error);
        else
            tells(name_of(report.notes[i].note));
    for (unsigned i = 0; i < report.order_count; i++) {
        int which = report.orders[i].timer.timer == LAPD_T200 ? 200 : 203;
        if (report.orders[i].order == LAPD_START)
            starts(which);
        else
            stops(which);
    }
    if (report.lost > 0)
        tells("lost");
}

static void sends_all(void) {
    uint8_t frame[LAPD_MOST_FRAME];
    size_t length;
    while (lapd_next_frame(&card, 0, frame, sizeof frame, &length, &report) == LAPD_OK) {
        takes();
        sends(frame, length);
    }
}

void stack_begin(const column *at) {
    static const lapd_config config = {.lines = 1, .terminals = 1, .k = WINDOW, .k16 = WINDOW, .queue = QUEUE, .unit_queue = 1,
                                       .control = CONTROL, .slots = QUEUE, .n201 = MOST_OCTETS, .n200 = MOST_REPEATS,
                                       .reading = LAPD_ANNEX_B};
    if (at->state != 4) {
        fprintf(stderr, "our_link: it begins in state 4 alone\n");
        exit(2);
    }
    if (card.started)
        want(lapd_card_free(&card), "free");
    want(lapd_card_start_frames(&card, &config), "start");
    want(lapd_assign(&card, 0, TEI, &report), "assign");
}

int stack_state(void) {
    uint8_t state = 0;
    want(lapd_state(&card, 0, LAPD_CALL, TEI, &state), "state");
    return state;
}

static bool asks(uint8_t request, const uint8_t *octets, size_t length) {
    uint32_t status = lapd_request_with(&card, 0, request, LAPD_CALL, TEI, octets, length, &report);
    if (status == LAPD_OK)
        takes();
    return status == LAPD_OK;
}

static bool expires(uint8_t which) {
    const lapd_timer timer = {which, LAPD_CALL, TEI};
    want(lapd_expire(&card, 0, &timer, &report), "expire");
    takes();
    return true;
}

static bool meets(happening what, const uint8_t *octets, size_t length) {
    switch (what) {
    case FRAME:
        want(lapd_frame(&card, 0, octets, length, &report), "frame");
        takes();
        return report.cause == 0;
    case T200: return expires(LAPD_T200);
    case T203: return expires(LAPD_T203);
    case ESTABLISH: return asks(LAPD_ESTABLISH, NULL, 0);
    case RELEASE: return asks(LAPD_RELEASE, NULL, 0);
    case DATA: return asks(LAPD_DATA, octets, length);
    case BUSY: return asks(LAPD_BUSY, NULL, 0);
    case READY: return asks(LAPD_READY, NULL, 0);
    case DOWN: return asks(LAPD_DEACTIVATE, NULL, 0);
    default: return false;
    }
}

bool stack_meets(happening what, const uint8_t *octets, size_t length) {
    bool is_served = meets(what, octets, length);
    sends_all();
    return is_served;
}
