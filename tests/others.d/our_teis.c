/*
 * our_teis.c: TEI management of ours (teis.h) by annex B, at a card of frames of lapd.c: the network's side with room for eight TEIs, or
 * a terminal with room for one.
 */
#include "teis.h"

#include <stdio.h>
#include <stdlib.h>

#include "lapd.h"

static lapd_card card = LAPD_CARD_NONE;
static lapd_report report;
static lapd_timer timer = {LAPD_T201, 0, 0};

static void want(uint32_t status, const char *what) {
    if (status == LAPD_OK)
        return;
    fprintf(stderr, "our_teis: %s: status %lu\n", what, (unsigned long)status);
    exit(1);
}

static void takes(void) {
    for (unsigned i = 0; i < report.order_count; i++) {
        if (report.orders[i].timer.timer != timer.timer)
            continue;
        if (report.orders[i].order == LAPD_START)
            starts();
        else
            stops();
    }
}

static void takes_all(void) {
    uint8_t frame[LAPD_MOST_FRAME];
    size_t length;
    takes();
    while (lapd_next_frame(&card, 0, frame, sizeof frame, &length, &report) == LAPD_OK) {
        takes();
        sends(frame, length);
    }
}

void stack_begin(bool is_network) {
    lapd_config config = {.lines = 1, .terminals = is_network ? 8 : 1, .k = 1, .k16 = 1, .queue = 1, .unit_queue = 1,
                          .control = 2, .slots = 1, .n201 = 260, .n200 = 3, .side = is_network ? LAPD_NETWORK : LAPD_TERMINAL,
                          .reading = LAPD_ANNEX_B};
    if (card.started)
        want(lapd_card_free(&card), "free");
    want(lapd_card_start_frames(&card, &config), "start");
    timer.timer = is_network ? LAPD_T201 : LAPD_T202;
}

void stack_hears(const uint8_t *frame, size_t length) {
    want(lapd_frame(&card, 0, frame, length, &report), "frame");
    takes_all();
}

void stack_expires(void) {
    want(lapd_expire(&card, 0, &timer, &report), "expire");
    takes_all();
}

static void asks(uint8_t request, uint8_t tei) {
    if (lapd_request_with(&card, 0, request, LAPD_CALL, tei, LAPD_NULL, 0, &report) == LAPD_OK)
        takes_all();
}

void stack_asks(void) { asks(LAPD_ASK_TEI, 0); }

void stack_verifies(void) {
    for (int tei = 0; tei < GROUP; tei++)
        if (stack_has(tei))
            asks(LAPD_VERIFY_TEI, (uint8_t)tei);
}

bool stack_has(int tei) {
    uint8_t state = 0;
    want(lapd_state(&card, 0, LAPD_CALL, (uint8_t)tei, &state), "state");
    return state != 0;
}
