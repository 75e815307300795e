/*
 * clock.c: a card whose timers are not its own, for a program that has timers already. The orders of each report start and
 * stop them, at its line and at the moment of the call, and each that expires comes back by lapd_expire. Here they are a
 * clock of the library's, over a time of the program's own. A terminal with TEI 64 establishes its link and falls silent:
 * the card asks it again and again, establishes the link anew, and gives it up.
 *
 *     cc -O2 -I .. -o clock clock.c trace.c ../lapd.c
 *     clock [--trace]
 *
 * It prints what `lapdsim run` prints of the same. With --trace standard error has a log of each frame, note, order and
 * state (trace.c).
 */
#include <stdbool.h>
#include <stdio.h>
#include <stdlib.h>
#include <string.h>

#include "lapd.h"
#include "trace.h"

static const lapd_config config = LAPD_BASIC_ACCESS;
static const uint8_t sabme[] = {0x00, 0x81, 0x7F};

static lapd_card card = LAPD_CARD_NONE;
static lapd_clock timers = LAPD_CLOCK_NONE;
static lapd_report report;
static uint64_t now; /* in milliseconds */
static trace log_of_all = {.to = NULL, .side = LAPD_NETWORK};

static void want_ok(uint32_t status) {
    if (status != LAPD_OK) {
        fprintf(stderr, "clock: %s\n", lapd_status_text(status));
        exit(1);
    }
}

/* After each call that tells a report: its orders first, and then its notes. */
static void carry_out(uint32_t line) {
    want_ok(lapd_clock_apply_report(&timers, line, &report, now));
    if (log_of_all.to != NULL)
        trace_report(&log_of_all, now, &card, &report);
    for (const lapd_note *note = report.notes; note < report.notes + report.note_count; note++) {
        printf("%u %s %u", line, lapd_note_text(note), note->tei);
        printf(note->error != 0 ? " %c\n" : "\n", note->error);
    }
}

static void hear(uint32_t line, const uint8_t *frame, size_t length) {
    if (log_of_all.to != NULL)
        trace_frame(&log_of_all, now, line, false, frame, length, length);
    want_ok(lapd_frame(&card, line, frame, length, &report));
    carry_out(line);
}

/* Frames that wait go: T200 of an I-frame runs from then on. */
static void give(void) {
    uint8_t frame[LAPD_MOST_FRAME];
    size_t length;
    for (uint32_t line; lapd_next_waiting(&card, 0, &line) == LAPD_OK;) {
        want_ok(lapd_next_frame(&card, line, frame, sizeof frame, &length, &report));
        if (log_of_all.to != NULL)
            trace_frame(&log_of_all, now, line, true, frame, length, length);
        carry_out(line);
        printf("%u frame ", line);
        for (size_t i = 0; i < length; i++)
            printf("%02X", frame[i]);
        printf("\n");
    }
}

/* Time goes on to the timer that falls due first, and all that is due then expires; false where none runs. */
static bool wait(void) {
    if (lapd_clock_next(&timers, &now) != LAPD_OK)
        return false;
    for (lapd_due due; lapd_clock_due(&timers, now, &due) == LAPD_OK;) {
        want_ok(lapd_expire(&card, due.line, &due.timer, &report));
        carry_out(due.line);
    }
    return true;
}

int main(int words, char **word) {
    if (words == 2 && strcmp(word[1], "--trace") == 0)
        log_of_all.to = stderr;
    else if (words != 1) {
        bool is_help = words == 2 && strcmp(word[1], "--help") == 0;
        fprintf(is_help ? stdout : stderr, "usage: clock [--trace]\n");
        return is_help ? 0 : 2;
    }
    want_ok(lapd_card_start_frames(&card, &config));
    want_ok(lapd_clock_start(&timers, &config));
    want_ok(lapd_assign(&card, 0, 64, &report));
    carry_out(0);
    hear(0, sabme, sizeof sabme);
    do
        give();
    while (wait());
    want_ok(lapd_clock_free(&timers));
    want_ok(lapd_card_free(&card));
    return 0;
}
