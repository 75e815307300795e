/* one_terminal.c: a terminal of one line, what it tells and sends, in words. See one_terminal.h. For tests alone. */
#include "one_terminal.h"

#include <stdio.h>
#include <stdlib.h>
#include <string.h>

enum { MOST_SAID = 512 };

static const lapd_lengths lengths = {.t200 = 1000, .t203 = 10000, .t201 = 1000, .t202 = 2000};
lapd_card card = LAPD_CARD_NONE;
static lapd_clock timers = LAPD_CLOCK_NONE; /* of a card without timers of its own */
lapd_report report;
bool is_timed;
uint64_t now;
static char said[MOST_SAID]; /* what was told and sent since it was compared */

void terminal_wants(bool is, const char *what) {
    if (is)
        return;
    fprintf(stderr, "terminals: at %llu ms, %s: %s\n", (unsigned long long)now, is_timed ? "with timers" : "with a clock", what);
    exit(1);
}

static void say(const char *words) {
    terminal_wants(strlen(said) + strlen(words) + 2 < sizeof said, "too much is said");
    strcat(said, said[0] != 0 ? " " : "");
    strcat(said, words);
}

/* ---- The card, and a clock beside it ------------------------------------------------------------------------------ */

void terminal_starts(lapd_config of) {
    now = 0;
    said[0] = 0;
    uint32_t status = is_timed ? lapd_card_start_frames_timed(&card, &of, &lengths) : lapd_card_start_frames(&card, &of);
    terminal_wants(status == LAPD_OK && lapd_clock_start(&timers, &of) == LAPD_OK, "no card, or no clock");
}

void terminal_ends(void) {
    terminal_wants(lapd_card_free(&card) == LAPD_OK && lapd_clock_free(&timers) == LAPD_OK, "no end");
}

uint32_t terminal_told(uint32_t status) {
    char words[64];
    if (status != LAPD_OK)
        return status;
    for (const lapd_note *note = report.notes; note < report.notes + report.note_count; note++) {
        snprintf(words, sizeof words, "%s %u", lapd_note_text(note), note->tei);
        terminal_wants(note->error == 0 && (note->service == LAPD_CALL || note->note == LAPD_RELEASE_INDICATION), "a note with more");
        say(words);
    }
    if (report.cause != 0)
        say(lapd_cause_text(report.cause));
    terminal_wants(report.lost == 0, "a message of a terminal is lost");
    terminal_wants(!is_timed || report.order_count == 0, "an order of a card with timers");
    terminal_wants(lapd_clock_apply_report(&timers, 0, &report, now) == LAPD_OK, "an order finds no place");
    return LAPD_OK;
}

void terminal_hears(uint8_t type, uint16_t number, uint8_t ai) {
    const uint8_t frame[] = {0xFE, 0xFF, 0x03, 0x0F, (uint8_t)(number >> 8), (uint8_t)number, type, (uint8_t)(2 * ai + 1)};
    terminal_wants(terminal_told(lapd_frame(&card, 0, frame, sizeof frame, &report)) == LAPD_OK, "a message is not taken");
}

void terminal_sends(void) {
    uint8_t frame[LAPD_MOST_FRAME];
    char words[64];
    for (size_t length; terminal_told(lapd_next_frame(&card, 0, frame, sizeof frame, &length, &report)) == LAPD_OK;) {
        if (length == 8 && memcmp(frame, "\xFC\xFF\x03\x0F", 4) == 0)
            snprintf(words, sizeof words, "%u:%02X%02X:%u", frame[6], frame[4], frame[5], frame[7] / 2);
        else
            snprintf(words, sizeof words, "%02X%02X%02X", frame[0], frame[1], frame[2]);
        say(words);
    }
}

static void falls_due(void) {
    lapd_due due;
    uint32_t status;
    if (is_timed) {
        while ((status = terminal_told(lapd_fall_due(&card, now, &report))) == LAPD_OK)
            ;
        terminal_wants(status == LAPD_NO_TIMER, "time does not go on");
        return;
    }
    while (lapd_clock_due(&timers, now, &due) == LAPD_OK) {
        terminal_wants(due.timer.timer != LAPD_T202 || (due.timer.service == 0 && due.timer.tei == 0), "a T202 of a link");
        terminal_wants(terminal_told(lapd_expire(&card, due.line, &due.timer, &report)) == LAPD_OK, "a timer does not expire");
    }
}

void terminal_waits(uint64_t ms) {
    uint64_t to = now + ms, next;
    while ((is_timed ? lapd_next_moment(&card, &next) : lapd_clock_next(&timers, &next)) == LAPD_OK && next <= to) {
        now = next;
        falls_due();
    }
    now = to;
    falls_due();
}

/* When the first timer falls due, from now on; 0 if none runs. */
static uint64_t left(void) {
    uint64_t next;
    uint32_t status = is_timed ? lapd_next_moment(&card, &next) : lapd_clock_next(&timers, &next);
    return status == LAPD_OK ? next - now : 0;
}

void terminal_says(const char *words, uint64_t due) {
    if (strcmp(said, words) != 0)
        fprintf(stderr, "terminals: it says `%s`, not `%s`\n", said, words);
    terminal_wants(strcmp(said, words) == 0, "it says something else");
    if (left() != due)
        fprintf(stderr, "terminals: `%s`: the next timer is due in %llu ms, not in %llu\n", words, (unsigned long long)left(),
                (unsigned long long)due);
    terminal_wants(left() == due, "another timer, or none");
    said[0] = 0;
}

void terminal_forgets(void) {
    said[0] = 0;
}
