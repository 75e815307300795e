/*
 * saved_exchange.c: an exchange of four basic access lines in a process of its own, for interop_saved.c, which has its layer 3, its
 * lines and its time. It is started or restored as it is told, serves its lines a millisecond after the other, and is saved.
 *
 *     saved_exchange frames|octets own|clock 3<> SOCKET
 *
 * For tests alone.
 */
#include <stdbool.h>
#include <stdio.h>
#include <stdlib.h>
#include <string.h>
#include <sys/socket.h>
#include <sys/types.h>

#include "saved_exchange.h"

static const lapd_config config = {.lines = SAVED_LINES, .terminals = 2, .k = 1, .k16 = 3, .queue = 8, .unit_queue = 4, .control = 4,
                                   .slots = 32 * SAVED_LINES, .n201 = 260, .n200 = 10};
static const lapd_lengths lengths = {SAVED_T200, 10000, 1000, 2000, {0}};
static lapd_card card = LAPD_CARD_NONE;
static lapd_clock timers = LAPD_CLOCK_NONE;
static lapd_report report;
static bool for_octets, is_timed;
static saved_message came, answer;

static void must(bool is, const char *what) {
    if (is)
        return;
    fprintf(stderr, "saved_exchange: %s\n", what);
    exit(1);
}

static void goes(const void *octets, size_t length) {
    must(send(SAVED_SOCKET, octets, length, MSG_NOSIGNAL) == (ssize_t)length, "an answer does not go");
}

/* The octets of a packet; without one the test is over, or this process is. */
static size_t comes(void *octets, size_t room) {
    ssize_t length = recv(SAVED_SOCKET, octets, room, 0);
    if (length <= 0)
        exit(0);
    return (size_t)length;
}

static saved_item *next_item(uint8_t what, uint32_t line, const uint8_t *octets, size_t length) {
    must(answer.count < SAVED_MOST_ITEMS && length <= LAPD_MOST_FRAME, "too much is told");
    saved_item *item = &answer.items[answer.count++];
    memset(item, 0, sizeof *item);
    item->what = what;
    item->line = (uint8_t)line;
    item->length = (uint16_t)length;
    memcpy(item->octets, octets, length);
    return item;
}

/* What a call told at a line. */
static void told(uint32_t status, uint32_t line) {
    must(status == LAPD_OK, lapd_status_text(status));
    must(is_timed ? report.order_count == 0 : lapd_clock_apply_report(&timers, line, &report, came.now) == LAPD_OK, "orders");
    must(report.lost == 0, "a frame to send is lost");
    for (const lapd_note *note = report.notes; note < report.notes + report.note_count; note++) {
        saved_item *item = next_item(SAVED_TOLD, line, report.contents, note->note == LAPD_DATA_INDICATION ? report.length : 0);
        item->note = note->note;
        item->tei = note->tei;
        item->error = note->error;
    }
}

/* ---- A millisecond ------------------------------------------------------------------------------------------------ */

static void time_goes_on(void) {
    uint32_t status;
    lapd_due due;
    while (is_timed && (status = lapd_fall_due(&card, came.now, &report)) != LAPD_NO_TIMER)
        told(status, report.line);
    while (!is_timed && lapd_clock_due(&timers, came.now, &due) == LAPD_OK)
        told(lapd_expire(&card, due.line, &due.timer, &report), due.line);
}

static void octets_pass(const saved_item *item) {
    uint8_t out[SAVED_OCTETS_A_MS];
    for (int i = 0; i < SAVED_OCTETS_A_MS; i++) {
        told(lapd_octet(&card, item->line, item->octets[i], &report), item->line);
        told(lapd_pull(&card, item->line, &out[i], &report), item->line);
    }
    next_item(SAVED_OCTETS, item->line, out, sizeof out);
}

static void turn(void) {
    uint8_t out[LAPD_MOST_FRAME];
    size_t length;
    time_goes_on();
    for (const saved_item *item = came.items; item < came.items + came.count; item++)
        switch (item->what) {
        case SAVED_FRAME: told(lapd_frame(&card, item->line, item->octets, item->length, &report), item->line); break;
        case SAVED_OCTETS: octets_pass(item); break;
        case SAVED_ASK: told(lapd_data(&card, item->line, LAPD_CALL, item->tei, item->octets, item->length, &report), item->line); break;
        default: must(false, "what is that?");
        }
    for (uint32_t line = 0; line < SAVED_LINES; line++)
        if (came.has_room[line] && lapd_next_frame(&card, line, out, sizeof out, &length, &report) == LAPD_OK) {
            told(LAPD_OK, line);
            next_item(SAVED_FRAME, line, out, length);
        }
}

/* ---- Its start and its end ---------------------------------------------------------------------------------------- */

static void start(void) {
    uint32_t status = for_octets ? is_timed ? lapd_card_start_timed(&card, &config, &lengths) : lapd_card_start(&card, &config)
                      : is_timed ? lapd_card_start_frames_timed(&card, &config, &lengths) : lapd_card_start_frames(&card, &config);
    must(status == LAPD_OK, lapd_status_text(status));
    must(is_timed || (lapd_clock_start(&timers, &config) == LAPD_OK
                      && lapd_clock_set_lengths(&timers, lengths.t200, lengths.t203, lengths.t201, lengths.t202) == LAPD_OK), "no clock");
}

static void restore(void) {
    static uint8_t image[SAVED_MOST_IMAGE];
    size_t length = comes(image, sizeof image);
    must(lapd_card_restore(&card, image, length) == LAPD_OK, "no card is restored");
    length = comes(image, sizeof image);
    must(is_timed || lapd_clock_restore(&timers, image, length) == LAPD_OK, "no clock is restored");
}

static void save(void) {
    static uint8_t image[SAVED_MOST_IMAGE];
    size_t length = 1;
    must(lapd_card_save(&card, image, sizeof image, &length) == LAPD_OK, "the card is not saved");
    goes(image, length);
    length = 1;
    must(is_timed || lapd_clock_save(&timers, image, sizeof image, &length) == LAPD_OK, "the clock is not saved");
    goes(image, length);
}

int main(int words, char **word) {
    if (words != 3)
        return 2;
    for_octets = strcmp(word[1], "octets") == 0;
    is_timed = strcmp(word[2], "own") == 0;
    for (;;) {
        comes(&came, sizeof came);
        switch (came.kind) {
        case SAVED_START: start(); break;
        case SAVED_RESTORE: restore(); break;
        case SAVED_SAVE: save(); break;
        default:
            answer.count = 0;
            turn();
            answer.kind = SAVED_TURN;
            answer.now = came.now;
            goes(&answer, SAVED_OCTETS_OF(&answer));
        }
    }
}
