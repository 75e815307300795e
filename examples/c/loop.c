/*
 * loop.c: the smallest loop around a card of frames that keeps its timers. It is the network's side of one line of basic access.
 * Its driver is two functions, wait_for_frame and send_frame: put yours in their place. Here a frame is a line of hexadecimal
 * digits, without its check, on standard input and output. What layer 3 is told is printed, too.
 *
 *     cc -O2 -I ../../dist -o loop loop.c ../../dist/lapd.S ../../dist/lapd_malloc.c
 *     printf 'FCFF030F123401FF\n00817F\n' | ./loop
 *
 * A terminal asks for a TEI, gets 64, and establishes its link. The program ends with its input. gateway.h is a layer over this.
 */
#define _POSIX_C_SOURCE 200809L

#include <poll.h>
#include <stdio.h>
#include <stdlib.h>
#include <string.h>
#include <time.h>
#include <unistd.h>

#include "lapd.h"

enum { MS = 1000, NS_OF_A_MS = 1000000 };

static const lapd_config basic = LAPD_BASIC_ACCESS;
static const lapd_lengths lengths = LAPD_DEFAULT_LENGTHS;
static lapd_card card = LAPD_CARD_NONE;
static lapd_report report;

/* ---- The driver ---------------------------------------------------------------------------------------------------- */

/* Milliseconds of a clock that is never set back. */
static uint64_t now(void) {
    struct timespec at = {0, 0};
    clock_gettime(CLOCK_MONOTONIC, &at);
    return (uint64_t)at.tv_sec * MS + (uint64_t)at.tv_nsec / NS_OF_A_MS;
}

/* Whether an octet of the input can be read until then; the input may also be at its end. */
static bool can_read(uint64_t until) {
    struct pollfd input = {.fd = STDIN_FILENO, .events = POLLIN, .revents = 0};
    uint64_t moment = now(), most = 60 * MS;
    uint64_t left = until <= moment ? 0 : until - moment < most ? until - moment : most;
    return poll(&input, 1, (int)left) > 0;
}

/* Waits until then at most, and tells whether a frame came. One octet more has room: a frame that is too long shows. */
static bool wait_for_frame(uint8_t frame[LAPD_MOST_FRAME + 1], size_t *length, uint64_t until) {
    static char text[2 * (LAPD_MOST_FRAME + 1) + 1];
    static size_t count;
    char sign = 0;
    while (sign != '\n') {
        if (!can_read(until))
            return false;
        if (read(STDIN_FILENO, &sign, 1) != 1)
            exit(0);
        if (sign != '\n' && count < sizeof text - 1)
            text[count++] = sign;
    }
    text[count] = '\0';
    for (*length = 0; 2 * *length + 1 < count; ++*length) {
        char digits[] = {text[2 * *length], text[2 * *length + 1], '\0'};
        frame[*length] = (uint8_t)strtoul(digits, NULL, 16);
    }
    count = 0;
    return true;
}

/* This driver always has room; lapd_next_frame is called only if yours has, too. */
static void send_frame(uint32_t line, const uint8_t *frame, size_t length) {
    printf("%u send ", line);
    for (size_t i = 0; i < length; i++)
        printf("%02X", frame[i]);
    printf("\n");
    fflush(stdout);
}

/* ---- Layer 3, and the loop ------------------------------------------------------------------------------------------ */

static void layer_3(void) {
    for (int i = 0; i < report.note_count; i++)
        printf("%u %s %u\n", report.line, lapd_note_text(&report.notes[i]), report.notes[i].tei);
}

static uint32_t told(uint32_t status) {
    if (status == LAPD_OK)
        layer_3();
    return status;
}

int main(void) {
    uint8_t frame[LAPD_MOST_FRAME + 1];
    size_t length;
    uint32_t status = lapd_card_start_frames_timed(&card, &basic, &lengths);
    while (status == LAPD_OK) {
        for (uint32_t line = 0; status == LAPD_OK && lapd_next_waiting(&card, line, &line) == LAPD_OK;) {
            status = told(lapd_next_frame(&card, line, frame, sizeof frame, &length, &report));
            if (status == LAPD_OK)
                send_frame(line, frame, length);
        }
        uint64_t until = UINT64_MAX;                     /* stays so if no timer runs */
        (void)!lapd_next_moment(&card, &until);
        bool came = wait_for_frame(frame, &length, until);
        while ((status = told(lapd_fall_due(&card, now(), &report))) == LAPD_OK)
            ;                                            /* all that is due expires */
        if (status == LAPD_NO_TIMER)
            status = came ? told(lapd_frame(&card, 0, frame, length, &report)) : LAPD_OK;
    }
    fprintf(stderr, "loop: %s\n", lapd_status_text(status));
    return 1;
}
