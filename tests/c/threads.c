/*
 * threads.c: cards of several threads have nothing in common. Each thread has a card of frames and a clock of its own, and
 * starts, uses and frees them again and again; each time it must hear the same. For tests alone, with lapd.c.
 */
#include <pthread.h>
#include <stdio.h>
#include <string.h>

#include "lapd.h"

enum { THREADS = 32, CARDS = 8, POLLS = 60 };

/* A card is started, a link comes up, is polled with data both ways, and the card ends. */
static bool converses(void) {
    static const lapd_config config = {.lines = 1, .terminals = 8, .k = 7, .k16 = 7, .queue = 8, .unit_queue = 4, .control = 4, .slots = 8,
                                       .n201 = 260, .n200 = 3};
    static const uint8_t sabme[] = {0x00, 0x81, 0x7F}, poll[] = {0x00, 0x81, 0x01, 0x01};
    lapd_card card = LAPD_CARD_NONE;
    lapd_clock timers = LAPD_CLOCK_NONE;
    lapd_report report;
    uint8_t frame[LAPD_MOST_FRAME];
    size_t length;
    bool good = lapd_card_start_frames(&card, &config) == LAPD_OK && lapd_clock_start(&timers, &config) == LAPD_OK
                && lapd_assign(&card, 0, 64, &report) == LAPD_OK && lapd_frame(&card, 0, sabme, sizeof sabme, &report) == LAPD_OK
                && lapd_next_frame(&card, 0, frame, sizeof frame, &length, &report) == LAPD_OK && frame[2] == 0x73;
    for (uint64_t i = 0; good && i < POLLS; i++)
        good = lapd_frame(&card, 0, poll, sizeof poll, &report) == LAPD_OK
               && lapd_clock_apply_report(&timers, 0, &report, i) == LAPD_OK
               && lapd_next_frame(&card, 0, frame, sizeof frame, &length, &report) == LAPD_OK
               && length == sizeof poll && memcmp(frame, poll, length) == 0;
    return lapd_clock_free(&timers) == LAPD_OK && lapd_card_free(&card) == LAPD_OK && good;
}

static void *work(void *good) {
    for (int i = 0; i < CARDS; i++)
        if (!converses())
            *(bool *)good = false;
    return NULL;
}

int main(void) {
    pthread_t threads[THREADS];
    bool good[THREADS];
    int bad = 0;
    for (int i = 0; i < THREADS; i++) {
        good[i] = true;
        if (pthread_create(&threads[i], NULL, work, &good[i]) != 0)
            return 2;
    }
    for (int i = 0; i < THREADS; i++) {
        pthread_join(threads[i], NULL);
        bad += !good[i];
    }
    if (bad > 0)
        fprintf(stderr, "%d threads heard something else\n", bad);
    return bad != 0;
}
