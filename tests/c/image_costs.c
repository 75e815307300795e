/*
 * image_costs.c: how long a save and a restore take, and how large images are. A card of frames of 64 lines with 8 terminals each,
 * with its own timers and without: all 1,024 links are in state 7, and contents wait on each, as many as its queue and the card's
 * slots hold, of 16 octets and of 260. Prints the least and the middle time of the turns, and then the longest image of a line as
 * others ask for it, besides contents. For docs/SPEED.md alone.
 *
 *     image_costs [TURNS]
 */
#define _POSIX_C_SOURCE 200809L

#include <stdio.h>
#include <stdlib.h>
#include <string.h>
#include <time.h>

#include "lapd.h"

enum { LINES = 64, TERMINALS = 8, QUEUE = 8, MOST_TURNS = 1000 };

static const lapd_config config = {.lines = LINES, .terminals = TERMINALS, .k = 7, .k16 = 7, .queue = QUEUE, .unit_queue = 4, .control = 4,
                                   .slots = LINES * TERMINALS * 2 * QUEUE, .n201 = 260, .n200 = 3};
static const lapd_lengths lengths = LAPD_DEFAULT_LENGTHS;
static lapd_report report;

static void wants(uint32_t status, const char *what) {
    if (status == LAPD_OK)
        return;
    fprintf(stderr, "image_costs: %s: %s\n", what, lapd_status_text(status));
    exit(1);
}

/* A link comes up from its other end, and gets contents. */
static void link_up(lapd_card *card, uint32_t line, uint8_t service, uint8_t tei, size_t length) {
    static const uint8_t contents[LAPD_MOST_OCTETS] = {8, 1, 1, 0x75};
    const uint8_t sabme[] = {service == LAPD_CALL ? 0x00 : 0x40, (uint8_t)(tei << 1 | 1), 0x7F};
    uint8_t state = 0;
    wants(lapd_frame(card, line, sabme, sizeof sabme, &report), "a frame");
    for (int i = 0; i < QUEUE; i++)
        wants(lapd_data(card, line, service, tei, contents, length, &report), "contents");
    wants(lapd_state(card, line, service, tei, &state), "a state");
    if (state != 7)
        wants(LAPD_REFUSED_WRONG_STATE, "the link");
}

/* All frames that a window lets go have gone: they wait for an acknowledgement. */
static void full(lapd_card *card, size_t length) {
    uint8_t out[LAPD_MOST_FRAME];
    size_t octets;
    for (uint32_t line = 0; line < LINES; line++) {
        for (uint8_t tei = 64; tei < 64 + TERMINALS; tei++) {
            wants(lapd_assign(card, line, tei, &report), "a TEI");
            link_up(card, line, LAPD_CALL, tei, length);
            link_up(card, line, LAPD_PACKET, tei, length);
        }
        while (lapd_next_frame(card, line, out, sizeof out, &octets, &report) == LAPD_OK)
            ;
    }
}

static double microseconds(void) {
    struct timespec time;
    clock_gettime(CLOCK_PROCESS_CPUTIME_ID, &time);
    return (double)time.tv_sec * 1e6 + (double)time.tv_nsec / 1e3;
}

static int by_size(const void *one, const void *two) {
    double a = *(const double *)one, b = *(const double *)two;
    return (a > b) - (a < b);
}

static void show(const char *what, double *took, unsigned turns) {
    qsort(took, turns, sizeof *took, by_size);
    printf("    %s: %.0f us, mostly %.0f us\n", what, took[0], took[turns / 2]);
}

static void measure(bool is_timed, size_t contents, unsigned turns) {
    static double saves[MOST_TURNS], restores[MOST_TURNS], starts[MOST_TURNS];
    lapd_card card = LAPD_CARD_NONE, other = LAPD_CARD_NONE;
    size_t room = lapd_image_octets(&config), length = 0;
    uint8_t *image = malloc(room);
    if (image == NULL)
        exit(1);
    memset(image, 1, room);
    wants(is_timed ? lapd_card_start_frames_timed(&card, &config, &lengths) : lapd_card_start_frames(&card, &config), "a start");
    full(&card, contents);
    for (unsigned turn = 0; turn < turns; turn++) {
        double begun = microseconds();
        wants(lapd_card_save(&card, image, room, &length), "a save");
        saves[turn] = microseconds() - begun;
        begun = microseconds();
        wants(lapd_card_restore(&other, image, length), "a restore");
        restores[turn] = microseconds() - begun;
        wants(lapd_card_free(&other), "an end");
        begun = microseconds();
        wants(is_timed ? lapd_card_start_frames_timed(&other, &config, &lengths) : lapd_card_start_frames(&other, &config), "a start");
        starts[turn] = microseconds() - begun;
        wants(lapd_card_free(&other), "an end");
    }
    printf("%s, contents of %zu octets: an image of %zu octets\n", is_timed ? "own timers" : "no timers", contents, length);
    show("a save", saves, turns);
    show("a restore", restores, turns);
    show("a start, for comparison", starts, turns);
    wants(lapd_card_free(&card), "an end");
    free(image);
}

/* How long the image of a usual line is: without contents, and at most. */
static void lengths_of_line(void) {
    const lapd_config line = LAPD_BASIC_ACCESS;
    for (int is_timed = 0; is_timed < 2; is_timed++) {
        static uint8_t image[1 << 16];
        lapd_card card = LAPD_CARD_NONE;
        size_t none = 0, up = 0;
        wants(is_timed ? lapd_card_start_frames_timed(&card, &line, &lengths) : lapd_card_start_frames(&card, &line), "a start");
        wants(lapd_card_save(&card, image, sizeof image, &none), "a save");
        for (uint8_t tei = 64; tei < 72; tei++) {
            wants(lapd_assign(&card, 0, tei, &report), "a TEI");
            link_up(&card, 0, LAPD_CALL, tei, 0);
            link_up(&card, 0, LAPD_PACKET, tei, 0);
        }
        wants(lapd_card_save(&card, image, sizeof image, &up), "a save");
        wants(lapd_card_free(&card), "an end");
        printf("basic access, %s: %zu octets with no TEI, %zu with 16 links up and %u empty contents, of %u at most\n",
               is_timed ? "own timers" : "no timers", none, up, 16 * QUEUE, lapd_image_octets(&line));
    }
}

int main(int words, char **word) {
    unsigned long turns = words > 1 ? strtoul(word[1], NULL, 10) : 100;
    if (turns < 1 || turns > MOST_TURNS)
        return 2;
    for (int is_timed = 0; is_timed < 2; is_timed++) {
        measure(is_timed, 16, (unsigned)turns);
        measure(is_timed, LAPD_MOST_OCTETS, (unsigned)turns);
    }
    lengths_of_line();
    return 0;
}
