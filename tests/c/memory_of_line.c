/*
 * memory_of_line.c: how many octets of the heap a line of basic access takes, as the network's side with its timers, while the links
 * of its TEIs are up and nothing waits. For tests/bench alone. Compiled with -DLIBPRI it is a line of libpri, whose terminals ask
 * for their TEIs; otherwise one more line of a card of frames, with 4 slots for a message each.
 *
 *     memory_of_line TEIS      1 to 8; prints how many
 */
#include <malloc.h>
#include <stdio.h>
#include <stdlib.h>
#include <string.h>

enum { MOST_TEIS = 8, SLOTS = 4 };

static int fails(const char *what) {
    fprintf(stderr, "memory_of_line: %s\n", what);
    return 1;
}

#ifdef LIBPRI
#include <libpri.h>

static const unsigned char *comes;
static int length;
static unsigned char last[300];

static int give(struct pri *pri, void *octets, int size) {
    (void)pri;
    memcpy(last, octets, (size_t)size < sizeof last ? (size_t)size : sizeof last);
    return size;
}

static int take(struct pri *pri, void *octets, int room) {
    int taken = length;
    (void)pri;
    (void)room;
    if (taken > 0)
        memcpy(octets, comes, (size_t)taken);
    length = 0;
    return taken;
}

static void said(struct pri *pri, char *text) {
    (void)pri;
    (void)text;
}

static void hears(struct pri *pri, const unsigned char *frame, int size) {
    comes = frame;
    length = size;
    pri_check_event(pri);
}

/* A terminal asks for a TEI, and its link comes up. */
static int is_up(struct pri *pri, unsigned char number) {
    unsigned char request[] = {0xFC, 0xFF, 0x03, 0x0F, 0x12, number, 0x01, 0xFF, 0, 0}, sabme[] = {0, 0, 0x7F, 0, 0};
    hears(pri, request, sizeof request);
    if (last[6] != 0x02)
        return 0;
    sabme[1] = last[7];
    hears(pri, sabme, sizeof sabme);
    return last[2] == 0x73;
}

static int prints(int teis) {
    pri_set_message(said);
    pri_set_error(said);
    /* The first one takes what the C library takes once. */
    struct pri *first = pri_new_bri_cb(0, 0, PRI_NETWORK, PRI_SWITCH_EUROISDN_E1, take, give, NULL);
    size_t before = mallinfo2().uordblks;
    struct pri *pri = pri_new_bri_cb(0, 0, PRI_NETWORK, PRI_SWITCH_EUROISDN_E1, take, give, NULL);
    if (first == NULL || pri == NULL)
        return fails("libpri does not start");
    for (int i = 0; i < teis; i++)
        if (!is_up(pri, (unsigned char)i))
            return fails("a link does not come up");
    printf("%zu\n", mallinfo2().uordblks - before);
    return 0;
}
#else
#include "lapd.h"

static uint32_t octets_of(uint8_t lines, uint8_t teis) {
    lapd_config config = LAPD_BASIC_ACCESS;
    config.lines = lines;
    config.terminals = teis;
    config.slots = (uint16_t)(SLOTS * lines);
    return lapd_card_octets_frames_timed(&config);
}

static int prints(int teis) {
    uint32_t one = octets_of(1, (uint8_t)teis), two = octets_of(2, (uint8_t)teis);
    if (one == 0 || two <= one)
        return fails("no card has so many");
    printf("%u\n", (unsigned)(two - one));
    return 0;
}
#endif

int main(int count, char **words) {
    int teis = count == 2 ? atoi(words[1]) : 0;
    return teis < 1 || teis > MOST_TEIS ? fails("TEIS is 1 to 8") : prints(teis);
}
