/*
 * bus.c: a network and its terminals on one bus in simulated time, all of them cards of the library, and what a tap hears, as
 * text for lapd-monitor.
 *
 *     bus SEED [NAME=NUMBER..]
 *
 * Terminals ask for TEIs, verify them, and take them off; the network checks, removes and disowns TEIs, and starts anew. Links
 * come up, and have contents. So many of a hundred frames are lost, by each hearer for itself. Standard error has what was drawn.
 */
#include <inttypes.h>
#include <stdio.h>
#include <stdlib.h>
#include <string.h>

#include "ends.h"

enum { MOST_TERMINALS = 6, WAYS = 1 << 10 };

static struct {
    int terminals, loss, prop, n200, t200, t203, annexb, ms, acts, restart;
} given;

/* Somebody on the bus: 0 is the network. */
typedef struct {
    lapd_card card;
    uint64_t free_at;
} station;

/* A frame on its way. */
typedef struct {
    uint64_t at;
    int from;
    size_t length;
    uint8_t octets[MOST_OCTETS];
} way;

static station stations[1 + MOST_TERMINALS];
static way ways[WAYS];
static unsigned first, count;
static uint64_t now;
static lapd_report report;

static int value_of(char **words, const char *name, int drawn) {
    size_t length = strlen(name);
    for (int i = 2; words[i] != NULL; i++)
        if (strncmp(words[i], name, length) == 0 && words[i][length] == '=')
            drawn = atoi(words[i] + length + 1);
    fprintf(stderr, "%s=%d ", name, drawn);
    return drawn;
}

static void draw(char **words) {
    given.terminals = value_of(words, "terminals", 1 + (int)(chance() % MOST_TERMINALS));
    given.loss = value_of(words, "loss", chance() % 3 ? (int)(chance() % 30) : 0);
    given.prop = value_of(words, "prop", (int)(chance() % 3));
    given.n200 = value_of(words, "n200", (int)(chance() % 4));
    given.t200 = value_of(words, "t200", 600 + (int)(chance() % 800));
    given.t203 = value_of(words, "t203", 3000 + (int)(chance() % 8000));
    given.annexb = value_of(words, "annexb", (int)(chance() % 2));
    given.acts = value_of(words, "acts", 1 + (int)(chance() % 6));
    given.restart = value_of(words, "restart", 0);
    given.ms = value_of(words, "ms", 120000);
    fputs("k=7 down=0 tap=50\n", stderr);
}

static void want(bool is_so, const char *what, uint32_t status) {
    if (is_so)
        return;
    fprintf(stderr, "bus: %s: %s\n", what, lapd_status_text(status));
    exit(2);
}

static void start(int which) {
    lapd_lengths lengths = {.t200 = (uint32_t)given.t200, .t203 = (uint32_t)given.t203, .t201 = 1000, .t202 = 2000};
    lapd_config config = LAPD_BASIC_ACCESS;
    config.k = 7;
    config.k16 = 7;
    config.control = 16;
    config.n200 = (uint16_t)given.n200;
    config.reading = given.annexb ? LAPD_ANNEX_B : LAPD_PROFILE;
    if (which > 0) {
        config.side = LAPD_TERMINAL;
        config.terminals = 2;
        config.slots = 40;
        config.seed = (uint16_t)chance();
    }
    uint32_t status = lapd_card_start_frames_timed(&stations[which].card, &config, &lengths);
    want(status == LAPD_OK, "start", status);
    while ((status = lapd_fall_due(&stations[which].card, now, &report)) == LAPD_OK) {
    }
}

/* ---- Frames ---- */

static void tap(int from, const uint8_t *octets, size_t length) {
    printf("%" PRIu64 " %c ", now, from == 0 ? 'N' : 'U');
    for (size_t i = 0; i < length; i++)
        printf("%02X", octets[i]);
    putchar('\n');
}

static void give(int which) {
    station *it = &stations[which];
    while (it->free_at <= now && count < WAYS) {
        way *next = &ways[(first + count) % WAYS];
        if (lapd_next_frame(&it->card, 0, next->octets, sizeof next->octets, &next->length, &report) != LAPD_OK)
            return;
        it->free_at = now + (next->length + 4) / 2 + 1;
        next->at = now + (uint64_t)given.prop;
        next->from = which;
        tap(which, next->octets, next->length);
        count++;
    }
}

static void hear(int which, const way *it) {
    if (chance() % 100 < (uint32_t)given.loss)
        return;
    uint32_t status = lapd_frame(&stations[which].card, 0, it->octets, it->length, &report);
    want(status == LAPD_OK, "frame", status);
}

static void arrive(void) {
    for (; count > 0 && ways[first].at <= now; first = (first + 1) % WAYS, count--) {
        const way *it = &ways[first];
        if (it->from > 0)
            hear(0, it);
        else
            for (int i = 1; i <= given.terminals; i++)
                hear(i, it);
    }
}

/* ---- What layers 3 and management ask; what is not served is refused ---- */

static void ask_of_link(lapd_card *card, const lapd_link *link) {
    uint8_t octets[40] = {8, 1, 1};
    uint32_t x = chance() % 3000;
    if (link->service != LAPD_CALL)
        return;
    if (link->state == 4 && x < 6)
        (void)!lapd_establish(card, 0, LAPD_CALL, link->tei, &report);
    else if ((link->state == 5 || link->state >= 7) && x < 3) /* in state 5 by annex B */
        (void)!lapd_release(card, 0, LAPD_CALL, link->tei, &report);
    else if (link->state >= 7 && x < 40)
        (void)!lapd_data(card, 0, LAPD_CALL, link->tei, octets, 3 + chance() % 30, &report);
    else if (link->state >= 7 && x >= 2990)
        (void)!(x < 2995 ? lapd_busy(card, 0, LAPD_CALL, link->tei, &report) : lapd_ready(card, 0, LAPD_CALL, link->tei, &report));
}

static void ask_network(void) {
    lapd_card *card = &stations[0].card;
    uint8_t tei = (uint8_t)(64 + chance() % 10), octets[5] = {8};
    uint32_t x = chance() % 20000;
    if (x < (uint32_t)given.acts)
        (void)!lapd_check(card, 0, tei, &report);
    else if (x < 2 * (uint32_t)given.acts)
        (void)!lapd_remove(card, 0, tei, &report);
    else if (x < 2 * (uint32_t)given.acts + 1)
        (void)!lapd_disown(card, 0, chance() % 2 ? tei : LAPD_GROUP_TEI, &report);
    else if (x == 100)
        (void)!lapd_unit(card, 0, LAPD_CALL, LAPD_GROUP_TEI, octets, sizeof octets, &report);
    else if (x >= 200 && x < 200 + (uint32_t)given.restart) {
        want(lapd_card_free(card) == LAPD_OK, "free", LAPD_OK);
        start(0);
    }
}

static void ask_terminal(int which) {
    lapd_card *card = &stations[which].card;
    uint32_t x = chance() % 20000;
    lapd_link link;
    uint8_t place = 0;
    bool has_one = lapd_next_link(card, 0, &place, &link) == LAPD_OK;
    if (!has_one ? x < 40 : x < 1)
        (void)!lapd_ask_tei(card, 0, &report);
    else if (has_one && x >= 100 && x < 100 + (uint32_t)given.acts)
        (void)!lapd_verify_tei(card, 0, link.tei, &report);
    else if (has_one && x >= 200 && x < 200 + (uint32_t)given.acts / 2)
        (void)!lapd_remove(card, 0, link.tei, &report);
}

static void ask(int which) {
    uint8_t place = 0;
    for (lapd_link link; lapd_next_link(&stations[which].card, 0, &place, &link) == LAPD_OK;)
        ask_of_link(&stations[which].card, &link);
    if (which == 0)
        ask_network();
    else
        ask_terminal(which);
}

int main(int words_count, char **words) {
    if (words_count < 2) {
        fputs("usage: bus SEED [NAME=NUMBER..]\n", stderr);
        return 2;
    }
    chance_begin(strtoull(words[1], NULL, 10));
    draw(words);
    for (int i = 0; i <= given.terminals; i++)
        start(i);
    for (now = 1; now < (uint64_t)given.ms; now++) {
        for (int i = 0; i <= given.terminals; i++)
            while (lapd_fall_due(&stations[i].card, now, &report) == LAPD_OK) {
            }
        arrive();
        for (int i = 0; i <= given.terminals; i++)
            ask(i);
        for (int i = 0; i <= given.terminals; i++)
            give(i);
    }
    return 0;
}
