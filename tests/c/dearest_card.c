/* dearest_card.c: see dearest_card.h. */
#include "dearest_card.h"

#include <stdio.h>
#include <stdlib.h>
#include <string.h>

#include "lapd_memory.h"

enum { T200 = 10000, T203 = 200000, T201 = 1000, T202 = 1000, OLD = 126, FIRST_TEI = 64, MOST_SLOTS = LINKS * 127 };

lapd_card card;
lapd_config config;
lapd_report report;
uint8_t teis[TEIS], va[LINKS], vr[LINKS], reference[2];

static const lapd_lengths lengths = {T200, T203, T201, T202, {0}};
static bool has_timers; /* the card keeps its own */
static uint64_t now;
static uint32_t drawn;

void wants(bool is, const char *what) {
    if (!is) {
        fprintf(stderr, "dearest: %s\n", what);
        exit(1);
    }
}

void draw(uint32_t seed) {
    drawn = seed;
}

unsigned below(unsigned most) {
    drawn = drawn * 1664525 + 1013904223;
    return (drawn >> 8) % most;
}

/* ---- Memory: that of contents apart, of which a frame changes the first two octets of a slot at most: free ones are listed there */

typedef struct {
    lapd_card card;
    uint64_t now;
    size_t used;
    uint8_t teis[TEIS], va[LINKS], vr[LINKS];
    uint16_t free_slots[MOST_SLOTS];
    uint8_t heap[1 << 17] __attribute__((aligned(16)));
} moment;

static moment is, was, of_old[2][2];
static uint8_t contents[MOST_SLOTS * N201] __attribute__((aligned(16))), contents_were[MOST_SLOTS * N201];

rattle_tried rattle_alloc(size_t octets, size_t alignment) {
    (void)alignment;
    if (octets == (size_t)config.slots * config.n201)
        return (rattle_tried){octets <= sizeof contents, contents};
    rattle_tried tried = {is.used + octets <= sizeof is.heap, is.heap + is.used};
    is.used += (octets + 15) / 16 * 16;
    return tried;
}

rattle_tried rattle_realloc(void *at, size_t old_octets, size_t octets, size_t alignment) {
    rattle_tried tried = rattle_alloc(octets, alignment);
    memmove(tried.at, at, old_octets < octets ? old_octets : octets);
    return tried;
}

void rattle_dealloc(void *at) {
    (void)at;
}

static void list_free(uint16_t *to) {
    for (size_t slot = 0; slot < config.slots; slot++)
        memcpy(&to[slot], contents + slot * config.n201, sizeof *to);
}

static void list_again(const uint16_t *from) {
    for (size_t slot = 0; slot < config.slots; slot++)
        memcpy(contents + slot * config.n201, &from[slot], sizeof *from);
}

static void copy(moment *to, const moment *from) {
    memcpy(to, from, offsetof(moment, heap) + from->used);
}

static void store(moment *to) {
    is.card = card;
    is.now = now;
    memcpy(is.teis, teis, sizeof teis);
    memcpy(is.va, va, sizeof va);
    memcpy(is.vr, vr, sizeof vr);
    list_free(is.free_slots);
    copy(to, &is);
}

static void bring(const moment *from) {
    copy(&is, from);
    list_again(is.free_slots);
    card = is.card;
    now = is.now;
    memcpy(teis, is.teis, sizeof teis);
    memcpy(va, is.va, sizeof va);
    memcpy(vr, is.vr, sizeof vr);
}

void bring_up(bool is_old, bool is_remembered) {
    bring(&of_old[is_old][is_remembered]);
}

void keep(void) {
    store(&was);
    memcpy(contents_were, contents, sizeof contents);
}

void put_back(void) {
    memcpy(is.heap, was.heap, was.used);
    list_again(was.free_slots);
}

bool is_kept(void) {
    put_back();
    return memcmp(contents, contents_were, sizeof contents) == 0;
}

/* ---- What happens ------------------------------------------------------------------------------------------------------------- */

uint8_t first_octet(unsigned sapi, bool is_command) {
    return (uint8_t)(sapi << 2 | (is_command == (config.side == LAPD_NETWORK) ? 0 : 2));
}

size_t message(uint8_t *octets, uint8_t type, const uint8_t *ri, const uint8_t *ai, size_t count) {
    const uint8_t head[] = {first_octet(63, true), 0xFF, 0x03, 0x0F, ri[0], ri[1], type};
    memcpy(octets, head, sizeof head);
    memcpy(octets + sizeof head, ai, count);
    return sizeof head + count;
}

void says(uint8_t type, uint8_t tei) {
    const uint8_t ri[2] = {0x10, (uint8_t)(tei & 3)}, ai = (uint8_t)(2 * tei + 1);
    uint8_t octets[8];
    wants(lapd_frame(&card, 0, octets, message(octets, type, ri, &ai, 1), &report) == LAPD_OK, "a message of the preparation");
}

/* All that waits is sent; a terminal's number is that of its latest request. */
void drain(void) {
    static uint8_t out[LAPD_MOST_FRAME];
    size_t length;
    while (lapd_next_frame(&card, 0, out, sizeof out, &length, &report) == LAPD_OK)
        if (out[1] == 0xFF && out[6] == 1)
            memcpy(reference, out + 4, sizeof reference);
}

static void pass(uint64_t time) {
    uint32_t status = LAPD_OK;
    for (now += time; status == LAPD_OK;)
        status = lapd_fall_due(&card, now, &report);
    wants(status == LAPD_NO_TIMER, "time does not pass");
}

uint8_t service_of(unsigned link) {
    return link % 2 == 0 ? LAPD_CALL : LAPD_PACKET;
}

void expire(uint8_t timer, bool (*which)(unsigned link)) {
    if (has_timers)
        pass(timer == LAPD_T200 ? T200 : T201);
    for (unsigned link = 0; !has_timers && link < LINKS; link++) {
        const lapd_timer it = {timer, service_of(link), teis[link / 2]};
        wants(!which(link) || lapd_expire(&card, 0, &it, &report) == LAPD_OK, "a timer does not expire");
    }
}

void hears(unsigned link, bool is_command, uint8_t control, int second) {
    const uint8_t octets[] = {first_octet(link % 2 == 0 ? 0 : 16, is_command), (uint8_t)(2 * teis[link / 2] + 1), control, (uint8_t)second};
    wants(lapd_frame(&card, 0, octets, second < 0 ? 3 : 4, &report) == LAPD_OK, "a frame of the preparation");
}

uint32_t asks_to_send(unsigned link) {
    static const uint8_t information[N201];
    return lapd_data(&card, 0, service_of(link), teis[link / 2], information, sizeof information, &report);
}

/* ---- Cards whose links are in state 7 ------------------------------------------------------------------------------------------- */

static void come_teis(bool is_remembered) {
    for (unsigned at = 0; at < TEIS; at++) {
        teis[at] = (uint8_t)(FIRST_TEI + at - (is_remembered && at >= BY_HAND));
        if (is_remembered && at == BY_HAND - 1)
            teis[at] = 0;
        if (is_remembered && at >= BY_HAND) {
            const uint8_t ri[] = {0x10, (uint8_t)at}, ai = 0xFF;
            uint8_t octets[8];
            wants(lapd_frame(&card, 0, octets, message(octets, 1, ri, &ai, 1), &report) == LAPD_OK && report.notes[0].tei == teis[at], "no TEI");
            drain();
        } else
            wants(lapd_assign(&card, 0, teis[at], &report) == LAPD_OK, "no TEI");
    }
}

/* So many contents go and so many come on each link, all acknowledged. */
static void grow_old(unsigned times) {
    for (unsigned time = 1; time <= times; time++) {
        for (unsigned link = 0; link < LINKS; link++)
            wants(asks_to_send(link) == LAPD_OK, "nothing is sent");
        drain();
        for (unsigned link = 0; link < LINKS; link++)
            hears(link, true, (uint8_t)(2 * time - 2), (int)(2 * time));
        drain();
    }
    memset(va, (int)times, sizeof va);
    memset(vr, (int)times, sizeof vr);
}

static void come_up(bool is_old, bool is_remembered) {
    card = (lapd_card)LAPD_CARD_NONE;
    is.used = 0;
    now = 0;
    wants((has_timers ? lapd_card_start_frames_timed(&card, &config, &lengths) : lapd_card_start_frames(&card, &config)) == LAPD_OK, "no card");
    come_teis(is_remembered);
    for (unsigned link = 0; link < LINKS; link++) {
        if (has_timers && is_old)
            pass(1);
        wants(lapd_establish(&card, 0, service_of(link), teis[link / 2], &report) == LAPD_OK, "no establishment");
        drain();
        hears(link, false, 0x73, -1);
    }
    grow_old(is_old ? OLD : 0);
    store(&of_old[is_old][is_remembered]);
}

void begin(const kind *of) {
    const lapd_config basic = LAPD_BASIC_ACCESS;
    config = basic;
    config.side = of->side;
    config.reading = of->reading;
    has_timers = of->has_timers;
    if (of->is_wide) {
        config.k = config.k16 = config.queue = 127;
        config.control = 16;
        config.slots = LINKS * 127;
    }
    for (unsigned each = 0; each < 4; each++)
        if (each < 2 || of->side == LAPD_NETWORK)
            come_up(each % 2 == 1, each >= 2);
}
