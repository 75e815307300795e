/*
 * timed.c: a card that keeps its own timers, of either kind, beside one to which the same happens and whose timers are on a
 * clock: both tell the same, but for orders, and give the same; each timer falls due at the same moment, and in the same order;
 * the next moment, states, rooms and counters are the same. Time goes on at random, mostly to the next moment, and also far over
 * it; it is told by itself, or by a call that takes the moment with what comes. A moment before the last is refused, as is a second start, and nothing changes. After the start no memory is taken. For
 * tests alone.
 *
 *     timed SEED [octets]
 */
#include <inttypes.h>
#include <stdio.h>
#include <stdlib.h>
#include <string.h>

#include "hdlc.h"
#include "lapd.h"
#include "lapd_memory.h"

enum { TURNS = 60000, LINES = 3, LOOKS_EACH = 500, MOST_RUN = 40 };

static lapd_config config = {.lines = LINES, .terminals = 4, .k = 3, .k16 = 1, .queue = 4, .unit_queue = 2, .control = 4, .slots = 20,
                             .n201 = 16, .n200 = 2};
static const lapd_lengths lengths = {100, 1000, 150, 250, {0}};
static lapd_card timed = LAPD_CARD_NONE, plain = LAPD_CARD_NONE;
static lapd_clock timers = LAPD_CLOCK_NONE;
static uint64_t now;
static uint32_t seed;
static unsigned expired, frames, exchanged;
static const lapd_timer no_timer;
static const lapd_report before = {.expired = {9, 9, 9}}; /* what a report had before a call */
static bool for_octets, has_started;
static uint8_t asked[2]; /* the reference number of the latest frame of TEI management that went */
static hdlc_sender senders[LINES];

static void fail(const char *what) {
    fprintf(stderr, "timed: at %" PRIu64 " ms: %s\n", now, what);
    exit(1);
}

static void wants(bool is, const char *what) {
    if (!is)
        fail(what);
}

static unsigned below(unsigned most) {
    seed = seed * 1664525 + 1013904223;
    return (seed >> 8) % most;
}

/* ---- Memory, which a start alone takes ------------------------------------------------------------------------------ */

static rattle_tried answer(void *at) {
    static char nothing;
    rattle_tried tried = {at != NULL, at != NULL ? at : &nothing};
    wants(!has_started, "memory is taken after the start");
    return tried;
}

rattle_tried rattle_alloc(size_t octets, size_t alignment) {
    return answer(malloc(octets > 0 ? octets : alignment));
}

rattle_tried rattle_realloc(void *at, size_t old_octets, size_t octets, size_t alignment) {
    (void)old_octets;
    return answer(realloc(at, octets > 0 ? octets : alignment));
}

void rattle_dealloc(void *at) {
    wants(!has_started, "memory is given back before the end");
    free(at);
}

/* ---- The same at both cards ----------------------------------------------------------------------------------------- */

/* What the one card tells is what the other does, but for orders, which go to the clock. */
static void same_report(uint32_t line, const lapd_report *own, const lapd_report *told) {
    wants(own->order_count == 0, "an order");
    wants(own->note_count == told->note_count && own->cause == told->cause && own->lost == told->lost && own->begun == told->begun
              && own->delivered == told->delivered && own->length == told->length && own->more == told->more
              && own->reopened == told->reopened && own->given_up == told->given_up && own->given_up_16 == told->given_up_16
              && own->given_up_tei == told->given_up_tei,
          "another report");
    wants(!own->reopened || (own->reopened_service == told->reopened_service && own->reopened_tei == told->reopened_tei), "another link has room");
    wants(memcmp(own->notes, told->notes, own->note_count * sizeof *own->notes) == 0
              && memcmp(own->contents, told->contents, own->length) == 0, "other notes or contents");
    wants(lapd_clock_apply_report(&timers, line, told, now) == LAPD_OK, "no orders");
}

static void same(uint32_t line, uint32_t status, const lapd_report *own, uint32_t other, const lapd_report *told) {
    wants(status == other, "another status");
    if (status != LAPD_OK)
        return;
    wants(own->line == line && told->line == line, "another line");
    wants(memcmp(&own->expired, &no_timer, sizeof no_timer) == 0
              && memcmp(&told->expired, &no_timer, sizeof no_timer) == 0, "a timer that expired in no lapd_fall_due");
    same_report(line, own, told);
}

/* A timer has expired at the one card, and its report names it: the same falls due at the other. */
static void expires(lapd_report *own) {
    lapd_report told = before;
    lapd_due due;
    wants(lapd_clock_due(&timers, now, &due) == LAPD_OK && due.line == own->line
              && memcmp(&due.timer, &own->expired, sizeof due.timer) == 0, "another timer is due");
    own->expired = no_timer;
    same(due.line, LAPD_OK, own, lapd_expire(&plain, due.line, &due.timer, &told), &told);
    expired++;
}

static void none_is_due(void) {
    lapd_due none;
    wants(lapd_clock_due(&timers, now, &none) == LAPD_NO_TIMER, "a timer is left");
}

/* What is due falls due, at both, in one order. */
static void falls_due(void) {
    lapd_report own = before;
    uint32_t status;
    while ((status = lapd_fall_due(&timed, now, &own)) == LAPD_OK)
        expires(&own);
    wants(status == LAPD_NO_TIMER, "time does not go on");
    none_is_due();
}

static void moments(void) {
    uint64_t own = 1, other = 2;
    uint32_t status = lapd_next_moment(&timed, &own);
    wants(status == lapd_clock_next(&timers, &other), "a moment, or none");
    wants(status != LAPD_OK || (own == other && own > now), "another moment");
}

/* Other lengths for timers that are started from now on, at both; mostly good ones. */
static void lengths_change(void) {
    const lapd_lengths to = {below(200), 1 + below(2000), 1 + below(300), 1 + below(500), {0}};
    uint32_t status = lapd_card_set_lengths(&timed, &to);
    wants(status == (to.t200 == 0 ? LAPD_WRONG_TIME : LAPD_OK), "other lengths");
    wants(lapd_clock_set_lengths(&timers, to.t200, to.t203, to.t201, to.t202) == status, "other lengths of the clock");
}

static uint32_t start_timed(lapd_card *card, const lapd_lengths *of) {
    return for_octets ? lapd_card_start_timed(card, &config, of) : lapd_card_start_frames_timed(card, &config, of);
}

/* A later moment: mostly the next; or a little later, or much. */
static void later(void) {
    uint64_t next = now;
    if (below(3) == 0 || lapd_clock_next(&timers, &next) != LAPD_OK)
        next = now + below(below(10) == 0 ? 5000 : 60);
    now = next;
}

/* Whether the next call takes the moment with what comes. */
static bool has_moment(void) {
    bool answer = below(3) == 0;
    if (answer)
        later();
    return answer;
}

/* Time does not go back, and no card starts twice. */
static void time_goes_on(void) {
    lapd_report told = {.line = 7};
    later();
    falls_due();
    wants(now == 0 || lapd_fall_due(&timed, below(2) ? now - 1 : now / 2, &told) == LAPD_WRONG_TIME, "time goes back");
    wants(lapd_fall_due(&timed, LAPD_LATEST + below(2), &told) == LAPD_WRONG_TIME, "a moment that is too late");
    wants(start_timed(&timed, &lengths) == LAPD_SECOND_START && told.line == 7, "a second start, or a report of a wrong call");
}

static uint8_t tei(void) {
    static const uint8_t some[] = {64, 64, 64, 65, 66, 70, 127};
    return some[below(sizeof some)];
}

/* ---- What comes and goes -------------------------------------------------------------------------------------------- */

static void octet_comes(uint32_t line, uint8_t octet) {
    lapd_report own = before, told = before;
    uint32_t status = lapd_octet(&timed, line, octet, &own);
    same(line, status, &own, lapd_octet(&plain, line, octet, &told), &told);
}

/* Octets come and go in turn. Where the one card stops, the other has told orders before, and no more than these. */
static void exchange(uint32_t line, const uint8_t *in, size_t length) {
    uint8_t out[MOST_RUN] = {0}, other[MOST_RUN] = {0};
    bool at = has_moment();
    for (size_t steps = 0, reached = 0; steps < 2 * length;) {
        lapd_report own = before, told = before, nothing = {.given_up_tei = 255};
        size_t first = steps;
        wants((at ? lapd_exchange_at(&timed, now, line, in, length, out, length, &steps, &own)
                  : lapd_exchange(&timed, line, in, length, out, length, &steps, &own)) == LAPD_OK, "no exchange");
        if (steps == first) { /* a timer expired */
            wants(at, "no step");
            expires(&own);
            continue;
        }
        none_is_due();
        wants(lapd_exchange(&plain, line, in, length, other, length, &reached, &told) == LAPD_OK, "no exchange of the other");
        while (reached < steps) {
            same_report(line, &nothing, &told);
            told = nothing;
            wants(lapd_exchange(&plain, line, in, length, other, length, &reached, &told) == LAPD_OK, "no exchange of the other");
        }
        wants(reached == steps, "another step tells something");
        same_report(line, &own, &told);
        wants(!lapd_tells(&own) || own.line == line, "another line of an exchange");
        exchanged++;
    }
    wants(memcmp(out, other, length) == 0, "other octets");
}

/* A frame of a terminal, as octets. */
static void octets_come(uint32_t line, const uint8_t *octets, size_t length) {
    uint8_t run[MOST_RUN];
    size_t count = 0;
    hdlc_load(&senders[line], octets, length);
    for (size_t left = hdlc_left(&senders[line]), given = 0; given < left && count < MOST_RUN; given += 8)
        run[count++] = hdlc_octet(&senders[line]);
    if (below(2) == 0)
        exchange(line, run, count);
    else
        for (size_t i = 0; i < count; i++)
            octet_comes(line, run[i]);
}

static void frame_comes(void) {
    uint8_t address = (uint8_t)(tei() << 1 | 1), sapi = below(4) ? 0x00 : 0x40, nr = (uint8_t)(2 * below(5));
    uint8_t from[][10] = {{sapi, address, 0x7F}, {sapi, address, 0x7F}, {sapi, address, 0x53}, {sapi | 2, address, 0x73},
                          {sapi, address, (uint8_t)(2 * below(4)), nr, 1, 2}, {sapi | 2, address, 0x01, (uint8_t)(nr | below(2))},
                          {sapi, address, 0x01, nr | 1}, {sapi | 2, address, 0x05, nr}, {sapi | 2, address, 0x1F},
                          {0xFC, 0xFF, 0x03, 0x0F, 0x12, (uint8_t)below(256), 0x01, 0xFF}, {0xFC, 0xFF, 0x03, 0x0F, 1, 2, 0x05, address},
                          {0xFE, 0xFF, 0x03, 0x0F, asked[0], asked[1], 0x02, (uint8_t)(2 * (64 + below(8)) + 1)},
                          {0xFE, 0xFF, 0x03, 0x0F, asked[0], asked[1], (uint8_t)(2 + below(5)), address}};
    static const size_t octets[] = {3, 3, 3, 3, 6, 4, 4, 4, 3, 8, 8, 8, 8};
    unsigned which = below(sizeof octets / sizeof *octets);
    uint32_t line = below(LINES);
    if (config.side != LAPD_NETWORK && which < 9)
        from[which][0] ^= 2;
    if (for_octets) {
        octets_come(line, from[which], octets[which]);
        return;
    }
    lapd_report own = before, told = before;
    uint32_t status = LAPD_OK;
    bool is_done = !has_moment();
    if (is_done)
        status = lapd_frame(&timed, line, from[which], octets[which], &own);
    while (!is_done && (status = lapd_frame_at(&timed, now, line, from[which], octets[which], &is_done, &own)) == LAPD_OK && !is_done)
        expires(&own);
    none_is_due();
    same(line, status, &own, lapd_frame(&plain, line, from[which], octets[which], &told), &told);
}

static void octets_go(void) {
    uint32_t line = below(LINES);
    for (unsigned left = 10 + below(60); left > 0; left--) {
        uint8_t octet = 0, other = 1;
        lapd_report own = before, told = before;
        uint32_t status = lapd_pull(&timed, line, &octet, &own);
        same(line, status, &own, lapd_pull(&plain, line, &other, &told), &told);
        wants(octet == other, "another octet");
        frames += own.begun;
    }
}

static void frames_go(void) {
    bool at = has_moment();
    for (uint32_t line = 0; lapd_next_waiting(&timed, line, &line) == LAPD_OK;) {
        uint8_t out[LAPD_MOST_FRAME], other[LAPD_MOST_FRAME];
        size_t length = 0, octets = 1;
        lapd_report own = before, told = before;
        uint32_t status = at ? lapd_next_frame_at(&timed, now, line, out, sizeof out, &length, &own)
                             : lapd_next_frame(&timed, line, out, sizeof out, &length, &own);
        if (at && status == LAPD_OK && length == 0) {
            expires(&own);
            line = 0; /* frames may wait on the lines before */
            continue;
        }
        same(line, status, &own, lapd_next_frame(&plain, line, other, sizeof other, &octets, &told), &told);
        wants(length == octets && memcmp(out, other, length) == 0, "another frame");
        if (out[0] >> 2 == 63)
            memcpy(asked, out + 4, sizeof asked);
        frames++;
    }
    falls_due(); /* of a moment that no call took, as no frame waits */
    uint32_t own_first = LINES, first = LINES;
    wants(lapd_next_waiting(&timed, 0, &own_first) == lapd_next_waiting(&plain, 0, &first) && own_first == first, "another frame waits");
}

static void is_asked(void) {
    static const uint8_t contents[17] = {1, 2, 3};
    uint8_t request = (uint8_t)(1 + below(14)), of = tei(), service = below(4) ? LAPD_CALL : LAPD_PACKET;
    if (request >= LAPD_DEACTIVATE && request <= LAPD_DISOWN && below(8) != 0)
        request = LAPD_DATA;
    size_t length = request == LAPD_DATA || request == LAPD_UNIT ? below(18) : 0;
    uint32_t line = below(LINES);
    lapd_report own = before, told = before;
    uint32_t status = LAPD_OK;
    bool is_done = !has_moment();
    if (is_done)
        status = lapd_request_with(&timed, line, request, service, of, contents, length, &own);
    while (!is_done && (status = lapd_request_at(&timed, now, line, request, service, of, contents, length, &is_done, &own)) == LAPD_OK && !is_done)
        expires(&own);
    none_is_due();
    same(line, status, &own, lapd_request_with(&plain, line, request, service, of, contents, length, &told), &told);
}

/* ---- What the cards say of themselves ------------------------------------------------------------------------------- */

/* The state of each link as it was looked at last, and since when it is so. It is 0 if the link's TEI is not on the line. */
static uint8_t states[LINES][2][LAPD_GROUP_TEI];
static uint64_t since[LINES][2][LAPD_GROUP_TEI];
static uint64_t looked; /* the moment of that look */

static void changes(uint32_t line, uint8_t tei, unsigned which) {
    static const uint8_t services[2] = {LAPD_CALL, LAPD_PACKET};
    uint8_t state = 0;
    uint64_t told = 0;
    wants(lapd_state(&timed, line, services[which], tei, &state) == LAPD_OK, "no state");
    uint32_t status = lapd_changed_at(&timed, line, services[which], tei, &told);
    wants(status == (state == 0 ? LAPD_REFUSED_NO_LINK : LAPD_OK), "changes of another link");
    if (state != 0)
        wants(told <= now && (told >= looked || (state == states[line][which][tei] && told == since[line][which][tei])), "a change at another moment");
    states[line][which][tei] = state;
    since[line][which][tei] = told;
}

static void same_links(uint32_t line) {
    for (uint8_t tei = 0; tei < LAPD_GROUP_TEI; tei++)
        for (unsigned which = 0; which < 2; which++)
            changes(line, tei, which);
    uint8_t place = 0, at = 0;
    lapd_link link = {0}, other = {0};
    uint32_t status;
    while ((status = lapd_next_link(&timed, line, &place, &link)) == LAPD_OK) {
        struct lapd_room room = {0}, same_room = {0};
        struct lapd_link_counters counted = {0}, same_counted = {0};
        wants(lapd_next_link(&plain, line, &at, &other) == LAPD_OK && at == place && memcmp(&link, &other, sizeof link) == 0, "another state");
        wants(lapd_room(&timed, line, link.service, link.tei, &room) == LAPD_OK && lapd_room(&plain, line, link.service, link.tei, &same_room) == LAPD_OK
                  && room.pool == same_room.pool && room.queue == same_room.queue && room.va == same_room.va, "another room");
        wants(lapd_link_counters(&timed, line, link.service, link.tei, &counted) == LAPD_OK
                  && lapd_link_counters(&plain, line, link.service, link.tei, &same_counted) == LAPD_OK
                  && memcmp(&counted, &same_counted, sizeof counted) == 0, "other counters of a link");
    }
    wants(status == LAPD_NO_MORE_LINKS && lapd_next_link(&plain, line, &at, &other) == status, "other links");
}

static void look(void) {
    uint32_t stored = 0, other_stored = 1;
    for (uint32_t line = 0; line < LINES; line++) {
        struct lapd_counters own, other;
        wants(lapd_counters(&timed, line, &own) == LAPD_OK && lapd_counters(&plain, line, &other) == LAPD_OK
                  && memcmp(&own, &other, sizeof own) == 0, "other counters");
        same_links(line);
    }
    wants(lapd_stored(&timed, &stored) == LAPD_OK && lapd_stored(&plain, &other_stored) == LAPD_OK && stored == other_stored, "other octets are stored");
    looked = now;
}

/* Calls of a card that keeps its own timers, and of one that does not. */
static void wrong_calls(void) {
    static const lapd_timer timer = {LAPD_T201, 0, 0};
    static const lapd_lengths bad[] = {{0, 1, 1, 1, {0}}, {1, 3600001, 1, 1, {0}}, {1, 1, UINT32_MAX, 1, {0}}, {1, 1, 1, 0, {0}}, {1, 1, 1, 3600001, {0}}};
    lapd_card none = LAPD_CARD_NONE;
    lapd_config bad_config = config;
    lapd_report told = {.line = 9};
    uint64_t moment = 5;
    wants(lapd_fall_due(&none, 0, &told) == LAPD_NO_CARD && lapd_next_moment(&none, &moment) == LAPD_NO_CARD
              && lapd_changed_at(&none, 0, LAPD_CALL, 64, &moment) == LAPD_NO_CARD, "no card");
    wants(lapd_fall_due(&plain, 0, &told) == LAPD_WRONG_CARD && lapd_next_moment(&plain, &moment) == LAPD_WRONG_CARD, "a card without timers");
    wants(lapd_changed_at(&plain, 0, LAPD_CALL, 64, &moment) == LAPD_WRONG_CARD, "changes of a card without timers");
    wants(lapd_changed_at(&timed, LINES, LAPD_CALL, 64, &moment) == LAPD_WRONG_LINE && lapd_changed_at(&timed, 0, 1, 64, &moment) == LAPD_WRONG_SERVICE
              && lapd_changed_at(&timed, 0, LAPD_CALL, 127, &moment) == LAPD_WRONG_TEI
              && lapd_changed_at(&timed, 0, LAPD_CALL, 64, &moment) == LAPD_REFUSED_NO_LINK && moment == 5, "changes of no link");
    wants(lapd_expire(&timed, 0, &timer, &told) == LAPD_WRONG_CARD, "an expiry that is not its own");
    wants(lapd_fall_due(&timed, LAPD_LATEST, &told) == LAPD_WRONG_TIME && lapd_fall_due(&timed, 0, &told) == LAPD_NO_TIMER, "the latest moment");
    wants(lapd_next_moment(&timed, &moment) == LAPD_NO_TIMER && moment == 5 && told.line == 9, "a wrong call has told something");
    wants(lapd_card_set_lengths(&none, &lengths) == LAPD_NO_CARD && lapd_card_set_lengths(&plain, &lengths) == LAPD_WRONG_CARD,
          "lengths of no card, or of one without timers");
    for (unsigned i = 0; i < sizeof bad / sizeof *bad; i++)
        wants(start_timed(&none, &bad[i]) == LAPD_WRONG_TIME && !none.started && lapd_card_set_lengths(&timed, &bad[i]) == LAPD_WRONG_TIME,
              "lengths out of range");
    bad_config.lines = 0;
    wants(lapd_card_start_timed(&none, &bad_config, &lengths) == LAPD_BAD_LINES && lapd_card_start_frames_timed(&none, &bad_config, &lengths) == LAPD_BAD_LINES,
          "no lines");
}

static void starts(void) {
    wants(start_timed(&timed, &lengths) == LAPD_OK, "no start");
    wants((for_octets ? lapd_card_start(&plain, &config) : lapd_card_start_frames(&plain, &config)) == LAPD_OK, "no start of the other");
    wants(lapd_clock_start(&timers, &config) == LAPD_OK
              && lapd_clock_set_lengths(&timers, lengths.t200, lengths.t203, lengths.t201, lengths.t202) == LAPD_OK, "no clock");
    for (uint32_t line = 0; line < LINES; line++)
        hdlc_begin(&senders[line]);
    wrong_calls();
    has_started = true;
}

/* A card that starts anew is at moment 0, and none of its timers runs. */
static void ends(void) {
    lapd_report told = {0};
    uint64_t moment = 0;
    has_started = false;
    wants(lapd_card_free(&timed) == LAPD_OK && lapd_card_free(&plain) == LAPD_OK && lapd_clock_free(&timers) == LAPD_OK, "no end");
    wants(lapd_fall_due(&timed, now, &told) == LAPD_NO_CARD && start_timed(&timed, &lengths) == LAPD_OK, "no start after the end");
    wants(lapd_next_moment(&timed, &moment) == LAPD_NO_TIMER && lapd_fall_due(&timed, 0, &told) == LAPD_NO_TIMER, "a timer of the card before");
    wants(lapd_card_free(&timed) == LAPD_OK, "no second end");
}

int main(int words, char **word) {
    seed = words > 1 ? (uint32_t)strtoul(word[1], NULL, 10) : 1;
    for_octets = words > 2 && strcmp(word[2], "octets") == 0;
    if (words > 3 && strcmp(word[3], "terminal") == 0)
        config.side = LAPD_TERMINAL;
    starts();
    for (unsigned turn = 0; turn < TURNS; turn++) {
        switch (below(8)) {
        case 0: case 1: time_goes_on(); break;
        case 2: case 3: case 4: frame_comes(); break;
        case 5: for_octets ? octets_go() : frames_go(); break;
        default: is_asked();
        }
        if (below(100) == 0)
            lengths_change();
        moments();
        if (turn % LOOKS_EACH == 0)
            look();
    }
    look();
    wants(expired > 500 && frames > 2000 && (!for_octets || exchanged > 2000), "too little has happened");
    ends();
    return 0;
}
