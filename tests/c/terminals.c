/*
 * terminals.c: a card that is a terminal. What it sends and tells for each message of the network and each request, with and
 * without timers of its own; which requests are refused at each side, and in which order; that no message of a terminal waits
 * twice, and none is lost; that its reference numbers come again only after all others; and what of the network's it does not
 * serve. For tests alone: tests/c/run.
 */
#include <stdio.h>
#include <stdlib.h>
#include <string.h>

#include "lapd.h"
#include "one_terminal.h"

enum { ROUNDS = 1000, NUMBERS = 65536 };

static const lapd_config one = {.lines = 1, .terminals = 8, .k = 7, .k16 = 8, .queue = 8, .unit_queue = 4, .control = 4,
                                .slots = 64, .n201 = 260, .n200 = 3, .side = LAPD_TERMINAL, .seed = 0x1234};

static void asks(void) {
    terminal_wants(terminal_told(lapd_ask_tei(&card, 0, &report)) == LAPD_OK, "a terminal does not ask");
}

static void verifies(uint8_t tei) {
    terminal_wants(terminal_told(lapd_verify_tei(&card, 0, tei, &report)) == LAPD_OK, "a terminal does not verify");
}

static void has(uint8_t tei) {
    terminal_wants(terminal_told(lapd_assign(&card, 0, tei, &report)) == LAPD_OK, "a TEI is not put on the line");
}

/* Its call link's state; 0 if the TEI is not on the line. */
static uint8_t state(uint8_t tei) {
    uint8_t state = 0;
    terminal_wants(lapd_state(&card, 0, LAPD_CALL, tei, &state) == LAPD_OK, "no state");
    return state;
}

static uint64_t count(unsigned place) {
    struct lapd_counters counters;
    terminal_wants(lapd_counters(&card, 0, &counters) == LAPD_OK, "no counters");
    return counters.values[place];
}

/* ---- A terminal asks for a TEI (clause 5.3.2) --------------------------------------------------------------------- */

static void is_assigned(void) {
    terminal_starts(one);
    asks();
    terminal_sends();
    terminal_says("1:1234:127", 2000);
    terminal_hears(2, 0x1234, 64);
    terminal_says("assigned 64", 0);
    terminal_wants(state(64) == 4, "no link");
    terminal_wants(terminal_told(lapd_establish(&card, 0, LAPD_CALL, 64, &report)) == LAPD_OK, "the link is not established");
    terminal_sends();
    terminal_says("00817F", 1000);
    terminal_hears(4, 0, 64);
    terminal_sends();
    terminal_says("5:295D:64", 1000);
    terminal_hears(6, 0, 64);
    terminal_says("removed 64 release-indication 64", 0);
    terminal_wants(state(64) == 0 && count(LAPD_TOLD_ASSIGNED) == 1 && count(LAPD_TOLD_REMOVED) == 1, "another count");
    terminal_wants(count(LAPD_BEGUN_REQUEST) == 1 && count(LAPD_BEGUN_CHECK_RESPONSE) == 1, "another count of messages that began");
    terminal_wants(count(LAPD_HEARD_ASSIGNED) == 1 && count(LAPD_HEARD_CHECK_REQUEST) == 1 && count(LAPD_HEARD_REMOVE) == 1,
          "another count of messages that were heard");
    terminal_ends();
}

/* A newer request takes the place of the one that waits; after three no TEI is assigned. */
static void is_unassigned(void) {
    terminal_starts(one);
    asks();
    terminal_waits(1999);
    terminal_says("", 1);
    terminal_waits(1);
    terminal_sends();
    terminal_says("1:295D:127", 2000);
    terminal_hears(2, 0x1234, 64);
    terminal_says("unserved", 2000);
    terminal_waits(3999);
    terminal_says("", 1);
    terminal_waits(1);
    terminal_sends();
    terminal_says("unassigned 127", 0);
    terminal_hears(2, 0x8BFA, 64);
    terminal_says("unserved", 0);
    asks();
    terminal_sends();
    terminal_says("1:641B:127", 2000);
    terminal_wants(count(LAPD_TOLD_UNASSIGNED) == 1 && count(LAPD_BEGUN_REQUEST) == 2, "another count");
    terminal_ends();
}

static void is_denied(void) {
    terminal_starts(one);
    asks();
    terminal_hears(3, 0x1234, 127);
    terminal_hears(3, 0x1234, 127);
    terminal_says("denied 127 denied 127", 2000);
    terminal_hears(3, 0x1235, 127);
    terminal_hears(3, 0x1234, 64);
    terminal_says("unserved unserved", 2000);
    terminal_waits(500);
    terminal_hears(2, 0x1234, 126);
    terminal_sends();
    terminal_says("assigned 126", 0);
    terminal_wants(count(LAPD_TOLD_DENIED) == 2 && count(LAPD_BEGUN_REQUEST) == 0, "another count");
    terminal_ends();
}

/* An assigned message that does not fit leaves asking as it is. */
static void is_not_for_it(void) {
    static const uint8_t others[] = {0, 63, 127, 70};
    terminal_starts(one);
    has(70);
    asks();
    for (size_t i = 0; i < sizeof others; i++) {
        terminal_hears(2, 0x1234, others[i]);
        terminal_says("unserved", 2000);
    }
    for (uint8_t tei = 71; tei < 78; tei++)
        has(tei);
    terminal_hears(2, 0x1234, 100);
    terminal_says("unserved", 2000);
    terminal_wants(terminal_told(lapd_remove(&card, 0, 75, &report)) == LAPD_OK, "a terminal does not remove");
    terminal_hears(2, 0x1234, 100);
    terminal_says("assigned 100", 0);
    terminal_ends();
}

/* ---- It is checked, and its TEIs are removed (clauses 5.3.3 and 5.3.4) -------------------------------------------- */

/* One response for each TEI waits at most, however often it is checked, and one request, in its place. */
static void is_checked(void) {
    uint32_t stored, limit;
    lapd_config two = one;
    two.terminals = 3;
    terminal_starts(two);
    has(64);
    has(65);
    asks();
    for (unsigned round = 0; round < ROUNDS; round++) {
        terminal_hears(4, (uint16_t)round, 127);
        terminal_hears(4, 0xFFFF, 65);
        terminal_wants(lapd_stored(&card, &stored) == LAPD_OK && lapd_limit(&card, &limit) == LAPD_OK && stored <= limit,
                       "more than the limit is stored");
    }
    terminal_waits(2000);
    terminal_hears(4, 0, 66);
    terminal_sends();
    terminal_says("unserved 1:641B:127 5:295D:64 5:8BFA:65", 2000);
    terminal_wants(count(LAPD_LOST) == 0, "a message is lost");
    terminal_ends();
}

static void is_removed(void) {
    terminal_starts(one);
    has(64);
    has(65);
    terminal_hears(4, 0, 127);
    terminal_hears(6, 0, 64);
    terminal_sends();
    terminal_says("removed 64 5:295D:65", 0);
    terminal_hears(6, 0, 64);
    has(10);
    terminal_hears(6, 0, 127);
    terminal_says("unserved remove-all 127", 0);
    terminal_wants(state(65) == 4 && state(10) == 4 && count(LAPD_TOLD_REMOVE_ALL) == 1, "a TEI left that is to be removed by request");
    terminal_wants(terminal_told(lapd_remove(&card, 0, 65, &report)) == LAPD_OK && state(65) == 0, "a terminal does not remove");
    terminal_hears(6, 0, 127);
    terminal_says("removed 10", 0);
    terminal_hears(6, 0, 127);
    terminal_hears(4, 0, 127);
    terminal_says("unserved unserved", 0);
    terminal_ends();
}

/* ---- It verifies (clause 5.3.5) ----------------------------------------------------------------------------------- */

static void is_verified(void) {
    terminal_starts(one);
    has(64);
    verifies(64);
    terminal_sends();
    terminal_says("7:0000:64", 2000);
    terminal_hears(4, 0, 64);
    terminal_sends();
    terminal_says("5:1234:64", 0);
    terminal_hears(2, 0x5555, 64);
    terminal_sends();
    terminal_says("7:0000:64", 2000);
    terminal_hears(2, 0x5555, 64);
    terminal_says("unserved", 2000);
    terminal_waits(2000);
    terminal_sends();
    terminal_says("7:0000:64", 2000);
    terminal_waits(2000);
    terminal_says("removed 64", 0);
    terminal_ends();
}

/* A TEI that leaves ends its verifying, and a line that is down whatever runs. */
static void ends_otherwise(void) {
    uint8_t place = 0;
    terminal_starts(one);
    has(64);
    verifies(64);
    terminal_wants(terminal_told(lapd_remove(&card, 0, 64, &report)) == LAPD_OK, "a terminal does not remove");
    terminal_sends();
    terminal_says("", 0);
    has(64);
    asks();
    terminal_hears(4, 0, 64);
    terminal_says("", 2000);
    while (terminal_told(lapd_line_down(&card, 0, &place, &report)) == LAPD_OK)
        ;
    terminal_sends();
    terminal_says("", 0);
    terminal_wants(state(64) == 4, "a TEI left with the line");
    asks();
    terminal_sends();
    terminal_says("1:8BFA:127", 2000);
    terminal_ends();
}

/* ---- Numbers, refusals, and what is not served -------------------------------------------------------------------- */

/* All 65,536 numbers come before one comes again. */
static void numbers(uint16_t seed) {
    static bool came[NUMBERS];
    lapd_config of = one;
    of.seed = seed;
    memset(came, 0, sizeof came);
    terminal_starts(of);
    unsigned number = seed;
    for (unsigned i = 0; i < NUMBERS; i++) {
        uint8_t frame[LAPD_MOST_FRAME];
        size_t length;
        if (i % 3 == 0)
            asks();
        else
            terminal_waits(2000);
        terminal_wants(terminal_told(lapd_next_frame(&card, 0, frame, sizeof frame, &length, &report)) == LAPD_OK && length == 8,
                       "no request goes");
        terminal_wants((frame[4] << 8 | frame[5]) == (int)number && !came[number], "another number");
        came[number] = true;
        number = (25173 * number + 13849) % NUMBERS;
        if (i % 3 == 2)
            terminal_waits(2000);
        terminal_forgets();
    }
    terminal_wants(number == seed, "the first number does not come again");
    terminal_ends();
}

static void refuses(uint8_t request, uint8_t tei, uint32_t status) {
    lapd_report before = report;
    if (lapd_request(&card, 0, request, LAPD_CALL, tei, (const uint8_t *)"", 0, &report) != status)
        fprintf(stderr, "terminals: request %u of TEI %u is not answered `%s`\n", request, tei, lapd_status_text(status));
    terminal_wants(lapd_request(&card, 0, request, LAPD_CALL, tei, (const uint8_t *)"", 0, &report) == status, "another refusal");
    terminal_wants(memcmp(&before, &report, sizeof report) == 0, "a refusal tells something");
}

static void refusals_of(uint16_t side) {
    lapd_config of = one;
    of.side = side;
    of.terminals = 1;
    terminal_starts(of);
    static const uint8_t teis[] = {64, 127, 128, 255};
    for (size_t i = 0; i < sizeof teis; i++) {
        refuses(LAPD_ASK_TEI, teis[i], LAPD_REFUSED_WRONG_SIDE);
        refuses(LAPD_VERIFY_TEI, teis[i], LAPD_REFUSED_WRONG_SIDE);
        if (side == LAPD_USER) {
            refuses(LAPD_REMOVE, teis[i], LAPD_REFUSED_WRONG_SIDE);
            refuses(LAPD_CHECK, teis[i], LAPD_REFUSED_WRONG_SIDE);
            refuses(LAPD_DISOWN, teis[i], LAPD_REFUSED_WRONG_SIDE);
        }
    }
    static const lapd_timer timer = {LAPD_T202, 0, 0};
    uint32_t status = lapd_expire(&card, 0, &timer, &report);
    terminal_wants(is_timed ? status == LAPD_WRONG_CARD : status == LAPD_OK && !lapd_tells(&report), "T202 of a card that is no terminal");
    terminal_ends();
}

static void refusals(void) {
    static const uint8_t teis[] = {64, 127, 128, 255};
    lapd_config of = one;
    of.terminals = 1;
    terminal_starts(of);
    for (size_t i = 0; i < sizeof teis; i++) {
        refuses(LAPD_CHECK, teis[i], LAPD_REFUSED_WRONG_SIDE);
        refuses(LAPD_DISOWN, teis[i], LAPD_REFUSED_WRONG_SIDE);
        refuses(LAPD_VERIFY_TEI, teis[i], i == 0 ? LAPD_REFUSED_NO_LINK : LAPD_REFUSED_BAD_TEI);
        refuses(LAPD_REMOVE, teis[i], i == 0 ? LAPD_REFUSED_NO_LINK : LAPD_REFUSED_BAD_TEI);
    }
    asks();
    refuses(LAPD_ASK_TEI, 127, LAPD_REFUSED_CHECK_RUNNING);
    refuses(LAPD_VERIFY_TEI, 64, LAPD_REFUSED_NO_LINK);
    has(64);
    refuses(LAPD_ASK_TEI, 127, LAPD_REFUSED_TABLE_FULL);
    refuses(LAPD_VERIFY_TEI, 127, LAPD_REFUSED_BAD_TEI);
    refuses(LAPD_VERIFY_TEI, 64, LAPD_REFUSED_CHECK_RUNNING);
    uint32_t longer = lapd_request(&card, 0, LAPD_ASK_TEI, LAPD_CALL, 0, (const uint8_t *)"A", 1, &report);
    uint32_t other = lapd_request(&card, 0, LAPD_VERIFY_TEI + 1, LAPD_CALL, 0, (const uint8_t *)"", 0, &report);
    terminal_wants(longer == LAPD_WRONG_LENGTH && other == LAPD_WRONG_REQUEST, "contents of no message, or a request that is none");
    terminal_waits(6000);
    verifies(64);
    refuses(LAPD_ASK_TEI, 127, LAPD_REFUSED_TABLE_FULL);
    terminal_ends();
}

/* Each seed is one; of the other sides it is not read; and no card is of a fourth side. */
static void sides(void) {
    lapd_clock none = LAPD_CLOCK_NONE;
    lapd_config of = one;
    of.side = 3;
    terminal_wants(lapd_card_start_frames(&card, &of) == LAPD_BAD_SIDE && lapd_clock_start(&none, &of) == LAPD_BAD_SIDE, "a fourth side");
    of.n200 = 11;
    terminal_wants(lapd_card_start(&card, &of) == LAPD_BAD_N200 && !card.started, "the side goes before N200");
    of.n200 = one.n200;
    of.sapi = 63;
    terminal_wants(lapd_card_start(&card, &of) == LAPD_BAD_SAPI && !card.started, "the side goes before the SAPI");
    of.sapi = one.sapi;
    of.reading = 2;
    terminal_wants(lapd_card_start(&card, &of) == LAPD_BAD_SIDE && !card.started, "the reading goes before the side");
    of.side = one.side;
    terminal_wants(lapd_card_start(&card, &of) == LAPD_BAD_READING && lapd_clock_start(&none, &of) == LAPD_BAD_READING, "a third reading");
    of = one;
    of.seed = 0xFFFF;
    for (of.side = LAPD_NETWORK; of.side <= LAPD_TERMINAL; of.side++) {
        terminal_starts(of);
        terminal_ends();
    }
}

static void is_unserved(const uint8_t *frame, size_t length) {
    terminal_wants(terminal_told(lapd_frame(&card, 0, frame, length, &report)) == LAPD_OK, "a frame is not taken");
    terminal_says("unserved", 0);
}

/* Other types, lengths, entities and frames, and what a terminal sends. */
static void does_not_serve(void) {
    terminal_starts(one);
    has(64);
    for (unsigned type = 0; type < 256; type++) {
        const uint8_t other[] = {0xFE, 0xFF, 0x03, 0x0F, 0, 0, (uint8_t)type, 0x81};
        if (type != 2 && type != 4 && type != 6)
            is_unserved(other, sizeof other);
    }
    static const uint8_t check[] = {0xFE, 0xFF, 0x03, 0x0F, 0, 0, 4, 0x81, 0x83};
    is_unserved(check, 7);
    is_unserved(check, 9);
    static const uint8_t others[][8] = {{0xFC, 0xFF, 0x03, 0x0F, 0, 0, 4, 0x81}, {0xFE, 0xFF, 0x03, 0x0E, 0, 0, 4, 0x81},
        {0xFE, 0xFF, 0x03, 0x0F, 0, 0, 4, 0x80}, {0xFE, 0xFF, 0x13, 0x0E, 0, 0, 4, 0x81}, {0xFE, 0xFF, 0x03, 0x0F, 0, 0, 4, 0x83}};
    for (size_t i = 0; i < sizeof others / sizeof *others; i++)
        is_unserved(others[i], sizeof *others);
    static const uint8_t polled[] = {0xFE, 0xFF, 0x13, 0x0F, 0, 0, 4, 0x81};
    terminal_wants(terminal_told(lapd_frame(&card, 0, polled, sizeof polled, &report)) == LAPD_OK, "a frame with P=1 is not taken");
    terminal_sends();
    terminal_says("5:1234:64", 0);
    terminal_ends();
}

static void everything(void) {
    is_assigned();
    is_unassigned();
    is_denied();
    is_not_for_it();
    is_checked();
    is_removed();
    is_verified();
    ends_otherwise();
    refusals();
    refusals_of(LAPD_NETWORK);
    refusals_of(LAPD_USER);
    sides();
    does_not_serve();
    numbers(0);
    numbers(0xFFFF);
}

int main(void) {
    everything();
    is_timed = true;
    everything();
    return 0;
}
