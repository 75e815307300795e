/*
 * short_t200.c: an exchange and its terminals on one line of basic access, all with more to send than the line takes, and a T200
 * that may be too short for that (docs/MACHINE.md, "Why T200 has to be long enough"). No frame is lost. tests/t200 calls it.
 *
 *     cc -O2 -I dist -o short_t200 tests/c/short_t200.c dist/lapd.c
 *     short_t200 TERMINALS OCTETS T200 SECONDS SEED [again]
 *
 * Each contents have so many octets. Each way of the line carries one frame at a time, at 16 kbit/s; the bus takes a frame of each
 * terminal in turn. A terminal releases its link now and then, and establishes it anew. Layer 3 sends nothing again, or with
 * `again` first what was given up, in order. It prints how many contents were granted, delivered, told as given up, told twice,
 * and neither delivered nor told as given up: these were acknowledged all the same. Then it prints how many errors were told. A
 * status other than 0 or 2 is a fault of its own.
 */
#include <stdbool.h>
#include <stdint.h>
#include <stdio.h>
#include <stdlib.h>
#include <string.h>

#include "lapd.h"

enum { MOST_TERMINALS = 8, FIRST_TEI = 64, LATEST = 256, REST_MS = 120000, QUIET_US = 10000 };
enum { US_AN_OCTET = 515, OF_A_FRAME = 3 }; /* with stuffed zeros; a flag and the check */
enum { RELEASED_ONE_IN = 400, ASKED_ONE_IN = 4 };
enum { DELIVERED = 1, TWICE = 2, GIVEN_UP = 4 };

/* What one end of a link sends. */
typedef struct {
    uint8_t *is; /* of each contents, by number */
    uint32_t count, room;
    uint32_t latest[LATEST]; /* the numbers that were granted last, going round */
    uint32_t grants;
    uint32_t again[LATEST], waiting; /* the numbers that are to be sent again, in order */
} sender;

typedef struct {
    lapd_card card;
    sender senders[MOST_TERMINALS];
} end;

/* One way of the line, and the frame on it. */
typedef struct {
    uint8_t frame[LAPD_MOST_FRAME];
    size_t length;
    uint64_t until;
    bool is_busy;
} way;

static end network, phones[MOST_TERMINALS];
static way down, up;
static uint32_t terminals, octets, random_state;
static bool sends_again, is_over;
static uint64_t now_us;
static uint32_t errors['O' + 1];
static lapd_report report;

static void fails(const char *what, uint32_t status) {
    fprintf(stderr, "short_t200: %s: %s\n", what, lapd_status_text(status));
    exit(3);
}

static bool one_in(uint32_t many) {
    random_state = random_state * 1103515245u + 12345u;
    return (random_state >> 16) % many == 0;
}

static uint8_t tei_of(uint32_t terminal) { return (uint8_t)(FIRST_TEI + terminal); }
static sender *sender_at(end *it, uint8_t tei) { return &it->senders[tei - FIRST_TEI]; }

static uint8_t state_at(end *it, uint8_t tei) {
    uint8_t state = 0;
    uint32_t status = lapd_state(&it->card, 0, LAPD_CALL, tei, &state);
    if (status != LAPD_OK)
        fails("state", status);
    return state;
}

/* ---- Layer 3 --------------------------------------------------------------------------------------------------------- */

/* The contents that were granted last are given up. They go before all others that are to be sent again. */
static void gave_up(sender *own, uint32_t count) {
    if (sends_again)
        memmove(own->again + count, own->again, own->waiting * sizeof *own->again);
    for (uint32_t i = 0; i < count; i++) {
        uint32_t number = own->latest[(own->grants - count + i) % LATEST];
        own->is[number] |= GIVEN_UP;
        if (sends_again)
            own->again[i] = number;
    }
    own->waiting += sends_again ? count : 0;
}

static void came(sender *from, const uint8_t *contents) {
    uint32_t number = 0;
    memcpy(&number, contents, sizeof number);
    from->is[number] |= from->is[number] & DELIVERED ? TWICE : DELIVERED;
}

/* The event was of this TEI. */
static void layer_3(end *it, uint8_t tei) {
    end *other = it == &network ? &phones[tei - FIRST_TEI] : &network;
    for (uint8_t i = 0; i < report.note_count; i++) {
        if (report.notes[i].note == LAPD_ERROR_INDICATION)
            errors[report.notes[i].error]++;
        if (report.notes[i].note == LAPD_DATA_INDICATION)
            came(sender_at(other, tei), report.contents);
    }
    gave_up(sender_at(it, tei), report.given_up);
}

static uint32_t new_number(sender *own) {
    if (own->count == own->room) {
        own->room = own->room == 0 ? 1024 : 2 * own->room;
        own->is = realloc(own->is, own->room);
        if (own->is == NULL)
            exit(3);
    }
    own->is[own->count] = 0;
    return own->count;
}

static void sends(end *it, uint8_t tei) {
    static lapd_report asked;
    sender *own = sender_at(it, tei);
    while (state_at(it, tei) >= 7 && (own->waiting > 0 || !is_over)) {
        uint8_t contents[LAPD_MOST_OCTETS] = {0};
        bool is_again = own->waiting > 0;
        uint32_t number = is_again ? own->again[0] : new_number(own);
        memcpy(contents, &number, sizeof number);
        if (lapd_data(&it->card, 0, LAPD_CALL, tei, contents, octets, &asked) != LAPD_OK)
            return;
        own->latest[own->grants++ % LATEST] = number;
        own->count += !is_again;
        own->waiting -= is_again;
        if (is_again)
            memmove(own->again, own->again + 1, own->waiting * sizeof *own->again);
    }
}

static void asks(uint32_t terminal) {
    end *phone = &phones[terminal];
    uint8_t tei = tei_of(terminal), state = state_at(phone, tei);
    if (!is_over && state >= 7 && one_in(RELEASED_ONE_IN) && lapd_release(&phone->card, 0, LAPD_CALL, tei, &report) == LAPD_OK)
        layer_3(phone, tei);
    if (state == 4 && one_in(ASKED_ONE_IN) && lapd_establish(&phone->card, 0, LAPD_CALL, tei, &report) == LAPD_OK)
        layer_3(phone, tei);
    if (one_in(ASKED_ONE_IN))
        sends(phone, tei);
    if (one_in(ASKED_ONE_IN))
        sends(&network, tei);
}

/* ---- The line -------------------------------------------------------------------------------------------------------- */

static void time_is(end *it) {
    uint32_t status;
    while ((status = lapd_fall_due(&it->card, now_us / 1000, &report)) == LAPD_OK)
        layer_3(it, report.expired.tei);
    if (status != LAPD_NO_TIMER)
        fails("time", status);
}

/* Whether a frame begins to go. */
static bool begins(way *on, end *it) {
    uint32_t status = lapd_next_frame(&it->card, 0, on->frame, sizeof on->frame, &on->length, &report);
    if (status != LAPD_OK && status != LAPD_NO_FRAME)
        fails("next frame", status);
    if (status != LAPD_OK)
        return false;
    layer_3(it, on->frame[1] >> 1);
    on->is_busy = true;
    on->until = now_us + (on->length + OF_A_FRAME) * US_AN_OCTET;
    return true;
}

static void ends(way *on, end *it) {
    uint32_t status;
    on->is_busy = false;
    time_is(it);
    status = lapd_frame(&it->card, 0, on->frame, on->length, &report);
    if (status != LAPD_OK)
        fails("frame", status);
    layer_3(it, on->frame[1] >> 1);
}

static void turn(void) {
    static uint32_t last;
    uint64_t next = now_us + QUIET_US;
    time_is(&network);
    for (uint32_t i = 0; i < terminals; i++) {
        time_is(&phones[i]);
        asks(i);
    }
    if (!down.is_busy)
        (void)begins(&down, &network);
    for (uint32_t i = 1, first = last; i <= terminals && !up.is_busy; i++)
        if (begins(&up, &phones[(first + i) % terminals]))
            last = (first + i) % terminals;
    next = down.is_busy && down.until < next ? down.until : next;
    now_us = up.is_busy && up.until < next ? up.until : next;
    if (down.is_busy && down.until == now_us)
        ends(&down, &phones[(down.frame[1] >> 1) - FIRST_TEI]);
    if (up.is_busy && up.until == now_us)
        ends(&up, &network);
}

static void plays_until(uint64_t moment_us) {
    while (now_us < moment_us)
        turn();
}

/* ---- The program ----------------------------------------------------------------------------------------------------- */

static void starts(uint32_t t200) {
    lapd_config exchange = LAPD_BASIC_ACCESS, phone = LAPD_BASIC_ACCESS;
    lapd_lengths lengths = LAPD_DEFAULT_LENGTHS;
    uint32_t status = LAPD_OK;
    exchange.reading = phone.reading = LAPD_PROFILE;
    lengths.t200 = t200;
    phone.terminals = 1;
    phone.side = LAPD_USER;
    status = lapd_card_start_frames_timed(&network.card, &exchange, &lengths);
    for (uint32_t i = 0; status == LAPD_OK && i < terminals; i++) {
        status = lapd_card_start_frames_timed(&phones[i].card, &phone, &lengths);
        if (status == LAPD_OK)
            status = lapd_assign(&phones[i].card, 0, tei_of(i), &report);
        if (status == LAPD_OK)
            status = lapd_assign(&network.card, 0, tei_of(i), &report);
    }
    if (status != LAPD_OK)
        fails("start", status);
}

static void add(const sender *own, unsigned long totals[5]) {
    totals[0] += own->count;
    for (uint32_t i = 0; i < own->count; i++) {
        totals[1] += (own->is[i] & DELIVERED) != 0;
        totals[2] += (own->is[i] & GIVEN_UP) != 0;
        totals[3] += (own->is[i] & TWICE) != 0;
        totals[4] += sends_again ? (own->is[i] & DELIVERED) == 0 : own->is[i] == 0;
    }
}

static void prints(void) {
    unsigned long totals[5] = {0};
    for (uint32_t i = 0; i < terminals; i++) {
        add(&network.senders[i], totals);
        add(&phones[i].senders[i], totals);
    }
    printf("%lu granted, %lu delivered, %lu told as given up, %lu told twice, %lu lost; errors", totals[0], totals[1], totals[2],
           totals[3], totals[4]);
    for (int letter = 'A'; letter <= 'O'; letter++)
        if (errors[letter] > 0)
            printf(" %c %u", letter, (unsigned)errors[letter]);
    printf("\n");
}

int main(int count, char **words) {
    unsigned long numbers[5] = {0};
    for (int i = 0; i < 5 && i + 1 < count; i++)
        numbers[i] = strtoul(words[i + 1], NULL, 10);
    if (count < 6 || count > 7 || (count == 7 && strcmp(words[6], "again") != 0) || numbers[0] < 1 || numbers[0] > MOST_TERMINALS
        || numbers[1] < sizeof(uint32_t) || numbers[1] > LAPD_MOST_OCTETS) {
        fprintf(stderr, "usage: short_t200 TERMINALS OCTETS T200 SECONDS SEED [again]\n");
        return 2;
    }
    terminals = (uint32_t)numbers[0];
    octets = (uint32_t)numbers[1];
    random_state = (uint32_t)numbers[4];
    sends_again = count == 7;
    starts((uint32_t)numbers[2]);
    plays_until((uint64_t)numbers[3] * 1000000);
    is_over = true;
    plays_until(now_us + REST_MS * UINT64_C(1000));
    prints();
    return 0;
}
