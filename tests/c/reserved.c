/*
 * reserved.c: what structs keep for a later version. What the library writes there is 0, whatever was there; and what a caller hands
 * in is refused as LAPD_BAD_RESERVED in each of these places, last of all that can be wrong with it. For tests alone.
 */
#include <stdio.h>
#include <stdlib.h>
#include <string.h>

#include "lapd.h"

#define PLACES(array) (sizeof(array) / sizeof *(array))

static const lapd_config usual = LAPD_BASIC_ACCESS;
static const lapd_lengths lengths = LAPD_DEFAULT_LENGTHS;
static lapd_card octets_card = LAPD_CARD_NONE, frames_card = LAPD_CARD_NONE, timed_card = LAPD_CARD_NONE;
static lapd_report report;
static unsigned written;

static void wants(bool is, const char *what) {
    if (!is) {
        fprintf(stderr, "reserved: %s\n", what);
        exit(1);
    }
}

static bool is_zero(const void *at, size_t length) {
    const uint8_t *octet = at;
    while (length > 0 && octet[length - 1] == 0)
        length--;
    return length == 0;
}

#define IS_UNUSED(it) is_zero((it).reserved, sizeof(it).reserved)

/* ---- What is written ---------------------------------------------------------------------------------------------- */

/* A call that wrote the report; before the next one all of it is something else. */
static void wrote(uint32_t status, const char *call) {
    wants(status == LAPD_OK, call);
    wants(IS_UNUSED(report), call);
    for (unsigned i = 0; i < report.note_count; i++)
        wants(IS_UNUSED(report.notes[i]), call);
    written += report.note_count;
    memset(&report, 0xAB, sizeof report);
}

static void events(lapd_card *card) {
    static const uint8_t contents[] = {8, 1};
    wrote(lapd_assign(card, 0, 64, &report), "lapd_assign");
    wrote(lapd_establish(card, 0, LAPD_CALL, 64, &report), "lapd_establish");
    wrote(lapd_unit(card, 0, LAPD_CALL, 64, contents, sizeof contents, &report), "lapd_unit");
    wrote(lapd_deactivate(card, 0, LAPD_CALL, 64, &report), "lapd_deactivate");
}

static void of_frames(lapd_card *card) {
    static const uint8_t sabme[] = {0x00, 0x81, 0x7F}, data[] = {0x00, 0x81, 0x00, 0x00, 8, 1};
    uint8_t out[LAPD_MOST_FRAME];
    size_t length;
    wrote(lapd_frame(card, 0, sabme, sizeof sabme, &report), "lapd_frame");
    wrote(lapd_frame(card, 0, data, sizeof data, &report), "lapd_frame with contents");
    wrote(lapd_frame_failed(card, 0, LAPD_FCS, &report), "lapd_frame_failed");
    wrote(lapd_next_frame(card, 0, out, sizeof out, &length, &report), "lapd_next_frame");
}

static void of_octets(lapd_card *card) {
    static const uint8_t sabme[] = {0x7E, 0x00, 0x81, 0xEF, 0x50, 0xB1, 0xFD, 0xFC};
    uint8_t octet, given[sizeof sabme];
    size_t steps = 0;
    lapd_head head;
    for (size_t i = 0; i < sizeof sabme; i++)
        wrote(lapd_octet(card, 0, sabme[i], &report), "lapd_octet");
    wrote(lapd_pull(card, 0, &octet, &report), "lapd_pull");
    while (steps < 2 * sizeof sabme)
        wrote(lapd_exchange(card, 0, sabme, sizeof sabme, given, sizeof given, &steps, &report), "lapd_exchange");
    memset(&head, 0xAB, sizeof head);
    wants(lapd_heard(card, 0, &head) == LAPD_OK && IS_UNUSED(head), "lapd_heard");
    memset(&head, 0xAB, sizeof head);
    wants(lapd_begun(card, 0, &head) == LAPD_OK && IS_UNUSED(head), "lapd_begun");
}

static void questions(lapd_card *card) {
    uint8_t place = 0;
    lapd_link link;
    struct lapd_room room;
    struct lapd_counters counters;
    struct lapd_link_counters of_link;
    memset(&link, 0xAB, sizeof link);
    memset(&room, 0xAB, sizeof room);
    memset(&counters, 0xAB, sizeof counters);
    memset(&of_link, 0xAB, sizeof of_link);
    wants(lapd_next_link(card, 0, &place, &link) == LAPD_OK && IS_UNUSED(link), "lapd_next_link");
    wants(lapd_room(card, 0, LAPD_CALL, 64, &room) == LAPD_OK && IS_UNUSED(room), "lapd_room");
    wants(lapd_counters(card, 0, &counters) == LAPD_OK && IS_UNUSED(counters), "lapd_counters");
    wants(lapd_link_counters(card, 0, LAPD_CALL, 64, &of_link) == LAPD_OK && IS_UNUSED(of_link), "lapd_link_counters");
}

static void fields_of_a_frame(void) {
    static const uint8_t sabme[] = {0x00, 0x81, 0x7F};
    lapd_fields fields;
    memset(&fields, 0xAB, sizeof fields);
    wants(lapd_frame_read(sabme, sizeof sabme, LAPD_USER, &fields) == LAPD_OK && IS_UNUSED(fields), "lapd_frame_read");
}

/* T200 of a link runs, on a clock and at a card with timers of its own. */
static void expiries(void) {
    lapd_clock clock = LAPD_CLOCK_NONE;
    const lapd_order order = {LAPD_START, {LAPD_T200, LAPD_CALL, 64}};
    lapd_due due;
    memset(&due, 0xAB, sizeof due);
    wants(lapd_clock_start(&clock, &usual) == LAPD_OK && lapd_clock_apply(&clock, 0, &order, 0) == LAPD_OK, "no clock");
    wants(lapd_clock_due(&clock, 1000, &due) == LAPD_OK && IS_UNUSED(due), "lapd_clock_due");
    wants(lapd_clock_free(&clock) == LAPD_OK, "the clock is not freed");
    wrote(lapd_expire(&octets_card, 0, &due.timer, &report), "lapd_expire");
    wrote(lapd_establish(&timed_card, 0, LAPD_PACKET, 64, &report), "lapd_establish");
    wrote(lapd_fall_due(&timed_card, 60000, &report), "lapd_fall_due");
}

/* ---- What is handed in -------------------------------------------------------------------------------------------- */

static void refused(const lapd_config *config, const lapd_lengths *of, uint32_t wanted) {
    lapd_card card = LAPD_CARD_NONE;
    wants(lapd_card_start_timed(&card, config, of) == wanted, "lapd_card_start_timed");
    wants(lapd_card_start_frames_timed(&card, config, of) == wanted, "lapd_card_start_frames_timed");
    wants(!card.started, "a card starts all the same");
}

static void refused_configuration(const lapd_config *config, uint32_t wanted) {
    lapd_card card = LAPD_CARD_NONE;
    lapd_clock clock = LAPD_CLOCK_NONE;
    wants(lapd_card_start(&card, config) == wanted, "lapd_card_start");
    wants(lapd_card_start_frames(&card, config) == wanted, "lapd_card_start_frames");
    wants(lapd_clock_start(&clock, config) == wanted, "lapd_clock_start");
    wants(lapd_image_octets(config) == 0, "lapd_image_octets");
    refused(config, &lengths, wanted);
}

static void configurations(void) {
    for (size_t i = 0; i < PLACES(usual.reserved); i++)
        for (unsigned value = 1; value <= 0x8000; value *= 0x80) {
            lapd_config config = usual;
            config.reserved[i] = (uint16_t)value;
            refused_configuration(&config, LAPD_BAD_RESERVED);
            config.reading = 2;
            refused_configuration(&config, LAPD_BAD_READING);
        }
}

static void of_timers(void) {
    for (size_t i = 0; i < PLACES(lengths.reserved); i++)
        for (uint64_t value = 1; value <= UINT32_MAX; value *= 0x100) {
            lapd_lengths of = lengths;
            of.reserved[i] = (uint32_t)value;
            refused(&usual, &of, LAPD_BAD_RESERVED);
            wants(lapd_card_set_lengths(&timed_card, &of) == LAPD_BAD_RESERVED, "lapd_card_set_lengths");
            wants(lapd_card_set_lengths(&octets_card, &of) == LAPD_WRONG_CARD, "lengths of a card without timers");
            of.t202 = 0;
            refused(&usual, &of, LAPD_WRONG_TIME);
            wants(lapd_card_set_lengths(&timed_card, &of) == LAPD_WRONG_TIME, "lapd_card_set_lengths");
        }
}

int main(void) {
    wants(lapd_card_start(&octets_card, &usual) == LAPD_OK && lapd_card_start_frames(&frames_card, &usual) == LAPD_OK
              && lapd_card_start_frames_timed(&timed_card, &usual, &lengths) == LAPD_OK, "no cards");
    memset(&report, 0xAB, sizeof report);
    lapd_card *cards[] = {&octets_card, &frames_card, &timed_card};
    for (size_t i = 0; i < PLACES(cards); i++)
        events(cards[i]);
    of_octets(&octets_card);
    of_frames(&frames_card);
    of_frames(&timed_card);
    for (size_t i = 0; i < PLACES(cards); i++)
        questions(cards[i]);
    fields_of_a_frame();
    expiries();
    wants(written > 5, "few notes are told");
    configurations();
    of_timers();
    for (size_t i = 0; i < PLACES(cards); i++)
        wants(lapd_card_free(cards[i]) == LAPD_OK, "a card is not freed");
    return 0;
}
