/*
 * wrong.c: wrong calls, as lapd.h has them. Each answers its status, and then nothing has changed: neither what its pointers
 * point to, nor what the cards store, have counted and wait for.
 */
#include <stdio.h>
#include <string.h>

#include "check.h"
#include "lapd.h"

/* A card of octets, one of frames with timers of its own and room for little, a terminal, and a clock. */
static lapd_card card, timed, terminal, none;
static lapd_clock clock, no_clock;
static const lapd_config of_card = {.lines = 2, .terminals = 2, .k = 1, .k16 = 1, .queue = 1, .unit_queue = 1, .control = 2,
                                    .slots = 1, .n201 = 8, .n200 = 1};
static const lapd_lengths lengths = {.t200 = 1000, .t203 = 10000, .t201 = 1000, .t202 = 2000};
static const lapd_lengths too_short = {.t200 = 0, .t203 = 1, .t201 = 1, .t202 = 1};
static const uint8_t octets[16] = {0};

/* What calls write to. */
static struct {
    lapd_report report;
    lapd_due due;
    lapd_link link;
    lapd_head head;
    lapd_fields fields;
    struct lapd_room room;
    struct lapd_counters counters;
    struct lapd_link_counters of_link;
    size_t length;
    uint64_t moment;
    uint32_t number;
    uint8_t octet, place, out[LAPD_MOST_FRAME];
    char text[LAPD_MOST_TEXT];
} own, was;

/* What a card stores, has counted at its lines, and when its next timer falls due. */
static uint64_t sum_of(lapd_card *of) {
    static struct lapd_counters counters;
    uint32_t stored = 0;
    uint64_t moment = 0, sum;
    bool is = lapd_stored(of, &stored) == LAPD_OK;
    is &= lapd_next_moment(of, &moment) != LAPD_NO_CARD;
    sum = stored + 1000003 * moment;
    for (uint32_t line = 0; line < 2; line++) {
        is &= lapd_counters(of, line, &counters) == LAPD_OK;
        for (unsigned i = 0; i < LAPD_COUNTERS; i++)
            sum = sum * 31 + counters.values[i];
    }
    wants(is, "a card is gone");
    return sum;
}

static uint64_t sum_of_all(void) {
    uint64_t moment = 0;
    uint32_t status = lapd_clock_next(&clock, &moment);
    return sum_of(&card) + 3 * sum_of(&timed) + 5 * sum_of(&terminal) + 7 * (moment + status);
}

static uint64_t sum;

static void fresh(void) {
    memset(&own, 0x55, sizeof own);
    own.length = 0;
    own.place = 0;
    memcpy(&was, &own, sizeof was);
    sum = sum_of_all();
}

static void answered(uint32_t status, uint32_t wanted, const char *call) {
    wants(status == wanted, "%s answers: %s", call, lapd_status_text(status));
    wants(memcmp(&own, &was, sizeof own) == 0 && sum == sum_of_all(), "%s has changed something", call);
}

#define ANSWERS(wanted, call) answered((fresh(), (call)), wanted, #call)

/* A request without contents. */
#define ASK(at, line, request, service, tei) lapd_request(at, line, request, service, tei, octets, 0, &own.report)

static void no_card(void) {
    const lapd_timer timer = {LAPD_T201, 0, 0};
    ANSWERS(LAPD_NO_CARD, lapd_card_free(&none));
    ANSWERS(LAPD_NO_CARD, lapd_octet(&none, 0, 0x7E, &own.report));
    ANSWERS(LAPD_NO_CARD, lapd_pull(&none, 0, &own.octet, &own.report));
    ANSWERS(LAPD_NO_CARD, lapd_exchange(&none, 0, octets, 1, own.out, 1, &own.length, &own.report));
    ANSWERS(LAPD_NO_CARD, lapd_frame(&none, 0, octets, 3, &own.report));
    ANSWERS(LAPD_NO_CARD, lapd_frame_failed(&none, 0, LAPD_FCS, &own.report));
    ANSWERS(LAPD_NO_CARD, lapd_next_frame(&none, 0, own.out, sizeof own.out, &own.length, &own.report));
    ANSWERS(LAPD_NO_CARD, lapd_next_waiting(&none, 0, &own.number));
    ANSWERS(LAPD_NO_CARD, lapd_expire(&none, 0, &timer, &own.report));
    ANSWERS(LAPD_NO_CARD, ASK(&none, 0, LAPD_ASSIGN, LAPD_CALL, 64));
    ANSWERS(LAPD_NO_CARD, lapd_line_down(&none, 0, &own.place, &own.report));
    ANSWERS(LAPD_NO_CARD, lapd_fall_due(&none, 0, &own.report));
    ANSWERS(LAPD_NO_CARD, lapd_now(&none, &own.moment));
    ANSWERS(LAPD_NO_CARD, lapd_next_moment(&none, &own.moment));
    ANSWERS(LAPD_NO_CARD, lapd_changed_at(&none, 0, LAPD_CALL, 64, &own.moment));
    ANSWERS(LAPD_NO_CARD, lapd_card_set_lengths(&none, &lengths));
    ANSWERS(LAPD_NO_CARD, lapd_state(&none, 0, LAPD_CALL, 64, &own.octet));
    ANSWERS(LAPD_NO_CARD, lapd_next_link(&none, 0, &own.place, &own.link));
    ANSWERS(LAPD_NO_CARD, lapd_room(&none, 0, LAPD_CALL, 64, &own.room));
    ANSWERS(LAPD_NO_CARD, lapd_begun(&none, 0, &own.head));
    ANSWERS(LAPD_NO_CARD, lapd_heard(&none, 0, &own.head));
    ANSWERS(LAPD_NO_CARD, lapd_begun_frame(&none, 0, own.out, sizeof own.out, &own.length));
    ANSWERS(LAPD_NO_CARD, lapd_heard_frame(&none, 0, own.out, sizeof own.out, &own.length));
    ANSWERS(LAPD_NO_CARD, lapd_counters(&none, 0, &own.counters));
    ANSWERS(LAPD_NO_CARD, lapd_link_counters(&none, 0, LAPD_CALL, 64, &own.of_link));
    ANSWERS(LAPD_NO_CARD, lapd_stored(&none, &own.number));
    ANSWERS(LAPD_NO_CARD, lapd_limit(&none, &own.number));
    ANSWERS(LAPD_NO_CARD, lapd_lines(&none, &own.number));
    ANSWERS(LAPD_NO_CARD, lapd_card_save(&none, own.out, sizeof own.out, &own.length));
}

static void wrong_line(void) {
    const lapd_timer timer = {LAPD_T201, 0, 0};
    ANSWERS(LAPD_WRONG_LINE, lapd_octet(&card, 2, 0x7E, &own.report));
    ANSWERS(LAPD_WRONG_LINE, lapd_pull(&card, 2, &own.octet, &own.report));
    ANSWERS(LAPD_WRONG_LINE, lapd_exchange(&card, UINT32_MAX, octets, 1, own.out, 1, &own.length, &own.report));
    ANSWERS(LAPD_WRONG_LINE, lapd_frame(&timed, 2, octets, 3, &own.report));
    ANSWERS(LAPD_WRONG_LINE, lapd_frame_failed(&timed, 2, LAPD_FCS, &own.report));
    ANSWERS(LAPD_WRONG_LINE, lapd_next_frame(&timed, 2, own.out, sizeof own.out, &own.length, &own.report));
    ANSWERS(LAPD_WRONG_LINE, lapd_expire(&card, 2, &timer, &own.report));
    ANSWERS(LAPD_WRONG_LINE, ASK(&card, 2, LAPD_ASSIGN, LAPD_CALL, 64));
    ANSWERS(LAPD_WRONG_LINE, lapd_line_down(&card, 2, &own.place, &own.report));
    ANSWERS(LAPD_WRONG_LINE, lapd_state(&card, 2, LAPD_CALL, 64, &own.octet));
    ANSWERS(LAPD_WRONG_LINE, lapd_next_link(&card, 2, &own.place, &own.link));
    ANSWERS(LAPD_WRONG_LINE, lapd_room(&card, 2, LAPD_CALL, 64, &own.room));
    ANSWERS(LAPD_WRONG_LINE, lapd_begun(&card, 2, &own.head));
    ANSWERS(LAPD_WRONG_LINE, lapd_heard(&card, 2, &own.head));
    ANSWERS(LAPD_WRONG_LINE, lapd_begun_frame(&card, 2, own.out, sizeof own.out, &own.length));
    ANSWERS(LAPD_WRONG_LINE, lapd_heard_frame(&card, 2, own.out, sizeof own.out, &own.length));
    ANSWERS(LAPD_WRONG_LINE, lapd_counters(&card, 2, &own.counters));
    ANSWERS(LAPD_WRONG_LINE, lapd_link_counters(&card, 2, LAPD_CALL, 64, &own.of_link));
}

/* Calls of the other kind of card, and of cards that keep their timers or do not. */
static void wrong_card(void) {
    const lapd_timer timer = {LAPD_T201, 0, 0};
    ANSWERS(LAPD_WRONG_CARD, lapd_octet(&timed, 0, 0x7E, &own.report));
    ANSWERS(LAPD_WRONG_CARD, lapd_pull(&timed, 0, &own.octet, &own.report));
    ANSWERS(LAPD_WRONG_CARD, lapd_exchange(&timed, 0, octets, 1, own.out, 1, &own.length, &own.report));
    ANSWERS(LAPD_WRONG_CARD, lapd_begun(&timed, 0, &own.head));
    ANSWERS(LAPD_WRONG_CARD, lapd_begun_frame(&timed, 0, own.out, sizeof own.out, &own.length));
    ANSWERS(LAPD_WRONG_CARD, lapd_heard_frame(&timed, 0, own.out, sizeof own.out, &own.length));
    ANSWERS(LAPD_WRONG_CARD, lapd_expire(&timed, 0, &timer, &own.report));
    ANSWERS(LAPD_WRONG_CARD, lapd_frame(&card, 0, octets, 3, &own.report));
    ANSWERS(LAPD_WRONG_CARD, lapd_frame_failed(&card, 0, LAPD_FCS, &own.report));
    ANSWERS(LAPD_WRONG_CARD, lapd_next_frame(&card, 0, own.out, sizeof own.out, &own.length, &own.report));
    ANSWERS(LAPD_WRONG_CARD, lapd_next_waiting(&card, 0, &own.number));
    ANSWERS(LAPD_WRONG_CARD, lapd_fall_due(&card, 0, &own.report));
    ANSWERS(LAPD_WRONG_CARD, lapd_now(&card, &own.moment));
    ANSWERS(LAPD_WRONG_CARD, lapd_next_moment(&card, &own.moment));
    ANSWERS(LAPD_WRONG_CARD, lapd_changed_at(&card, 0, LAPD_CALL, 64, &own.moment));
    ANSWERS(LAPD_WRONG_CARD, lapd_card_set_lengths(&card, &too_short));
}

static void wrong_words(void) {
    const lapd_timer no_timer = {5, LAPD_CALL, 64}, of_no_service = {LAPD_T200, 1, 64}, of_no_tei = {LAPD_T203, LAPD_CALL, 127};
    const lapd_note of_packet = {LAPD_ESTABLISH_CONFIRM, LAPD_PACKET, 64, 0, {0}};
    ANSWERS(LAPD_WRONG_TIMER, lapd_expire(&card, 0, &no_timer, &own.report));
    ANSWERS(LAPD_WRONG_SERVICE, lapd_expire(&card, 0, &of_no_service, &own.report));
    ANSWERS(LAPD_WRONG_TEI, lapd_expire(&card, 0, &of_no_tei, &own.report));
    ANSWERS(LAPD_WRONG_REQUEST, ASK(&card, 0, 0, LAPD_CALL, 64));
    ANSWERS(LAPD_WRONG_REQUEST, ASK(&card, 0, 15, LAPD_CALL, 64));
    ANSWERS(LAPD_WRONG_SERVICE, ASK(&card, 0, LAPD_ESTABLISH, 1, 64));
    ANSWERS(LAPD_WRONG_LENGTH, lapd_request(&card, 0, LAPD_ESTABLISH, LAPD_CALL, 64, octets, 1, &own.report));
    ANSWERS(LAPD_WRONG_LENGTH, lapd_exchange(&card, 0, octets, 2, own.out, 1, &own.length, &own.report));
    ANSWERS(LAPD_WRONG_LENGTH, lapd_next_frame(&timed, 0, own.out, 11, &own.length, &own.report));
    ANSWERS(LAPD_WRONG_CAUSE, lapd_frame_failed(&timed, 0, 0, &own.report));
    ANSWERS(LAPD_WRONG_CAUSE, lapd_frame_failed(&timed, 0, LAPD_EXTENSION, &own.report));
    ANSWERS(LAPD_WRONG_SERVICE, lapd_state(&card, 0, 1, 64, &own.octet));
    ANSWERS(LAPD_WRONG_TEI, lapd_state(&card, 0, LAPD_CALL, 127, &own.octet));
    ANSWERS(LAPD_WRONG_SERVICE, lapd_room(&card, 0, 1, 64, &own.room));
    ANSWERS(LAPD_WRONG_TEI, lapd_room(&card, 0, LAPD_CALL, 127, &own.room));
    ANSWERS(LAPD_WRONG_SERVICE, lapd_link_counters(&card, 0, 1, 64, &own.of_link));
    ANSWERS(LAPD_WRONG_TEI, lapd_link_counters(&card, 0, LAPD_CALL, 127, &own.of_link));
    ANSWERS(LAPD_WRONG_TIME, lapd_fall_due(&timed, 4, &own.report));
    ANSWERS(LAPD_WRONG_TIME, lapd_fall_due(&timed, LAPD_LATEST, &own.report));
    ANSWERS(LAPD_WRONG_TIME, lapd_card_set_lengths(&timed, &too_short));
    ANSWERS(LAPD_NO_FRAME, lapd_next_frame(&timed, 0, own.out, sizeof own.out, &own.length, &own.report));
    ANSWERS(LAPD_NO_FRAME, lapd_next_waiting(&timed, 0, &own.number));
    ANSWERS(LAPD_NO_TIMER, lapd_next_moment(&timed, &own.moment));
    ANSWERS(LAPD_REFUSED_NO_LINK, lapd_changed_at(&timed, 0, LAPD_CALL, 64, &own.moment));
    ANSWERS(LAPD_WRONG_LENGTH, lapd_frame_read(octets, 1029, LAPD_USER, &own.fields));
    ANSWERS(LAPD_BAD_SIDE, lapd_frame_read(octets, 3, 3, &own.fields));
    ANSWERS(LAPD_FRAME_SHORT, lapd_frame_read(octets, 2, LAPD_USER, &own.fields));
    ANSWERS(LAPD_WRONG_LENGTH, lapd_frame_text(octets, 1029, LAPD_USER, own.text, sizeof own.text));
    ANSWERS(LAPD_WRONG_LENGTH, lapd_frame_text(octets, 3, LAPD_USER, own.text, 4));
    ANSWERS(LAPD_BAD_SIDE, lapd_frame_text(octets, 3, 3, own.text, sizeof own.text));
    ANSWERS(LAPD_WRONG_LENGTH, lapd_note_text_of(&of_packet, &of_card, own.text, 25));
    ANSWERS(LAPD_WRONG_LENGTH, lapd_card_save(&card, own.out, sizeof own.out, &own.length));
    ANSWERS(LAPD_WRONG_LENGTH, lapd_card_save(&timed, own.out, sizeof own.out, &own.length));
}

/* Requests that are refused. Of the card TEI 64 is on line 0, and on line 1 as many as it has; the terminal asks for a TEI. */
static void refused(void) {
    ANSWERS(LAPD_REFUSED_BAD_TEI, lapd_assign(&card, 0, 127, &own.report));
    ANSWERS(LAPD_REFUSED_BAD_TEI, lapd_unit(&card, 0, LAPD_CALL, 128, octets, 1, &own.report));
    ANSWERS(LAPD_REFUSED_NO_LINK, lapd_establish(&card, 0, LAPD_CALL, 65, &own.report));
    ANSWERS(LAPD_REFUSED_NO_LINK, lapd_remove(&card, 0, 65, &own.report));
    ANSWERS(LAPD_REFUSED_NO_LINK, lapd_room(&card, 0, LAPD_CALL, 65, &own.room));
    ANSWERS(LAPD_REFUSED_NO_LINK, lapd_link_counters(&card, 0, LAPD_CALL, 65, &own.of_link));
    ANSWERS(LAPD_REFUSED_WRONG_STATE, lapd_data(&card, 0, LAPD_CALL, 64, octets, 1, &own.report));
    ANSWERS(LAPD_REFUSED_TOO_LONG, lapd_unit(&card, 0, LAPD_CALL, 127, octets, 9, &own.report));
    ANSWERS(LAPD_REFUSED_TEI_TAKEN, lapd_assign(&card, 0, 64, &own.report));
    ANSWERS(LAPD_REFUSED_TEI_TAKEN, lapd_disown(&card, 0, 64, &own.report));
    ANSWERS(LAPD_REFUSED_TABLE_FULL, lapd_assign(&card, 1, 66, &own.report));
    ANSWERS(LAPD_REFUSED_CHECK_RUNNING, lapd_ask_tei(&terminal, 0, &own.report));
    ANSWERS(LAPD_REFUSED_WRONG_SIDE, lapd_ask_tei(&card, 0, &own.report));
    ANSWERS(LAPD_REFUSED_WRONG_SIDE, lapd_verify_tei(&card, 0, 64, &own.report));
    ANSWERS(LAPD_REFUSED_WRONG_SIDE, lapd_check(&terminal, 0, 64, &own.report));
    ANSWERS(LAPD_REFUSED_WRONG_SIDE, lapd_disown(&terminal, 0, 64, &own.report));
    wants(lapd_unit(&card, 1, LAPD_CALL, LAPD_GROUP_TEI, octets, 1, &own.report) == LAPD_OK, "no unit data");
    ANSWERS(LAPD_REFUSED_QUEUE_FULL, lapd_unit(&card, 1, LAPD_CALL, LAPD_GROUP_TEI, octets, 1, &own.report));
    ANSWERS(LAPD_REFUSED_POOL_FULL, lapd_unit(&card, 0, LAPD_CALL, LAPD_GROUP_TEI, octets, 1, &own.report));
}

static void wrong_clock(void) {
    const lapd_order start = {LAPD_START, {LAPD_T201, 0, 0}}, no_order = {3, {LAPD_T201, 0, 0}};
    const lapd_order no_timer = {LAPD_START, {0, 0, 0}}, no_service = {LAPD_START, {LAPD_T200, 1, 64}};
    const lapd_order no_tei = {LAPD_START, {LAPD_T200, LAPD_CALL, 127}};
    ANSWERS(LAPD_NO_CLOCK, lapd_clock_free(&no_clock));
    ANSWERS(LAPD_NO_CLOCK, lapd_clock_set_lengths(&no_clock, 1, 1, 1, 1));
    ANSWERS(LAPD_NO_CLOCK, lapd_clock_apply(&no_clock, 0, &start, 0));
    ANSWERS(LAPD_NO_CLOCK, lapd_clock_due(&no_clock, 0, &own.due));
    ANSWERS(LAPD_NO_CLOCK, lapd_clock_next(&no_clock, &own.moment));
    ANSWERS(LAPD_NO_CLOCK, lapd_clock_save(&no_clock, own.out, sizeof own.out, &own.length));
    ANSWERS(LAPD_WRONG_LENGTH, lapd_clock_save(&clock, own.out, 9, &own.length));
    ANSWERS(LAPD_WRONG_LINE, lapd_clock_apply(&clock, 2, &start, 0));
    ANSWERS(LAPD_WRONG_ORDER, lapd_clock_apply(&clock, 0, &no_order, 0));
    ANSWERS(LAPD_WRONG_TIMER, lapd_clock_apply(&clock, 0, &no_timer, 0));
    ANSWERS(LAPD_WRONG_SERVICE, lapd_clock_apply(&clock, 0, &no_service, 0));
    ANSWERS(LAPD_WRONG_TEI, lapd_clock_apply(&clock, 0, &no_tei, 0));
    ANSWERS(LAPD_WRONG_TIME, lapd_clock_apply(&clock, 0, &start, LAPD_LATEST + 1));
    ANSWERS(LAPD_WRONG_TIME, lapd_clock_set_lengths(&clock, 0, 1, 1, 1));
    ANSWERS(LAPD_WRONG_TIME, lapd_clock_set_lengths(&clock, 1, 1, 1, 3600001));
    ANSWERS(LAPD_NO_TIMER, lapd_clock_due(&clock, LAPD_LATEST, &own.due));
    ANSWERS(LAPD_NO_TIMER, lapd_clock_next(&clock, &own.moment));
}

/* The configuration with another value of the field at this place. */
static lapd_config with(size_t at, unsigned value) {
    lapd_config it = of_card;
    uint16_t field = (uint16_t)value;
    memcpy((char *)&it + at, &field, sizeof field);
    return it;
}

/* No card and no clock begins with a field out of range, by one too little and by one too much, nor with a reserved place that is
 * used. */
static void bad_fields(void) {
    static const struct {
        size_t at;
        unsigned least, most;
        uint32_t status;
    } fields[] = {
        /* tools/names: edges */
        {offsetof(lapd_config, lines), 1, 64, LAPD_BAD_LINES},
        {offsetof(lapd_config, terminals), 1, 8, LAPD_BAD_TERMINALS},
        {offsetof(lapd_config, k), 1, 127, LAPD_BAD_K},
        {offsetof(lapd_config, k16), 1, 127, LAPD_BAD_K16},
        {offsetof(lapd_config, queue), 1, 127, LAPD_BAD_QUEUE},
        {offsetof(lapd_config, unit_queue), 1, 16, LAPD_BAD_UNIT_QUEUE},
        {offsetof(lapd_config, control), 2, 16, LAPD_BAD_CONTROL},
        {offsetof(lapd_config, slots), 1, 8192, LAPD_BAD_SLOTS},
        {offsetof(lapd_config, n201), 8, 260, LAPD_BAD_N201},
        {offsetof(lapd_config, n200), 0, 10, LAPD_BAD_N200},
        {offsetof(lapd_config, sapi), 0, 62, LAPD_BAD_SAPI},
        {offsetof(lapd_config, side), 0, LAPD_TERMINAL, LAPD_BAD_SIDE},
        {offsetof(lapd_config, reading), 0, LAPD_ANNEX_B, LAPD_BAD_READING},
        /* tools/names: end */
    };
    for (size_t i = 0; i < sizeof fields / sizeof *fields; i++) {
        const lapd_config too_much = with(fields[i].at, fields[i].most + 1), too_little = with(fields[i].at, fields[i].least - 1);
        ANSWERS(fields[i].status, lapd_card_start(&none, &too_much));
        if (fields[i].least > 0)
            ANSWERS(fields[i].status, lapd_clock_start(&no_clock, &too_little));
    }
    for (size_t at = offsetof(lapd_config, reserved); at < sizeof(lapd_config); at += sizeof(uint16_t)) {
        const lapd_config later = with(at, 1);
        ANSWERS(LAPD_BAD_RESERVED, lapd_card_start(&none, &later));
    }
}

static void wrong_starts(void) {
    ANSWERS(LAPD_SECOND_START, lapd_card_start(&card, &of_card));
    ANSWERS(LAPD_SECOND_START, lapd_card_start_frames(&card, &of_card));
    ANSWERS(LAPD_SECOND_START, lapd_card_start_timed(&timed, &of_card, &lengths));
    ANSWERS(LAPD_SECOND_START, lapd_card_start_frames_timed(&timed, &of_card, &lengths));
    ANSWERS(LAPD_SECOND_START, lapd_clock_start(&clock, &of_card));
    ANSWERS(LAPD_WRONG_TIME, lapd_card_start_timed(&none, &of_card, &too_short));
    ANSWERS(LAPD_WRONG_TIME, lapd_card_start_frames_timed(&none, &of_card, &too_short));
    ANSWERS(LAPD_SECOND_START, lapd_card_restore(&card, octets, sizeof octets));
    ANSWERS(LAPD_SECOND_START, lapd_clock_restore(&clock, octets, sizeof octets));
    ANSWERS(LAPD_BAD_IMAGE, lapd_card_restore(&none, octets, sizeof octets));
    ANSWERS(LAPD_BAD_IMAGE, lapd_card_restore(&none, octets, 0));
    ANSWERS(LAPD_BAD_IMAGE, lapd_clock_restore(&no_clock, octets, sizeof octets));
}

/* Cards in the states in which they are asked. */
static bool is_set_up(void) {
    lapd_config of_terminal = of_card;
    of_terminal.side = LAPD_TERMINAL;
    bool is = lapd_card_start(&card, &of_card) == LAPD_OK && lapd_clock_start(&clock, &of_card) == LAPD_OK;
    is = is && lapd_card_start_frames_timed(&timed, &of_card, &lengths) == LAPD_OK;
    is = is && lapd_card_start_frames_timed(&terminal, &of_terminal, &lengths) == LAPD_OK;
    is = is && lapd_assign(&card, 0, 64, &own.report) == LAPD_OK && lapd_assign(&card, 1, 64, &own.report) == LAPD_OK;
    is = is && lapd_assign(&card, 1, 65, &own.report) == LAPD_OK && lapd_ask_tei(&terminal, 0, &own.report) == LAPD_OK;
    return is && lapd_fall_due(&timed, 5, &own.report) == LAPD_NO_TIMER;
}

void check_wrong(void) {
    bool is = is_set_up();
    wants(is, "no cards to ask");
    if (!is)
        return;
    no_card();
    wrong_line();
    wrong_card();
    wrong_words();
    wrong_clock();
    bad_fields();
    wrong_starts();
    refused();
    is = lapd_card_free(&card) == LAPD_OK && lapd_card_free(&timed) == LAPD_OK && lapd_card_free(&terminal) == LAPD_OK;
    wants(is && lapd_clock_free(&clock) == LAPD_OK, "no end");
}
