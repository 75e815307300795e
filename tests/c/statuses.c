/*
 * statuses.c: which statuses each call answers. Calls are made at random, with words that are right and that are wrong, of
 * cards of both kinds and sides and of clocks. What each answered is printed, a call a line: its name, and the numbers. For
 * tests alone: tests/c/run compares it with the table of lapd(3).
 */
#include <stdio.h>
#include <stdlib.h>
#include <string.h>

#include "lapd.h"
#include "lapd_memory.h"

enum { TURNS = 30000000, MOST_CALLS = 70, MOST_STATUSES = 64, SAVED = 2048 };
enum { FIELDS = offsetof(lapd_config, reserved) / sizeof(uint16_t) };

static struct {
    const char *name;
    bool answered[MOST_STATUSES];
} calls[MOST_CALLS];
static lapd_card card = LAPD_CARD_NONE;
static lapd_clock timers = LAPD_CLOCK_NONE;
static lapd_report report;
static bool refuses; /* memory */
static uint32_t seed = 1;

/* ---- Memory that can be refused ----------------------------------------------------------------------------------- */

static rattle_tried answer(void *at) {
    static char nothing;
    rattle_tried tried = {at != NULL, at != NULL ? at : &nothing};
    return tried;
}

rattle_tried rattle_alloc(size_t octets, size_t alignment) {
    return answer(refuses ? NULL : malloc(octets > 0 ? octets : alignment));
}

rattle_tried rattle_realloc(void *at, size_t old_octets, size_t octets, size_t alignment) {
    (void)old_octets;
    return answer(refuses ? NULL : realloc(at, octets > 0 ? octets : alignment));
}

void rattle_dealloc(void *at) {
    free(at);
}

/* ---- Words at random, mostly right -------------------------------------------------------------------------------- */

static unsigned below(unsigned most) {
    seed = seed * 1664525 + 1013904223;
    return (seed >> 8) % most;
}

static uint8_t one_of(const uint8_t *of, unsigned count) {
    return of[below(count)];
}
#define ONE_OF(...) one_of((const uint8_t[]){__VA_ARGS__}, sizeof(const uint8_t[]){__VA_ARGS__})

static uint32_t line(void) {
    return ONE_OF(0, 0, 0, 1, 1, 2);
}

static uint8_t service(void) {
    return ONE_OF(LAPD_CALL, LAPD_CALL, LAPD_CALL, LAPD_PACKET, LAPD_PACKET, 1);
}

static uint8_t tei(void) {
    return ONE_OF(64, 64, 64, 65, 65, 66, 126, 127, 128);
}

static lapd_timer timer(void) {
    lapd_timer it = {ONE_OF(0, 1, 2, 3, 4, 5), service(), below(2) ? tei() : (uint8_t)below(127)};
    return it;
}

static lapd_config config(void) {
    lapd_config it = {.lines = 2, .terminals = 2, .k = 1, .k16 = 1, .queue = 1, .unit_queue = 1, .control = 2, .slots = 2, .n201 = 8,
                      .n200 = 1};
    it.side = (uint16_t)below(3);
    it.seed = (uint16_t)below(65536);
    it.reading = (uint16_t)below(2);
    uint16_t fields[FIELDS];
    memcpy(fields, &it, sizeof fields);
    if (below(2))
        fields[below(FIELDS)] = 0xFFFF;
    memcpy(&it, fields, sizeof fields);
    it.reserved[below(sizeof it.reserved / sizeof *it.reserved)] = below(8) == 0;
    return it;
}

/* ---- Calls -------------------------------------------------------------------------------------------------------- */

static void saw(const char *name, uint32_t status) {
    unsigned i = 0;
    while (calls[i].name != NULL && strcmp(calls[i].name, name) != 0)
        i++;
    if (i + 1 >= MOST_CALLS || status >= MOST_STATUSES) {
        fprintf(stderr, "statuses: %s answers %u\n", name, (unsigned)status);
        exit(1);
    }
    calls[i].name = name;
    calls[i].answered[status] = true;
}
#define CALL(name, ...) saw(#name, name(__VA_ARGS__))

static uint8_t image[SAVED], image_of_clock[SAVED];
static size_t length, length_of_clock = 1;

static void starts_and_ends(void) {
    lapd_config of_card = config(), of_clock = config();
    refuses = below(4) == 0;
    lapd_lengths of_timers = {below(8), 10, 10, below(8), {0, 0, 0, below(8) == 0}};
    switch (below(11)) {
    case 10: CALL(lapd_card_save, &card, image, below(2) ? sizeof image : 100, &length); break;
    case 9: CALL(lapd_card_restore, &card, image, below(8) ? length : 0); break;
    case 8: CALL(lapd_clock_save, &timers, image_of_clock, below(2) ? sizeof image_of_clock : 9, &length_of_clock); break;
    case 7: CALL(lapd_clock_restore, &timers, image_of_clock, length_of_clock - below(2)); break;
    case 6: CALL(lapd_card_start_timed, &card, &of_card, &of_timers); break;
    case 5: CALL(lapd_card_start_frames_timed, &card, &of_card, &of_timers); break;
    case 0: CALL(lapd_card_start, &card, &of_card); break;
    case 1: CALL(lapd_card_start_frames, &card, &of_card); break;
    case 2: CALL(lapd_card_free, &card); break;
    case 3: CALL(lapd_clock_start, &timers, &of_clock); break;
    default: CALL(lapd_clock_free, &timers);
    }
    refuses = false;
}

/* Frames that bring links up and down, ask for a TEI, and fill queues. */
static void line_calls(void) {
    uint8_t address = (uint8_t)(tei() << 1 | 1), octet, out[LAPD_MOST_FRAME];
    const uint8_t frames[][8] = {{0x00, address, 0x7F}, {0x00, address, 0x7F}, {0x00, address, 0x53}, {0x02, address, 0x01, 0x00},
                                 {0x00, address, 0x73}, {0xFC, 0xFF, 0x03, 0x0F, 0x12, 0x34, 0x01, 0xFF},
                                 {0xFE, 0xFF, 0x03, 0x0F, 0x00, 0x00, (uint8_t)below(8), address}};
    const uint8_t *frame = frames[below(7)];
    size_t length = frame[0] >= 0xFC ? 8 : frame[2] == 0x01 ? 4 : 3, steps = below(4);
    uint32_t next = 0;
    lapd_timer expired = timer();
    switch (below(10)) {
    case 0: case 1: case 2: CALL(lapd_frame, &card, line(), frame, length, &report); break;
    case 3: CALL(lapd_frame_failed, &card, line(), (uint8_t)below(10), &report); break;
    case 4: CALL(lapd_next_frame, &card, line(), out, below(3) ? sizeof out : below(13), &length, &report); break;
    case 5: CALL(lapd_next_waiting, &card, below(4), &next); break;
    case 6: CALL(lapd_octet, &card, line(), (uint8_t)below(256), &report); break;
    case 7: CALL(lapd_pull, &card, line(), &octet, &report); break;
    case 8: CALL(lapd_exchange, &card, line(), frame, 1 + below(2), out, 1, &steps, &report); break;
    default: CALL(lapd_expire, &card, line(), &expired, &report);
    }
}

static void requests(void) {
    static const uint8_t contents[16] = {0};
    uint8_t request = (uint8_t)below(16), place = below(4) ? 0 : below(4) ? (uint8_t)below(256) : 0xFF;
    size_t length = below(3) ? 0 : below(10);
    switch (below(17)) {
    case 16: CALL(lapd_ask_tei, &card, line(), &report); break;
    case 15: CALL(lapd_verify_tei, &card, line(), tei(), &report); break;
    case 0: CALL(lapd_request, &card, line(), request, service(), tei(), contents, length, &report); break;
    case 1: CALL(lapd_request_with, &card, line(), request, service(), tei(), contents, length, &report); break;
    case 2: CALL(lapd_establish, &card, line(), service(), tei(), &report); break;
    case 3: CALL(lapd_release, &card, line(), service(), tei(), &report); break;
    case 4: case 5: CALL(lapd_data, &card, line(), service(), tei(), contents, length, &report); break;
    case 6: CALL(lapd_unit, &card, line(), service(), tei(), contents, length, &report); break;
    case 7: case 8: CALL(lapd_assign, &card, line(), tei(), &report); break;
    case 9: CALL(lapd_remove, &card, line(), tei(), &report); break;
    case 10: CALL(lapd_check, &card, line(), tei(), &report); break;
    case 11: CALL(lapd_disown, &card, line(), tei(), &report); break;
    case 12: CALL(lapd_busy, &card, line(), service(), tei(), &report); break;
    case 13: CALL(lapd_ready, &card, line(), service(), tei(), &report); break;
    default:
        if (below(2))
            CALL(lapd_deactivate, &card, line(), service(), tei(), &report);
        else
            CALL(lapd_line_down, &card, line(), &place, &report);
    }
}

/* The octets of a frame, the last of which ends it. */
static void hear(uint32_t of) {
    static const uint8_t octets[] = {0x7E, 0x00, 0x81, 0x73, 0xC4, 0x12, 0x7E};
    for (size_t i = 0; i < sizeof octets; i++)
        CALL(lapd_octet, &card, of, octets[i], &report);
}

static void questions(void) {
    uint8_t state, place = (uint8_t)below(256);
    uint32_t number;
    lapd_link link;
    lapd_head head;
    lapd_fields fields;
    struct lapd_room room;
    struct lapd_counters counters;
    struct lapd_link_counters of_link;
    char text[LAPD_MOST_TEXT];
    static const uint8_t octets[1029] = {0}, frames[][4] = {{0x00, 0x81, 0x7F}, {0x01, 0x81, 0x7F}, {0x00, 0x81, 0xFF}};
    static uint64_t at;
    uint64_t moment;
    if (below(40) == 0)
        at = below(1000);
    const lapd_note note = {(uint8_t)(1 + at % LAPD_REMOVE_ALL), LAPD_PACKET, 64, 0, {0}};
    const lapd_config config = {.sapi = (uint16_t)(at % 63)};
    const lapd_lengths lengths = {below(4), 10, 10, 10, {0, below(8) == 0, 0, 0}};
    uint8_t whole[LAPD_MOST_FRAME];
    size_t count;
    switch (below(17)) {
    case 16: CALL(lapd_link_counters, &card, line(), service(), tei(), &of_link); break;
    case 15: CALL(lapd_begun_frame, &card, line(), whole, below(3) ? sizeof whole : below(4), &count); break;
    case 14:
        hear(line());
        CALL(lapd_heard_frame, &card, line(), whole, below(3) ? sizeof whole : below(4), &count);
        break;
    case 13: CALL(lapd_card_set_lengths, &card, &lengths); break;
    case 12: CALL(lapd_note_text_of, &note, &config, text, below(30)); break;
    case 11: CALL(lapd_fall_due, &card, at += below(9), &report); break;
    case 10:
        CALL(lapd_now, &card, &moment);
        CALL(lapd_next_moment, &card, &moment);
        CALL(lapd_changed_at, &card, line(), service(), tei(), &moment);
        break;
    case 9:
        CALL(lapd_frame_read, frames[below(3)], 2 + below(3), (uint16_t)below(4), &fields);
        CALL(lapd_frame_read, octets, below(1030), LAPD_USER, &fields);
        CALL(lapd_frame_text, octets, below(3) ? 3 : below(1030), (uint16_t)below(4), text, below(2) ? sizeof text : 10);
        break;
    case 0: CALL(lapd_state, &card, line(), service(), tei(), &state); break;
    case 1: CALL(lapd_next_link, &card, line(), &place, &link); break;
    case 2: CALL(lapd_room, &card, line(), service(), tei(), &room); break;
    case 3: CALL(lapd_begun, &card, line(), &head); break;
    case 4: CALL(lapd_heard, &card, line(), &head); break;
    case 5: CALL(lapd_counters, &card, line(), &counters); break;
    case 6: CALL(lapd_stored, &card, &number); break;
    case 7: CALL(lapd_limit, &card, &number); break;
    default: CALL(lapd_lines, &card, &number);
    }
}

/* Calls that take the moment, mostly a later one. */
static void moments(void) {
    static const uint8_t contents[16] = {0};
    static uint64_t at;
    uint8_t address = (uint8_t)(tei() << 1 | 1), out[LAPD_MOST_FRAME], request = (uint8_t)(below(2) ? below(16) : LAPD_DATA + below(2));
    const uint8_t sabme[] = {0x00, address, 0x7F};
    size_t length = below(3) ? 0 : below(10), steps = below(4);
    bool is_done;
    at = below(40) == 0 ? below(1000) : at + below(9);
    switch (below(8)) {
    case 0: CALL(lapd_frame_at, &card, at, line(), sabme, sizeof sabme, &is_done, &report); break;
    case 1: case 2: case 3: case 4: case 5:
        CALL(lapd_request_at, &card, at, line(), request, service(), tei(), contents, length, &is_done, &report);
        break;
    case 6: CALL(lapd_next_frame_at, &card, at, line(), out, below(3) ? sizeof out : below(13), &length, &report); break;
    default: CALL(lapd_exchange_at, &card, at, line(), sabme, 1 + below(2), out, 1, &steps, &report);
    }
}

static void clock_calls(void) {
    lapd_order order = {ONE_OF(1, 1, 1, 2, 3), timer()};
    lapd_report ordered = {.order_count = (uint8_t)below(6)};
    lapd_due due;
    uint64_t moment, now = below(8) ? below(1000) : LAPD_LATEST + 1;
    for (unsigned i = 0; i < LAPD_MOST_ORDERS; i++)
        ordered.orders[i] = below(4) ? (lapd_order){LAPD_START, {LAPD_T200, LAPD_CALL, (uint8_t)below(127)}} : order;
    switch (below(5)) {
    case 0: CALL(lapd_clock_set_lengths, &timers, below(4), below(4), below(4), below(4)); break;
    case 1: CALL(lapd_clock_apply, &timers, line(), &order, now); break;
    case 2: CALL(lapd_clock_apply_report, &timers, line(), &ordered, now); break;
    case 3: CALL(lapd_clock_due, &timers, now, &due); break;
    default: CALL(lapd_clock_next, &timers, &moment);
    }
}

int main(void) {
    for (unsigned i = 0; i < TURNS; i++)
        switch (below(17)) {
        case 0: case 1: case 2: case 3: line_calls(); break;
        case 4: case 5: case 6: case 7: requests(); break;
        case 8: questions(); break;
        case 9: case 10: clock_calls(); break;
        case 11: case 12: case 13: case 14: case 15: moments(); break;
        default:
            if (below(20) == 0)
                starts_and_ends();
        }
    for (unsigned i = 0; calls[i].name != NULL; i++) {
        printf("%s", calls[i].name);
        for (unsigned status = 0; status < MOST_STATUSES; status++)
            if (calls[i].answered[status])
                printf(" %u", status);
        printf("\n");
    }
    return 0;
}
