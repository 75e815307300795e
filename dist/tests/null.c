/* null.c: null pointers, each of each call's. Written by pointers.py of Vithrynel from lapd.h; not to be edited. */
#include <string.h>

#define LAPD_CHECKED
#include "check.h"
#include "lapd.h"

static const lapd_config config = {.lines = 2, .terminals = 2, .k = 1, .k16 = 1, .queue = 2, .unit_queue = 8, .control = 2, .slots = 8,
                                   .n201 = 8, .n200 = 1};

/* What calls write to; after a wrong call each octet is as it was. */
static struct {
    bool at_bool;
    char at_char;
    lapd_card at_lapd_card;
    lapd_clock at_lapd_clock;
    lapd_config at_lapd_config;
    lapd_due at_lapd_due;
    lapd_fields at_lapd_fields;
    lapd_head at_lapd_head;
    lapd_lengths at_lapd_lengths;
    lapd_link at_lapd_link;
    lapd_note at_lapd_note;
    lapd_order at_lapd_order;
    lapd_report at_lapd_report;
    lapd_timer at_lapd_timer;
    size_t at_size_t;
    struct lapd_counters at_lapd_counters;
    struct lapd_link_counters at_lapd_link_counters;
    struct lapd_room at_lapd_room;
    uint32_t at_uint32_t;
    uint64_t at_uint64_t;
    uint8_t at_uint8_t;
} own, was;

static void fresh(void) {
    memset(&own, 0x55, sizeof own);
    own.at_lapd_config = config;
    memcpy(&was, &own, sizeof was);
}

/* How much a card stores and has counted. */
static uint64_t sum(lapd_card *card) {
    uint32_t stored = 0;
    struct lapd_counters counters;
    uint64_t total = 0;
    wants(lapd_stored(card, &stored) == LAPD_OK && lapd_counters(card, 0, &counters) == LAPD_OK, "the card is gone");
    for (unsigned i = 0; i < LAPD_COUNTERS; i++)
        total += counters.values[i];
    return total << 32 | stored;
}

void check_null(void) {
    lapd_card card = LAPD_CARD_NONE;
    lapd_clock clock = LAPD_CLOCK_NONE;
    wants(lapd_card_start_frames(&card, &config) == LAPD_OK && lapd_clock_start(&clock, &config) == LAPD_OK, "no start");
    wants(lapd_assign(&card, 0, 64, &own.at_lapd_report) == LAPD_OK, "no TEI");
    uint64_t before = sum(&card);
    fresh();
    wants(lapd_card_start(NULL, &own.at_lapd_config) == LAPD_WRONG_POINTER && memcmp(&own, &was, sizeof own) == 0,
          "lapd_card_start with null for card");
    fresh();
    wants(lapd_card_start(&card, NULL) == LAPD_WRONG_POINTER && memcmp(&own, &was, sizeof own) == 0,
          "lapd_card_start with null for config");
    fresh();
    wants(lapd_card_start_frames(NULL, &own.at_lapd_config) == LAPD_WRONG_POINTER && memcmp(&own, &was, sizeof own) == 0,
          "lapd_card_start_frames with null for card");
    fresh();
    wants(lapd_card_start_frames(&card, NULL) == LAPD_WRONG_POINTER && memcmp(&own, &was, sizeof own) == 0,
          "lapd_card_start_frames with null for config");
    fresh();
    wants(lapd_card_start_timed(NULL, &own.at_lapd_config, &own.at_lapd_lengths) == LAPD_WRONG_POINTER && memcmp(&own, &was, sizeof own) == 0,
          "lapd_card_start_timed with null for card");
    fresh();
    wants(lapd_card_start_timed(&card, NULL, &own.at_lapd_lengths) == LAPD_WRONG_POINTER && memcmp(&own, &was, sizeof own) == 0,
          "lapd_card_start_timed with null for config");
    fresh();
    wants(lapd_card_start_timed(&card, &own.at_lapd_config, NULL) == LAPD_WRONG_POINTER && memcmp(&own, &was, sizeof own) == 0,
          "lapd_card_start_timed with null for lengths");
    fresh();
    wants(lapd_card_start_frames_timed(NULL, &own.at_lapd_config, &own.at_lapd_lengths) == LAPD_WRONG_POINTER && memcmp(&own, &was, sizeof own) == 0,
          "lapd_card_start_frames_timed with null for card");
    fresh();
    wants(lapd_card_start_frames_timed(&card, NULL, &own.at_lapd_lengths) == LAPD_WRONG_POINTER && memcmp(&own, &was, sizeof own) == 0,
          "lapd_card_start_frames_timed with null for config");
    fresh();
    wants(lapd_card_start_frames_timed(&card, &own.at_lapd_config, NULL) == LAPD_WRONG_POINTER && memcmp(&own, &was, sizeof own) == 0,
          "lapd_card_start_frames_timed with null for lengths");
    fresh();
    wants(lapd_card_free(NULL) == LAPD_WRONG_POINTER && memcmp(&own, &was, sizeof own) == 0,
          "lapd_card_free with null for card");
    fresh();
    wants(lapd_octet(NULL, 0, 0, &own.at_lapd_report) == LAPD_WRONG_POINTER && memcmp(&own, &was, sizeof own) == 0,
          "lapd_octet with null for card");
    fresh();
    wants(lapd_octet(&card, 0, 0, NULL) == LAPD_WRONG_POINTER && memcmp(&own, &was, sizeof own) == 0,
          "lapd_octet with null for report");
    fresh();
    wants(lapd_pull(NULL, 0, &own.at_uint8_t, &own.at_lapd_report) == LAPD_WRONG_POINTER && memcmp(&own, &was, sizeof own) == 0,
          "lapd_pull with null for card");
    fresh();
    wants(lapd_pull(&card, 0, NULL, &own.at_lapd_report) == LAPD_WRONG_POINTER && memcmp(&own, &was, sizeof own) == 0,
          "lapd_pull with null for octet");
    fresh();
    wants(lapd_pull(&card, 0, &own.at_uint8_t, NULL) == LAPD_WRONG_POINTER && memcmp(&own, &was, sizeof own) == 0,
          "lapd_pull with null for report");
    fresh();
    wants(lapd_exchange(NULL, 0, &own.at_uint8_t, 1, &own.at_uint8_t, 1, &own.at_size_t, &own.at_lapd_report) == LAPD_WRONG_POINTER && memcmp(&own, &was, sizeof own) == 0,
          "lapd_exchange with null for card");
    fresh();
    wants(lapd_exchange(&card, 0, NULL, 1, &own.at_uint8_t, 1, &own.at_size_t, &own.at_lapd_report) == LAPD_WRONG_POINTER && memcmp(&own, &was, sizeof own) == 0,
          "lapd_exchange with null for in");
    fresh();
    wants(lapd_exchange(&card, 0, &own.at_uint8_t, 1, NULL, 1, &own.at_size_t, &own.at_lapd_report) == LAPD_WRONG_POINTER && memcmp(&own, &was, sizeof own) == 0,
          "lapd_exchange with null for out");
    fresh();
    wants(lapd_exchange(&card, 0, &own.at_uint8_t, 1, &own.at_uint8_t, 1, NULL, &own.at_lapd_report) == LAPD_WRONG_POINTER && memcmp(&own, &was, sizeof own) == 0,
          "lapd_exchange with null for steps");
    fresh();
    wants(lapd_exchange(&card, 0, &own.at_uint8_t, 1, &own.at_uint8_t, 1, &own.at_size_t, NULL) == LAPD_WRONG_POINTER && memcmp(&own, &was, sizeof own) == 0,
          "lapd_exchange with null for report");
    fresh();
    wants(lapd_frame(NULL, 0, &own.at_uint8_t, 1, &own.at_lapd_report) == LAPD_WRONG_POINTER && memcmp(&own, &was, sizeof own) == 0,
          "lapd_frame with null for card");
    fresh();
    wants(lapd_frame(&card, 0, NULL, 1, &own.at_lapd_report) == LAPD_WRONG_POINTER && memcmp(&own, &was, sizeof own) == 0,
          "lapd_frame with null for octets");
    fresh();
    wants(lapd_frame(&card, 0, &own.at_uint8_t, 1, NULL) == LAPD_WRONG_POINTER && memcmp(&own, &was, sizeof own) == 0,
          "lapd_frame with null for report");
    fresh();
    wants(lapd_frame_failed(NULL, 0, 0, &own.at_lapd_report) == LAPD_WRONG_POINTER && memcmp(&own, &was, sizeof own) == 0,
          "lapd_frame_failed with null for card");
    fresh();
    wants(lapd_frame_failed(&card, 0, 0, NULL) == LAPD_WRONG_POINTER && memcmp(&own, &was, sizeof own) == 0,
          "lapd_frame_failed with null for report");
    fresh();
    wants(lapd_next_frame(NULL, 0, &own.at_uint8_t, 1, &own.at_size_t, &own.at_lapd_report) == LAPD_WRONG_POINTER && memcmp(&own, &was, sizeof own) == 0,
          "lapd_next_frame with null for card");
    fresh();
    wants(lapd_next_frame(&card, 0, NULL, 1, &own.at_size_t, &own.at_lapd_report) == LAPD_WRONG_POINTER && memcmp(&own, &was, sizeof own) == 0,
          "lapd_next_frame with null for out");
    fresh();
    wants(lapd_next_frame(&card, 0, &own.at_uint8_t, 1, NULL, &own.at_lapd_report) == LAPD_WRONG_POINTER && memcmp(&own, &was, sizeof own) == 0,
          "lapd_next_frame with null for length");
    fresh();
    wants(lapd_next_frame(&card, 0, &own.at_uint8_t, 1, &own.at_size_t, NULL) == LAPD_WRONG_POINTER && memcmp(&own, &was, sizeof own) == 0,
          "lapd_next_frame with null for report");
    fresh();
    wants(lapd_next_waiting(NULL, 0, &own.at_uint32_t) == LAPD_WRONG_POINTER && memcmp(&own, &was, sizeof own) == 0,
          "lapd_next_waiting with null for card");
    fresh();
    wants(lapd_next_waiting(&card, 0, NULL) == LAPD_WRONG_POINTER && memcmp(&own, &was, sizeof own) == 0,
          "lapd_next_waiting with null for line");
    fresh();
    wants(lapd_expire(NULL, 0, &own.at_lapd_timer, &own.at_lapd_report) == LAPD_WRONG_POINTER && memcmp(&own, &was, sizeof own) == 0,
          "lapd_expire with null for card");
    fresh();
    wants(lapd_expire(&card, 0, NULL, &own.at_lapd_report) == LAPD_WRONG_POINTER && memcmp(&own, &was, sizeof own) == 0,
          "lapd_expire with null for timer");
    fresh();
    wants(lapd_expire(&card, 0, &own.at_lapd_timer, NULL) == LAPD_WRONG_POINTER && memcmp(&own, &was, sizeof own) == 0,
          "lapd_expire with null for report");
    fresh();
    wants(lapd_request(NULL, 0, 0, 0, 64, &own.at_uint8_t, 1, &own.at_lapd_report) == LAPD_WRONG_POINTER && memcmp(&own, &was, sizeof own) == 0,
          "lapd_request with null for card");
    fresh();
    wants(lapd_request(&card, 0, 0, 0, 64, NULL, 1, &own.at_lapd_report) == LAPD_WRONG_POINTER && memcmp(&own, &was, sizeof own) == 0,
          "lapd_request with null for contents");
    fresh();
    wants(lapd_request(&card, 0, 0, 0, 64, &own.at_uint8_t, 1, NULL) == LAPD_WRONG_POINTER && memcmp(&own, &was, sizeof own) == 0,
          "lapd_request with null for report");
    fresh();
    wants(lapd_fall_due(NULL, 0, &own.at_lapd_report) == LAPD_WRONG_POINTER && memcmp(&own, &was, sizeof own) == 0,
          "lapd_fall_due with null for card");
    fresh();
    wants(lapd_fall_due(&card, 0, NULL) == LAPD_WRONG_POINTER && memcmp(&own, &was, sizeof own) == 0,
          "lapd_fall_due with null for report");
    fresh();
    wants(lapd_now(NULL, &own.at_uint64_t) == LAPD_WRONG_POINTER && memcmp(&own, &was, sizeof own) == 0,
          "lapd_now with null for card");
    fresh();
    wants(lapd_now(&card, NULL) == LAPD_WRONG_POINTER && memcmp(&own, &was, sizeof own) == 0,
          "lapd_now with null for moment");
    fresh();
    wants(lapd_next_moment(NULL, &own.at_uint64_t) == LAPD_WRONG_POINTER && memcmp(&own, &was, sizeof own) == 0,
          "lapd_next_moment with null for card");
    fresh();
    wants(lapd_next_moment(&card, NULL) == LAPD_WRONG_POINTER && memcmp(&own, &was, sizeof own) == 0,
          "lapd_next_moment with null for moment");
    fresh();
    wants(lapd_changed_at(NULL, 0, 0, 64, &own.at_uint64_t) == LAPD_WRONG_POINTER && memcmp(&own, &was, sizeof own) == 0,
          "lapd_changed_at with null for card");
    fresh();
    wants(lapd_changed_at(&card, 0, 0, 64, NULL) == LAPD_WRONG_POINTER && memcmp(&own, &was, sizeof own) == 0,
          "lapd_changed_at with null for moment");
    fresh();
    wants(lapd_card_set_lengths(NULL, &own.at_lapd_lengths) == LAPD_WRONG_POINTER && memcmp(&own, &was, sizeof own) == 0,
          "lapd_card_set_lengths with null for card");
    fresh();
    wants(lapd_card_set_lengths(&card, NULL) == LAPD_WRONG_POINTER && memcmp(&own, &was, sizeof own) == 0,
          "lapd_card_set_lengths with null for lengths");
    fresh();
    wants(lapd_state(NULL, 0, 0, 64, &own.at_uint8_t) == LAPD_WRONG_POINTER && memcmp(&own, &was, sizeof own) == 0,
          "lapd_state with null for card");
    fresh();
    wants(lapd_state(&card, 0, 0, 64, NULL) == LAPD_WRONG_POINTER && memcmp(&own, &was, sizeof own) == 0,
          "lapd_state with null for state");
    fresh();
    wants(lapd_next_link(NULL, 0, &own.at_uint8_t, &own.at_lapd_link) == LAPD_WRONG_POINTER && memcmp(&own, &was, sizeof own) == 0,
          "lapd_next_link with null for card");
    fresh();
    wants(lapd_next_link(&card, 0, NULL, &own.at_lapd_link) == LAPD_WRONG_POINTER && memcmp(&own, &was, sizeof own) == 0,
          "lapd_next_link with null for place");
    fresh();
    wants(lapd_next_link(&card, 0, &own.at_uint8_t, NULL) == LAPD_WRONG_POINTER && memcmp(&own, &was, sizeof own) == 0,
          "lapd_next_link with null for link");
    fresh();
    wants(lapd_room(NULL, 0, 0, 64, &own.at_lapd_room) == LAPD_WRONG_POINTER && memcmp(&own, &was, sizeof own) == 0,
          "lapd_room with null for card");
    fresh();
    wants(lapd_room(&card, 0, 0, 64, NULL) == LAPD_WRONG_POINTER && memcmp(&own, &was, sizeof own) == 0,
          "lapd_room with null for room");
    fresh();
    wants(lapd_begun(NULL, 0, &own.at_lapd_head) == LAPD_WRONG_POINTER && memcmp(&own, &was, sizeof own) == 0,
          "lapd_begun with null for card");
    fresh();
    wants(lapd_begun(&card, 0, NULL) == LAPD_WRONG_POINTER && memcmp(&own, &was, sizeof own) == 0,
          "lapd_begun with null for head");
    fresh();
    wants(lapd_heard(NULL, 0, &own.at_lapd_head) == LAPD_WRONG_POINTER && memcmp(&own, &was, sizeof own) == 0,
          "lapd_heard with null for card");
    fresh();
    wants(lapd_heard(&card, 0, NULL) == LAPD_WRONG_POINTER && memcmp(&own, &was, sizeof own) == 0,
          "lapd_heard with null for head");
    fresh();
    wants(lapd_begun_frame(NULL, 0, &own.at_uint8_t, 1, &own.at_size_t) == LAPD_WRONG_POINTER && memcmp(&own, &was, sizeof own) == 0,
          "lapd_begun_frame with null for card");
    fresh();
    wants(lapd_begun_frame(&card, 0, NULL, 1, &own.at_size_t) == LAPD_WRONG_POINTER && memcmp(&own, &was, sizeof own) == 0,
          "lapd_begun_frame with null for out");
    fresh();
    wants(lapd_begun_frame(&card, 0, &own.at_uint8_t, 1, NULL) == LAPD_WRONG_POINTER && memcmp(&own, &was, sizeof own) == 0,
          "lapd_begun_frame with null for length");
    fresh();
    wants(lapd_heard_frame(NULL, 0, &own.at_uint8_t, 1, &own.at_size_t) == LAPD_WRONG_POINTER && memcmp(&own, &was, sizeof own) == 0,
          "lapd_heard_frame with null for card");
    fresh();
    wants(lapd_heard_frame(&card, 0, NULL, 1, &own.at_size_t) == LAPD_WRONG_POINTER && memcmp(&own, &was, sizeof own) == 0,
          "lapd_heard_frame with null for out");
    fresh();
    wants(lapd_heard_frame(&card, 0, &own.at_uint8_t, 1, NULL) == LAPD_WRONG_POINTER && memcmp(&own, &was, sizeof own) == 0,
          "lapd_heard_frame with null for length");
    fresh();
    wants(lapd_counters(NULL, 0, &own.at_lapd_counters) == LAPD_WRONG_POINTER && memcmp(&own, &was, sizeof own) == 0,
          "lapd_counters with null for card");
    fresh();
    wants(lapd_counters(&card, 0, NULL) == LAPD_WRONG_POINTER && memcmp(&own, &was, sizeof own) == 0,
          "lapd_counters with null for counters");
    fresh();
    wants(lapd_link_counters(NULL, 0, 0, 64, &own.at_lapd_link_counters) == LAPD_WRONG_POINTER && memcmp(&own, &was, sizeof own) == 0,
          "lapd_link_counters with null for card");
    fresh();
    wants(lapd_link_counters(&card, 0, 0, 64, NULL) == LAPD_WRONG_POINTER && memcmp(&own, &was, sizeof own) == 0,
          "lapd_link_counters with null for counters");
    fresh();
    wants(lapd_stored(NULL, &own.at_uint32_t) == LAPD_WRONG_POINTER && memcmp(&own, &was, sizeof own) == 0,
          "lapd_stored with null for card");
    fresh();
    wants(lapd_stored(&card, NULL) == LAPD_WRONG_POINTER && memcmp(&own, &was, sizeof own) == 0,
          "lapd_stored with null for octets");
    fresh();
    wants(lapd_limit(NULL, &own.at_uint32_t) == LAPD_WRONG_POINTER && memcmp(&own, &was, sizeof own) == 0,
          "lapd_limit with null for card");
    fresh();
    wants(lapd_limit(&card, NULL) == LAPD_WRONG_POINTER && memcmp(&own, &was, sizeof own) == 0,
          "lapd_limit with null for octets");
    fresh();
    wants(lapd_lines(NULL, &own.at_uint32_t) == LAPD_WRONG_POINTER && memcmp(&own, &was, sizeof own) == 0,
          "lapd_lines with null for card");
    fresh();
    wants(lapd_lines(&card, NULL) == LAPD_WRONG_POINTER && memcmp(&own, &was, sizeof own) == 0,
          "lapd_lines with null for lines");
    fresh();
    wants(lapd_card_save(NULL, &own.at_uint8_t, 1, &own.at_size_t) == LAPD_WRONG_POINTER && memcmp(&own, &was, sizeof own) == 0,
          "lapd_card_save with null for card");
    fresh();
    wants(lapd_card_save(&card, NULL, 1, &own.at_size_t) == LAPD_WRONG_POINTER && memcmp(&own, &was, sizeof own) == 0,
          "lapd_card_save with null for image");
    fresh();
    wants(lapd_card_save(&card, &own.at_uint8_t, 1, NULL) == LAPD_WRONG_POINTER && memcmp(&own, &was, sizeof own) == 0,
          "lapd_card_save with null for length");
    fresh();
    wants(lapd_card_restore(NULL, &own.at_uint8_t, 1) == LAPD_WRONG_POINTER && memcmp(&own, &was, sizeof own) == 0,
          "lapd_card_restore with null for card");
    fresh();
    wants(lapd_card_restore(&card, NULL, 1) == LAPD_WRONG_POINTER && memcmp(&own, &was, sizeof own) == 0,
          "lapd_card_restore with null for image");
    fresh();
    wants(lapd_frame_read(NULL, 1, 0, &own.at_lapd_fields) == LAPD_WRONG_POINTER && memcmp(&own, &was, sizeof own) == 0,
          "lapd_frame_read with null for octets");
    fresh();
    wants(lapd_frame_read(&own.at_uint8_t, 1, 0, NULL) == LAPD_WRONG_POINTER && memcmp(&own, &was, sizeof own) == 0,
          "lapd_frame_read with null for fields");
    fresh();
    wants(lapd_frame_text(NULL, 1, 0, &own.at_char, 1) == LAPD_WRONG_POINTER && memcmp(&own, &was, sizeof own) == 0,
          "lapd_frame_text with null for octets");
    fresh();
    wants(lapd_frame_text(&own.at_uint8_t, 1, 0, NULL, 1) == LAPD_WRONG_POINTER && memcmp(&own, &was, sizeof own) == 0,
          "lapd_frame_text with null for text");
    fresh();
    wants(lapd_clock_start(NULL, &own.at_lapd_config) == LAPD_WRONG_POINTER && memcmp(&own, &was, sizeof own) == 0,
          "lapd_clock_start with null for clock");
    fresh();
    wants(lapd_clock_start(&clock, NULL) == LAPD_WRONG_POINTER && memcmp(&own, &was, sizeof own) == 0,
          "lapd_clock_start with null for config");
    fresh();
    wants(lapd_clock_set_lengths(NULL, 0, 0, 0, 0) == LAPD_WRONG_POINTER && memcmp(&own, &was, sizeof own) == 0,
          "lapd_clock_set_lengths with null for clock");
    fresh();
    wants(lapd_clock_free(NULL) == LAPD_WRONG_POINTER && memcmp(&own, &was, sizeof own) == 0,
          "lapd_clock_free with null for clock");
    fresh();
    wants(lapd_clock_apply(NULL, 0, &own.at_lapd_order, 0) == LAPD_WRONG_POINTER && memcmp(&own, &was, sizeof own) == 0,
          "lapd_clock_apply with null for clock");
    fresh();
    wants(lapd_clock_apply(&clock, 0, NULL, 0) == LAPD_WRONG_POINTER && memcmp(&own, &was, sizeof own) == 0,
          "lapd_clock_apply with null for order");
    fresh();
    wants(lapd_clock_apply_report(NULL, 0, &own.at_lapd_report, 0) == LAPD_WRONG_POINTER && memcmp(&own, &was, sizeof own) == 0,
          "lapd_clock_apply_report with null for clock");
    fresh();
    wants(lapd_clock_apply_report(&clock, 0, NULL, 0) == LAPD_WRONG_POINTER && memcmp(&own, &was, sizeof own) == 0,
          "lapd_clock_apply_report with null for report");
    fresh();
    wants(lapd_clock_due(NULL, 0, &own.at_lapd_due) == LAPD_WRONG_POINTER && memcmp(&own, &was, sizeof own) == 0,
          "lapd_clock_due with null for clock");
    fresh();
    wants(lapd_clock_due(&clock, 0, NULL) == LAPD_WRONG_POINTER && memcmp(&own, &was, sizeof own) == 0,
          "lapd_clock_due with null for due");
    fresh();
    wants(lapd_clock_next(NULL, &own.at_uint64_t) == LAPD_WRONG_POINTER && memcmp(&own, &was, sizeof own) == 0,
          "lapd_clock_next with null for clock");
    fresh();
    wants(lapd_clock_next(&clock, NULL) == LAPD_WRONG_POINTER && memcmp(&own, &was, sizeof own) == 0,
          "lapd_clock_next with null for moment");
    fresh();
    wants(lapd_clock_save(NULL, &own.at_uint8_t, 1, &own.at_size_t) == LAPD_WRONG_POINTER && memcmp(&own, &was, sizeof own) == 0,
          "lapd_clock_save with null for clock");
    fresh();
    wants(lapd_clock_save(&clock, NULL, 1, &own.at_size_t) == LAPD_WRONG_POINTER && memcmp(&own, &was, sizeof own) == 0,
          "lapd_clock_save with null for image");
    fresh();
    wants(lapd_clock_save(&clock, &own.at_uint8_t, 1, NULL) == LAPD_WRONG_POINTER && memcmp(&own, &was, sizeof own) == 0,
          "lapd_clock_save with null for length");
    fresh();
    wants(lapd_clock_restore(NULL, &own.at_uint8_t, 1) == LAPD_WRONG_POINTER && memcmp(&own, &was, sizeof own) == 0,
          "lapd_clock_restore with null for clock");
    fresh();
    wants(lapd_clock_restore(&clock, NULL, 1) == LAPD_WRONG_POINTER && memcmp(&own, &was, sizeof own) == 0,
          "lapd_clock_restore with null for image");
    fresh();
    wants(lapd_request_with(NULL, 0, 0, 0, 64, &own.at_uint8_t, 1, &own.at_lapd_report) == LAPD_WRONG_POINTER && memcmp(&own, &was, sizeof own) == 0,
          "lapd_request_with with null for card");
    fresh();
    wants(lapd_request_with(&card, 0, 0, 0, 64, NULL, 1, &own.at_lapd_report) == LAPD_WRONG_POINTER && memcmp(&own, &was, sizeof own) == 0,
          "lapd_request_with with null for contents");
    fresh();
    wants(lapd_request_with(&card, 0, 0, 0, 64, &own.at_uint8_t, 1, NULL) == LAPD_WRONG_POINTER && memcmp(&own, &was, sizeof own) == 0,
          "lapd_request_with with null for report");
    fresh();
    wants(lapd_frame_at(NULL, 0, 0, &own.at_uint8_t, 1, &own.at_bool, &own.at_lapd_report) == LAPD_WRONG_POINTER && memcmp(&own, &was, sizeof own) == 0,
          "lapd_frame_at with null for card");
    fresh();
    wants(lapd_frame_at(&card, 0, 0, NULL, 1, &own.at_bool, &own.at_lapd_report) == LAPD_WRONG_POINTER && memcmp(&own, &was, sizeof own) == 0,
          "lapd_frame_at with null for octets");
    fresh();
    wants(lapd_frame_at(&card, 0, 0, &own.at_uint8_t, 1, NULL, &own.at_lapd_report) == LAPD_WRONG_POINTER && memcmp(&own, &was, sizeof own) == 0,
          "lapd_frame_at with null for is_done");
    fresh();
    wants(lapd_frame_at(&card, 0, 0, &own.at_uint8_t, 1, &own.at_bool, NULL) == LAPD_WRONG_POINTER && memcmp(&own, &was, sizeof own) == 0,
          "lapd_frame_at with null for report");
    fresh();
    wants(lapd_request_at(NULL, 0, 0, 0, 0, 64, &own.at_uint8_t, 1, &own.at_bool, &own.at_lapd_report) == LAPD_WRONG_POINTER && memcmp(&own, &was, sizeof own) == 0,
          "lapd_request_at with null for card");
    fresh();
    wants(lapd_request_at(&card, 0, 0, 0, 0, 64, NULL, 1, &own.at_bool, &own.at_lapd_report) == LAPD_WRONG_POINTER && memcmp(&own, &was, sizeof own) == 0,
          "lapd_request_at with null for contents");
    fresh();
    wants(lapd_request_at(&card, 0, 0, 0, 0, 64, &own.at_uint8_t, 1, NULL, &own.at_lapd_report) == LAPD_WRONG_POINTER && memcmp(&own, &was, sizeof own) == 0,
          "lapd_request_at with null for is_done");
    fresh();
    wants(lapd_request_at(&card, 0, 0, 0, 0, 64, &own.at_uint8_t, 1, &own.at_bool, NULL) == LAPD_WRONG_POINTER && memcmp(&own, &was, sizeof own) == 0,
          "lapd_request_at with null for report");
    fresh();
    wants(lapd_next_frame_at(NULL, 0, 0, &own.at_uint8_t, 1, &own.at_size_t, &own.at_lapd_report) == LAPD_WRONG_POINTER && memcmp(&own, &was, sizeof own) == 0,
          "lapd_next_frame_at with null for card");
    fresh();
    wants(lapd_next_frame_at(&card, 0, 0, NULL, 1, &own.at_size_t, &own.at_lapd_report) == LAPD_WRONG_POINTER && memcmp(&own, &was, sizeof own) == 0,
          "lapd_next_frame_at with null for out");
    fresh();
    wants(lapd_next_frame_at(&card, 0, 0, &own.at_uint8_t, 1, NULL, &own.at_lapd_report) == LAPD_WRONG_POINTER && memcmp(&own, &was, sizeof own) == 0,
          "lapd_next_frame_at with null for length");
    fresh();
    wants(lapd_next_frame_at(&card, 0, 0, &own.at_uint8_t, 1, &own.at_size_t, NULL) == LAPD_WRONG_POINTER && memcmp(&own, &was, sizeof own) == 0,
          "lapd_next_frame_at with null for report");
    fresh();
    wants(lapd_exchange_at(NULL, 0, 0, &own.at_uint8_t, 1, &own.at_uint8_t, 1, &own.at_size_t, &own.at_lapd_report) == LAPD_WRONG_POINTER && memcmp(&own, &was, sizeof own) == 0,
          "lapd_exchange_at with null for card");
    fresh();
    wants(lapd_exchange_at(&card, 0, 0, NULL, 1, &own.at_uint8_t, 1, &own.at_size_t, &own.at_lapd_report) == LAPD_WRONG_POINTER && memcmp(&own, &was, sizeof own) == 0,
          "lapd_exchange_at with null for in");
    fresh();
    wants(lapd_exchange_at(&card, 0, 0, &own.at_uint8_t, 1, NULL, 1, &own.at_size_t, &own.at_lapd_report) == LAPD_WRONG_POINTER && memcmp(&own, &was, sizeof own) == 0,
          "lapd_exchange_at with null for out");
    fresh();
    wants(lapd_exchange_at(&card, 0, 0, &own.at_uint8_t, 1, &own.at_uint8_t, 1, NULL, &own.at_lapd_report) == LAPD_WRONG_POINTER && memcmp(&own, &was, sizeof own) == 0,
          "lapd_exchange_at with null for steps");
    fresh();
    wants(lapd_exchange_at(&card, 0, 0, &own.at_uint8_t, 1, &own.at_uint8_t, 1, &own.at_size_t, NULL) == LAPD_WRONG_POINTER && memcmp(&own, &was, sizeof own) == 0,
          "lapd_exchange_at with null for report");
    fresh();
    wants(lapd_establish(NULL, 0, 0, 64, &own.at_lapd_report) == LAPD_WRONG_POINTER && memcmp(&own, &was, sizeof own) == 0,
          "lapd_establish with null for card");
    fresh();
    wants(lapd_establish(&card, 0, 0, 64, NULL) == LAPD_WRONG_POINTER && memcmp(&own, &was, sizeof own) == 0,
          "lapd_establish with null for report");
    fresh();
    wants(lapd_release(NULL, 0, 0, 64, &own.at_lapd_report) == LAPD_WRONG_POINTER && memcmp(&own, &was, sizeof own) == 0,
          "lapd_release with null for card");
    fresh();
    wants(lapd_release(&card, 0, 0, 64, NULL) == LAPD_WRONG_POINTER && memcmp(&own, &was, sizeof own) == 0,
          "lapd_release with null for report");
    fresh();
    wants(lapd_data(NULL, 0, 0, 64, &own.at_uint8_t, 1, &own.at_lapd_report) == LAPD_WRONG_POINTER && memcmp(&own, &was, sizeof own) == 0,
          "lapd_data with null for card");
    fresh();
    wants(lapd_data(&card, 0, 0, 64, NULL, 1, &own.at_lapd_report) == LAPD_WRONG_POINTER && memcmp(&own, &was, sizeof own) == 0,
          "lapd_data with null for contents");
    fresh();
    wants(lapd_data(&card, 0, 0, 64, &own.at_uint8_t, 1, NULL) == LAPD_WRONG_POINTER && memcmp(&own, &was, sizeof own) == 0,
          "lapd_data with null for report");
    fresh();
    wants(lapd_unit(NULL, 0, 0, 64, &own.at_uint8_t, 1, &own.at_lapd_report) == LAPD_WRONG_POINTER && memcmp(&own, &was, sizeof own) == 0,
          "lapd_unit with null for card");
    fresh();
    wants(lapd_unit(&card, 0, 0, 64, NULL, 1, &own.at_lapd_report) == LAPD_WRONG_POINTER && memcmp(&own, &was, sizeof own) == 0,
          "lapd_unit with null for contents");
    fresh();
    wants(lapd_unit(&card, 0, 0, 64, &own.at_uint8_t, 1, NULL) == LAPD_WRONG_POINTER && memcmp(&own, &was, sizeof own) == 0,
          "lapd_unit with null for report");
    fresh();
    wants(lapd_assign(NULL, 0, 64, &own.at_lapd_report) == LAPD_WRONG_POINTER && memcmp(&own, &was, sizeof own) == 0,
          "lapd_assign with null for card");
    fresh();
    wants(lapd_assign(&card, 0, 64, NULL) == LAPD_WRONG_POINTER && memcmp(&own, &was, sizeof own) == 0,
          "lapd_assign with null for report");
    fresh();
    wants(lapd_remove(NULL, 0, 64, &own.at_lapd_report) == LAPD_WRONG_POINTER && memcmp(&own, &was, sizeof own) == 0,
          "lapd_remove with null for card");
    fresh();
    wants(lapd_remove(&card, 0, 64, NULL) == LAPD_WRONG_POINTER && memcmp(&own, &was, sizeof own) == 0,
          "lapd_remove with null for report");
    fresh();
    wants(lapd_check(NULL, 0, 64, &own.at_lapd_report) == LAPD_WRONG_POINTER && memcmp(&own, &was, sizeof own) == 0,
          "lapd_check with null for card");
    fresh();
    wants(lapd_check(&card, 0, 64, NULL) == LAPD_WRONG_POINTER && memcmp(&own, &was, sizeof own) == 0,
          "lapd_check with null for report");
    fresh();
    wants(lapd_disown(NULL, 0, 64, &own.at_lapd_report) == LAPD_WRONG_POINTER && memcmp(&own, &was, sizeof own) == 0,
          "lapd_disown with null for card");
    fresh();
    wants(lapd_disown(&card, 0, 64, NULL) == LAPD_WRONG_POINTER && memcmp(&own, &was, sizeof own) == 0,
          "lapd_disown with null for report");
    fresh();
    wants(lapd_ask_tei(NULL, 0, &own.at_lapd_report) == LAPD_WRONG_POINTER && memcmp(&own, &was, sizeof own) == 0,
          "lapd_ask_tei with null for card");
    fresh();
    wants(lapd_ask_tei(&card, 0, NULL) == LAPD_WRONG_POINTER && memcmp(&own, &was, sizeof own) == 0,
          "lapd_ask_tei with null for report");
    fresh();
    wants(lapd_verify_tei(NULL, 0, 64, &own.at_lapd_report) == LAPD_WRONG_POINTER && memcmp(&own, &was, sizeof own) == 0,
          "lapd_verify_tei with null for card");
    fresh();
    wants(lapd_verify_tei(&card, 0, 64, NULL) == LAPD_WRONG_POINTER && memcmp(&own, &was, sizeof own) == 0,
          "lapd_verify_tei with null for report");
    fresh();
    wants(lapd_busy(NULL, 0, 0, 64, &own.at_lapd_report) == LAPD_WRONG_POINTER && memcmp(&own, &was, sizeof own) == 0,
          "lapd_busy with null for card");
    fresh();
    wants(lapd_busy(&card, 0, 0, 64, NULL) == LAPD_WRONG_POINTER && memcmp(&own, &was, sizeof own) == 0,
          "lapd_busy with null for report");
    fresh();
    wants(lapd_ready(NULL, 0, 0, 64, &own.at_lapd_report) == LAPD_WRONG_POINTER && memcmp(&own, &was, sizeof own) == 0,
          "lapd_ready with null for card");
    fresh();
    wants(lapd_ready(&card, 0, 0, 64, NULL) == LAPD_WRONG_POINTER && memcmp(&own, &was, sizeof own) == 0,
          "lapd_ready with null for report");
    fresh();
    wants(lapd_deactivate(NULL, 0, 0, 64, &own.at_lapd_report) == LAPD_WRONG_POINTER && memcmp(&own, &was, sizeof own) == 0,
          "lapd_deactivate with null for card");
    fresh();
    wants(lapd_deactivate(&card, 0, 0, 64, NULL) == LAPD_WRONG_POINTER && memcmp(&own, &was, sizeof own) == 0,
          "lapd_deactivate with null for report");
    fresh();
    wants(lapd_line_down(NULL, 0, &own.at_uint8_t, &own.at_lapd_report) == LAPD_WRONG_POINTER && memcmp(&own, &was, sizeof own) == 0,
          "lapd_line_down with null for card");
    fresh();
    wants(lapd_line_down(&card, 0, NULL, &own.at_lapd_report) == LAPD_WRONG_POINTER && memcmp(&own, &was, sizeof own) == 0,
          "lapd_line_down with null for place");
    fresh();
    wants(lapd_line_down(&card, 0, &own.at_uint8_t, NULL) == LAPD_WRONG_POINTER && memcmp(&own, &was, sizeof own) == 0,
          "lapd_line_down with null for report");
    fresh();
    wants(lapd_note_text_of(NULL, &own.at_lapd_config, &own.at_char, 1) == LAPD_WRONG_POINTER && memcmp(&own, &was, sizeof own) == 0,
          "lapd_note_text_of with null for note");
    fresh();
    wants(lapd_note_text_of(&own.at_lapd_note, NULL, &own.at_char, 1) == LAPD_WRONG_POINTER && memcmp(&own, &was, sizeof own) == 0,
          "lapd_note_text_of with null for config");
    fresh();
    wants(lapd_note_text_of(&own.at_lapd_note, &own.at_lapd_config, NULL, 1) == LAPD_WRONG_POINTER && memcmp(&own, &was, sizeof own) == 0,
          "lapd_note_text_of with null for text");
    wants(sum(&card) == before, "a wrong call has changed the card");
    fresh();
    wants(lapd_exchange(&card, 0, NULL, 0, &own.at_uint8_t, 0, &own.at_size_t, &own.at_lapd_report) == lapd_exchange(&card, 0, &own.at_uint8_t, 0, &own.at_uint8_t, 0, &own.at_size_t, &own.at_lapd_report),
          "lapd_exchange with null for no octets of in");
    fresh();
    wants(lapd_exchange(&card, 0, &own.at_uint8_t, 0, NULL, 0, &own.at_size_t, &own.at_lapd_report) == lapd_exchange(&card, 0, &own.at_uint8_t, 0, &own.at_uint8_t, 0, &own.at_size_t, &own.at_lapd_report),
          "lapd_exchange with null for no octets of out");
    fresh();
    wants(lapd_frame(&card, 0, NULL, 0, &own.at_lapd_report) == lapd_frame(&card, 0, &own.at_uint8_t, 0, &own.at_lapd_report),
          "lapd_frame with null for no octets of octets");
    fresh();
    wants(lapd_next_frame(&card, 0, NULL, 0, &own.at_size_t, &own.at_lapd_report) == lapd_next_frame(&card, 0, &own.at_uint8_t, 0, &own.at_size_t, &own.at_lapd_report),
          "lapd_next_frame with null for no octets of out");
    fresh();
    wants(lapd_request(&card, 0, 0, 0, 64, NULL, 0, &own.at_lapd_report) == lapd_request(&card, 0, 0, 0, 64, &own.at_uint8_t, 0, &own.at_lapd_report),
          "lapd_request with null for no octets of contents");
    fresh();
    wants(lapd_begun_frame(&card, 0, NULL, 0, &own.at_size_t) == lapd_begun_frame(&card, 0, &own.at_uint8_t, 0, &own.at_size_t),
          "lapd_begun_frame with null for no octets of out");
    fresh();
    wants(lapd_heard_frame(&card, 0, NULL, 0, &own.at_size_t) == lapd_heard_frame(&card, 0, &own.at_uint8_t, 0, &own.at_size_t),
          "lapd_heard_frame with null for no octets of out");
    fresh();
    wants(lapd_card_save(&card, NULL, 0, &own.at_size_t) == lapd_card_save(&card, &own.at_uint8_t, 0, &own.at_size_t),
          "lapd_card_save with null for no octets of image");
    fresh();
    wants(lapd_card_restore(&card, NULL, 0) == lapd_card_restore(&card, &own.at_uint8_t, 0),
          "lapd_card_restore with null for no octets of image");
    fresh();
    wants(lapd_frame_read(NULL, 0, 0, &own.at_lapd_fields) == lapd_frame_read(&own.at_uint8_t, 0, 0, &own.at_lapd_fields),
          "lapd_frame_read with null for no octets of octets");
    fresh();
    wants(lapd_frame_text(NULL, 0, 0, &own.at_char, 0) == lapd_frame_text(&own.at_uint8_t, 0, 0, &own.at_char, 0),
          "lapd_frame_text with null for no octets of octets");
    fresh();
    wants(lapd_frame_text(&own.at_uint8_t, 0, 0, NULL, 0) == lapd_frame_text(&own.at_uint8_t, 0, 0, &own.at_char, 0),
          "lapd_frame_text with null for no octets of text");
    fresh();
    wants(lapd_clock_save(&clock, NULL, 0, &own.at_size_t) == lapd_clock_save(&clock, &own.at_uint8_t, 0, &own.at_size_t),
          "lapd_clock_save with null for no octets of image");
    fresh();
    wants(lapd_clock_restore(&clock, NULL, 0) == lapd_clock_restore(&clock, &own.at_uint8_t, 0),
          "lapd_clock_restore with null for no octets of image");
    fresh();
    wants(lapd_request_with(&card, 0, 0, 0, 64, NULL, 0, &own.at_lapd_report) == lapd_request_with(&card, 0, 0, 0, 64, &own.at_uint8_t, 0, &own.at_lapd_report),
          "lapd_request_with with null for no octets of contents");
    fresh();
    wants(lapd_frame_at(&card, 0, 0, NULL, 0, &own.at_bool, &own.at_lapd_report) == lapd_frame_at(&card, 0, 0, &own.at_uint8_t, 0, &own.at_bool, &own.at_lapd_report),
          "lapd_frame_at with null for no octets of octets");
    fresh();
    wants(lapd_request_at(&card, 0, 0, 0, 0, 64, NULL, 0, &own.at_bool, &own.at_lapd_report) == lapd_request_at(&card, 0, 0, 0, 0, 64, &own.at_uint8_t, 0, &own.at_bool, &own.at_lapd_report),
          "lapd_request_at with null for no octets of contents");
    fresh();
    wants(lapd_next_frame_at(&card, 0, 0, NULL, 0, &own.at_size_t, &own.at_lapd_report) == lapd_next_frame_at(&card, 0, 0, &own.at_uint8_t, 0, &own.at_size_t, &own.at_lapd_report),
          "lapd_next_frame_at with null for no octets of out");
    fresh();
    wants(lapd_exchange_at(&card, 0, 0, NULL, 0, &own.at_uint8_t, 0, &own.at_size_t, &own.at_lapd_report) == lapd_exchange_at(&card, 0, 0, &own.at_uint8_t, 0, &own.at_uint8_t, 0, &own.at_size_t, &own.at_lapd_report),
          "lapd_exchange_at with null for no octets of in");
    fresh();
    wants(lapd_exchange_at(&card, 0, 0, &own.at_uint8_t, 0, NULL, 0, &own.at_size_t, &own.at_lapd_report) == lapd_exchange_at(&card, 0, 0, &own.at_uint8_t, 0, &own.at_uint8_t, 0, &own.at_size_t, &own.at_lapd_report),
          "lapd_exchange_at with null for no octets of out");
    fresh();
    wants(lapd_data(&card, 0, 0, 64, NULL, 0, &own.at_lapd_report) == lapd_data(&card, 0, 0, 64, &own.at_uint8_t, 0, &own.at_lapd_report),
          "lapd_data with null for no octets of contents");
    fresh();
    wants(lapd_unit(&card, 0, 0, 64, NULL, 0, &own.at_lapd_report) == lapd_unit(&card, 0, 0, 64, &own.at_uint8_t, 0, &own.at_lapd_report),
          "lapd_unit with null for no octets of contents");
    fresh();
    wants(lapd_note_text_of(&own.at_lapd_note, &own.at_lapd_config, NULL, 0) == lapd_note_text_of(&own.at_lapd_note, &own.at_lapd_config, &own.at_char, 0),
          "lapd_note_text_of with null for no octets of text");
    wants(lapd_card_free(&card) == LAPD_OK && lapd_clock_free(&clock) == LAPD_OK, "no end");
}
