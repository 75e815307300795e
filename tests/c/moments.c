/*
 * moments.c: what lapd.h says at its top. A program that has waited, and does not tell its card the time, starts timers in the
 * past, and they expire too soon: of the two T201 that a check has, one is over at once, and no status tells it. With a call that
 * takes the moment with what came (lapd_frame_at, lapd_request_at, lapd_next_frame_at, lapd_exchange_at) timers run from the moment
 * that it took, and what fell due before is told first, a timer a call. For tests alone; tests/c/timed.c compares these calls with
 * lapd_fall_due at random.
 */
#include <stdio.h>
#include <string.h>

#include "lapd.h"

enum { WAITED = 60000 };

static const lapd_config config = LAPD_BASIC_ACCESS;
static const lapd_lengths lengths = LAPD_DEFAULT_LENGTHS;
/* of TEI 64: SABME, a verify, the answer to a check */
static const uint8_t sabme[] = {0x00, 0x81, 0x7F};
static const uint8_t verify[] = {0xFC, 0xFF, 0x03, 0x0F, 0x00, 0x00, 0x07, 0x81};
static const uint8_t answer[] = {0xFC, 0xFF, 0x03, 0x0F, 0x12, 0x34, 0x05, 0x81};
static lapd_card card = LAPD_CARD_NONE;
static lapd_report report;
static int failed;

static void wants(bool is, const char *what) {
    if (!is) {
        failed = 1;
        fprintf(stderr, "moments: %s\n", what);
    }
}

/* A card with TEI 64 on its line, since moment 0. */
static void begins(bool is_of_frames) {
    wants((is_of_frames ? lapd_card_start_frames_timed(&card, &config, &lengths) : lapd_card_start_timed(&card, &config, &lengths))
              == LAPD_OK && lapd_assign(&card, 0, 64, &report) == LAPD_OK, "no card");
}

static void ends(void) {
    wants(lapd_card_free(&card) == LAPD_OK, "no end");
}

static uint64_t next_moment(void) {
    uint64_t moment = 0;
    return lapd_next_moment(&card, &moment) == LAPD_OK ? moment : 0;
}

/* How often a note is told until nothing is due at a moment. */
static unsigned told_until(uint64_t now, uint8_t note) {
    unsigned count = 0;
    uint32_t status;
    while ((status = lapd_fall_due(&card, now, &report)) == LAPD_OK)
        for (unsigned i = 0; i < report.note_count; i++)
            count += report.notes[i].note == note;
    wants(status == LAPD_NO_TIMER, "the time is refused");
    return count;
}

static bool is_there(void) {
    uint8_t state = 0;
    return lapd_state(&card, 0, LAPD_CALL, 64, &state) == LAPD_OK && state != 0;
}

/* The fault: a check is asked for after a wait, without the time. Its terminal has one T201 to answer, in place of two. */
static void forgotten(void) {
    begins(true);
    wants(lapd_check(&card, 0, 64, &report) == LAPD_OK && next_moment() == lengths.t201, "T201 does not begin in the past");
    wants(told_until(WAITED, LAPD_REMOVED) == 0 && told_until(WAITED + lengths.t201, LAPD_REMOVED) == 1 && !is_there(),
          "its TEI stays, although the check had but one T201");
    ends();
}

/* The same with the moment: T201 runs twice from it, the terminal answers, and its TEI stays. */
static void request_with_moment(void) {
    bool is_done = false;
    begins(true);
    wants(lapd_request_at(&card, WAITED, 0, LAPD_CHECK, LAPD_CALL, 64, NULL, 0, &is_done, &report) == LAPD_OK && is_done
              && next_moment() == WAITED + lengths.t201, "T201 does not run from the moment of its request");
    for (int times = 1; times <= 2; times++) {
        uint64_t now = WAITED + (uint64_t)times * lengths.t201;
        wants(lapd_frame_at(&card, now - 1, 0, answer, sizeof answer, &is_done, &report) == LAPD_OK && is_done, "no answer");
        wants(told_until(now, LAPD_REMOVED) == 0, "its TEI has left");
    }
    wants(is_there() && next_moment() == 0, "the check has not ended");
    ends();
}

/* A frame, whose T201 runs from its moment on; and one that comes as a timer is due, whose expiry is told first. */
static void frame_with_moment(void) {
    bool is_done = false;
    begins(true);
    wants(lapd_frame_at(&card, WAITED, 0, verify, sizeof verify, &is_done, &report) == LAPD_OK && is_done
              && next_moment() == WAITED + lengths.t201, "T201 does not run from the moment of its frame");
    uint64_t late = WAITED + lengths.t201 + 5;
    is_done = true;
    wants(lapd_frame_at(&card, late, 0, sabme, sizeof sabme, &is_done, &report) == LAPD_OK && !is_done && report.note_count == 0
              && next_moment() == late + lengths.t201, "T201 has not expired first");
    wants(lapd_frame_at(&card, late, 0, sabme, sizeof sabme, &is_done, &report) == LAPD_OK && is_done && report.note_count == 1
              && report.notes[0].note == LAPD_ESTABLISH_INDICATION, "the frame does not come after it");
    wants(lapd_frame_at(&card, late - 1, 0, sabme, sizeof sabme, &is_done, &report) == LAPD_WRONG_TIME && !is_done, "time goes back");
    wants(lapd_frame_at(&card, late + 1, 1, sabme, sizeof sabme, &is_done, &report) == LAPD_WRONG_LINE && is_done
              && lapd_fall_due(&card, late, &report) == LAPD_WRONG_TIME, "a wrong line, and its moment");
    ends();
}

/* A frame that goes: T200 of an I-frame runs from when it is taken. */
static void next_frame_with_moment(void) {
    uint8_t out[LAPD_MOST_FRAME];
    size_t length = 0;
    bool is_done;
    begins(true);
    wants(lapd_frame_at(&card, WAITED, 0, sabme, sizeof sabme, &is_done, &report) == LAPD_OK
              && lapd_data(&card, 0, LAPD_CALL, 64, sabme, sizeof sabme, &report) == LAPD_OK, "no data");
    wants(lapd_next_frame_at(&card, WAITED + 10, 0, out, sizeof out, &length, &report) == LAPD_OK && length == 3, "no UA");
    wants(lapd_next_frame_at(&card, WAITED + 500, 0, out, sizeof out, &length, &report) == LAPD_OK && length == 7
              && next_moment() == WAITED + 500 + lengths.t200, "T200 does not run from the moment of its frame");
    wants(lapd_next_frame_at(&card, WAITED + 1500, 0, out, sizeof out, &length, &report) == LAPD_OK && length == 0, "T200 is not told");
    wants(lapd_next_frame_at(&card, WAITED + 1500, 0, out, sizeof out, &length, &report) == LAPD_OK && length == 4, "no enquiry");
    wants(lapd_next_frame_at(&card, WAITED + 1500, 0, out, sizeof out, &length, &report) == LAPD_NO_FRAME && length == 4, "another frame");
    ends();
}

/* Octets, before which T201 expires: it runs again from their moment on. */
static void octets_with_moment(void) {
    static const uint8_t in[] = {0x7E, 0x7E, 0x7E, 0x7E};
    uint8_t out[sizeof in];
    size_t steps = 0;
    begins(false);
    wants(lapd_request_with(&card, 0, LAPD_CHECK, LAPD_CALL, 64, NULL, 0, &report) == LAPD_OK && next_moment() == lengths.t201, "no check");
    wants(lapd_exchange_at(&card, WAITED, 0, in, sizeof in, out, sizeof out, &steps, &report) == LAPD_OK && steps == 0, "no expiry");
    while (steps < 2 * sizeof in)
        if (lapd_exchange_at(&card, WAITED, 0, in, sizeof in, out, sizeof out, &steps, &report) != LAPD_OK)
            break;
    wants(steps == 2 * sizeof in && next_moment() == WAITED + lengths.t201, "T201 does not run from the moment of the octets");
    ends();
}

int main(void) {
    forgotten();
    request_with_moment();
    frame_with_moment();
    next_frame_with_moment();
    octets_with_moment();
    return failed;
}
