/*
 * link_counts.c: what is counted of a link. Two cards exchange frames over a wire, on which one is lost now and then: each of the
 * five numbers of lapd_link_counters is what has happened. For tests alone.
 */
#include <stdio.h>
#include <string.h>

#include "lapd.h"

enum { TEI = 5, MOST = 65535 };

static const lapd_lengths lengths = LAPD_DEFAULT_LENGTHS;
static lapd_config config = {.lines = 2, .terminals = 2, .k = 7, .k16 = 7, .queue = 8, .unit_queue = 4, .control = 4, .slots = 40,
                             .n201 = 260, .n200 = 3};
static lapd_card near = LAPD_CARD_NONE, far = LAPD_CARD_NONE;
static lapd_report report;
static uint64_t now;
static int failed;

static void wants(bool is, const char *what) {
    if (!is) {
        failed = 1;
        fprintf(stderr, "link_counts: %s\n", what);
    }
}

/* The numbers of call control of the TEI at a card, in their order. */
static void has_counted(lapd_card *card, unsigned again, unsigned expired, unsigned sent, unsigned received, unsigned established,
                        const char *what) {
    struct lapd_link_counters is;
    memset(&is, 9, sizeof is);
    wants(lapd_link_counters(card, 0, LAPD_CALL, TEI, &is) == LAPD_OK && is.sent_again == again && is.t200_expired == expired
              && is.rejects_sent == sent && is.rejects_received == received && is.established == established, what);
}

/* The next frame of a card comes to the other, or is lost. */
static void passes(lapd_card *from, lapd_card *to, bool is_lost) {
    uint8_t frame[LAPD_MOST_FRAME];
    size_t length = 0;
    wants(lapd_next_frame(from, 0, frame, sizeof frame, &length, &report) == LAPD_OK, "no frame");
    if (!is_lost)
        wants(lapd_frame(to, 0, frame, length, &report) == LAPD_OK, "a frame is not taken");
}

/* All that waits at either card. */
static void settle(void) {
    while (lapd_next_waiting(&near, 0, &(uint32_t){0}) == LAPD_OK || lapd_next_waiting(&far, 0, &(uint32_t){0}) == LAPD_OK) {
        if (lapd_next_waiting(&near, 0, &(uint32_t){0}) == LAPD_OK)
            passes(&near, &far, false);
        else
            passes(&far, &near, false);
    }
}

static void sends(void) {
    wants(lapd_data(&near, 0, LAPD_CALL, TEI, (const uint8_t[]){8}, 1, &report) == LAPD_OK, "contents are refused");
}

/* T200 of the near card, which has run since the latest moment. */
static void expires(void) {
    now += lengths.t200;
    wants(lapd_fall_due(&near, now, &report) == LAPD_OK && report.expired.timer == LAPD_T200, "no T200");
    wants(lapd_fall_due(&near, now, &report) == LAPD_NO_TIMER && lapd_fall_due(&far, now, &report) == LAPD_NO_TIMER, "another timer");
}

static void starts(lapd_card *card, uint16_t side) {
    config.side = side;
    wants(lapd_card_start_frames_timed(card, &config, &lengths) == LAPD_OK && lapd_assign(card, 0, TEI, &report) == LAPD_OK, "no card");
    has_counted(card, 0, 0, 0, 0, 0, "a link has counted before it is established");
}

/* Nothing is written. */
static void wrong_calls(void) {
    struct lapd_link_counters is, was;
    lapd_card none = LAPD_CARD_NONE;
    memset(&was, 0x55, sizeof was);
    is = was;
    wants(lapd_link_counters(&none, 0, LAPD_CALL, TEI, &is) == LAPD_NO_CARD, "counters of no card");
    wants(lapd_link_counters(&near, config.lines, LAPD_CALL, TEI, &is) == LAPD_WRONG_LINE, "counters of no line");
    wants(lapd_link_counters(&near, 0, 1, TEI, &is) == LAPD_WRONG_SERVICE, "counters of no service");
    wants(lapd_link_counters(&near, 0, LAPD_CALL, 127, &is) == LAPD_WRONG_TEI, "counters of the group");
    wants(lapd_link_counters(&near, 0, LAPD_CALL, TEI + 1, &is) == LAPD_REFUSED_NO_LINK, "counters of no TEI");
    wants(lapd_link_counters(&near, 1, LAPD_CALL, TEI, &is) == LAPD_REFUSED_NO_LINK, "counters of a TEI of another line");
    wants(memcmp(&is, &was, sizeof is) == 0, "a wrong call has told counters");
}

/* The first of two I-frames is lost, and the REJ that the far end sends for it, too. */
static void loses_the_first(void) {
    sends();
    sends();
    passes(&near, &far, true);
    passes(&near, &far, false);
    has_counted(&far, 0, 0, 0, 0, 1, "REJ has not gone yet");
    passes(&far, &near, true);
    has_counted(&far, 0, 0, 1, 0, 1, "REJ has gone");
    has_counted(&near, 0, 0, 0, 0, 1, "REJ is lost");
}

/* T200 expires. The answer to RR says what has not come, and that goes again. */
static void recovers(void) {
    expires();
    has_counted(&near, 0, 1, 0, 0, 1, "T200 has expired");
    settle();
    has_counted(&near, 2, 1, 0, 0, 1, "two frames went again after T200");
}

/* REJ comes: what it asks for goes again. */
static void is_rejected(void) {
    sends();
    sends();
    passes(&near, &far, true);
    settle();
    has_counted(&near, 4, 1, 0, 1, 1, "two frames went again after REJ");
    has_counted(&far, 0, 0, 2, 0, 1, "the second REJ");
}

/* A release leaves the numbers, and the next establishment is counted. The link of the other service counts by itself. */
static void is_established_again(void) {
    struct lapd_link_counters packet = {9, 9, 9, 9, 9, {9}};
    wants(lapd_release(&near, 0, LAPD_CALL, TEI, &report) == LAPD_OK, "no release");
    settle();
    has_counted(&near, 4, 1, 0, 1, 1, "a release changes what was counted");
    wants(lapd_establish(&far, 0, LAPD_CALL, TEI, &report) == LAPD_OK, "no establishment");
    settle();
    has_counted(&near, 4, 1, 0, 1, 2, "the far end has established the link");
    has_counted(&far, 0, 0, 2, 0, 2, "the link is established once more");
    wants(lapd_link_counters(&near, 0, LAPD_PACKET, TEI, &packet) == LAPD_OK && packet.sent_again == 0 && packet.t200_expired == 0
              && packet.rejects_sent == 0 && packet.rejects_received == 0 && packet.established == 0, "the other service counts");
}

/* The link of a TEI that comes anew counts anew, and so does one that is given up. */
static void begins_anew(void) {
    struct lapd_link_counters none = {9, 9, 9, 9, 9, {9}};
    uint8_t place = 0;
    wants(lapd_remove(&near, 0, TEI, &report) == LAPD_OK, "the TEI stays");
    wants(lapd_link_counters(&near, 0, LAPD_CALL, TEI, &none) == LAPD_REFUSED_NO_LINK && none.established == 9, "counters of a TEI that left");
    wants(lapd_assign(&near, 0, TEI, &report) == LAPD_OK, "no TEI comes anew");
    has_counted(&near, 0, 0, 0, 0, 0, "a TEI that came anew has counted");
    wants(lapd_establish(&near, 0, LAPD_CALL, TEI, &report) == LAPD_OK, "no establishment");
    settle();
    has_counted(&near, 0, 0, 0, 0, 1, "a TEI that came anew is established");
    has_counted(&far, 0, 0, 2, 0, 3, "the link is established anew");
    wants(lapd_deactivate(&near, 0, LAPD_CALL, TEI, &report) == LAPD_OK, "the link is not given up");
    has_counted(&near, 0, 0, 0, 0, 0, "a link that was given up has counted");
    while (lapd_line_down(&far, 0, &place, &report) == LAPD_OK) {
    }
    has_counted(&far, 0, 0, 0, 0, 0, "a line that went down has counted");
}

/* Nobody answers, and T200 expires four times for each establishment. */
static void stays_at_its_most(void) {
    for (unsigned long expired = 0; expired < MOST + 10;) {
        wants(lapd_establish(&near, 0, LAPD_CALL, TEI, &report) == LAPD_OK, "no establishment");
        for (unsigned i = 0; i <= config.n200; i++) {
            passes(&near, &far, true);
            expires();
            expired++;
            has_counted(&near, 0, expired < MOST ? (unsigned)expired : MOST, 0, 0, 0, "another number of expiries");
        }
    }
}

int main(void) {
    starts(&near, LAPD_NETWORK);
    starts(&far, LAPD_USER);
    wrong_calls();
    wants(lapd_establish(&near, 0, LAPD_CALL, TEI, &report) == LAPD_OK, "no establishment");
    settle();
    has_counted(&near, 0, 0, 0, 0, 1, "a link that is established");
    loses_the_first();
    recovers();
    is_rejected();
    is_established_again();
    begins_anew();
    stays_at_its_most();
    wants(lapd_card_free(&near) == LAPD_OK && lapd_card_free(&far) == LAPD_OK, "a card stays");
    return failed;
}
