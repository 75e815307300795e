/*
 * reopened.c: two promises of reports. If a full queue refused contents, its link is told once, when it has room again.
 * Contents that were granted are acknowledged, wait, or are told as given up. lapd_room says here what a report has to tell.
 * Requests, frames and timers come at random, at links with room for two. So they do at a card of octets. For tests alone.
 */
#include <stdio.h>
#include <string.h>

#include "hdlc.h"
#include "lapd.h"

enum { LINES = 2, PLACES = 254, QUEUE = 2, ROUNDS = 200000 };

static const lapd_config config = {.lines = LINES, .terminals = 2, .k = 2, .k16 = 2, .queue = 2, .unit_queue = 2, .control = 4, .slots = 64,
                                   .n201 = 16, .n200 = 1};
static lapd_card card = LAPD_CARD_NONE;
static lapd_report report;
static bool waits[LINES][PLACES];
static struct { int count; uint8_t va; } kept[LINES][PLACES];
static unsigned refused, told, dropped, given_up;
static uint32_t seed = 1;
static int failed;

static void wants(bool is, const char *what) {
    if (!is) {
        failed = 1;
        fprintf(stderr, "reopened: %s\n", what);
    }
}

static uint32_t chance(uint32_t many) {
    seed ^= seed << 13;
    seed ^= seed >> 17;
    seed ^= seed << 5;
    return seed % many;
}

static unsigned place_of(uint8_t service, uint8_t tei) {
    return 2u * tei + (service == LAPD_PACKET);
}

/* The places of the queue that are left; -1 where the TEI is not on the line. */
static int queue_left(uint32_t line, unsigned place) {
    struct lapd_room room;
    uint8_t service = place % 2 == 0 ? LAPD_CALL : LAPD_PACKET;
    return lapd_room(&card, line, service, (uint8_t)(place / 2), &room) == LAPD_OK ? (int)room.queue : -1;
}

static void is_accounted(uint32_t line);

/* The report is that of a call of this line: of the links that wait, the first that has room is told, and no other; those that
 * are gone wait no longer. */
static void is_told(uint32_t line) {
    bool was_told = false;
    for (unsigned place = 0; place < PLACES; place++) {
        int left = waits[line][place] ? queue_left(line, place) : 0;
        if (left > 0 && !was_told) {
            was_told = true;
            waits[line][place] = false;
            told++;
            wants(report.reopened == 1 && place_of(report.reopened_service, report.reopened_tei) == place, "the link that has room");
            wants(lapd_tells(&report), "room is nothing to tell");
        } else if (left < 0) {
            waits[line][place] = false;
            dropped++;
        }
    }
    wants(was_told || report.reopened == 0, "room is told where there is none");
    is_accounted(line);
}

/* A link keeps no more what was acknowledged: V(A) went on by as many. The rest is told as given up, and no more is. */
static void is_accounted(uint32_t line) {
    const int numbers[] = {report.given_up, report.given_up_16};
    int gone[] = {0, 0};
    for (unsigned i = 0; i < 4; i++) {
        struct lapd_room room = {0, QUEUE, 0, {0}};
        uint8_t service = i % 2 == 0 ? LAPD_CALL : LAPD_PACKET, tei = i < 2 ? 64 : 126;
        (void)!lapd_room(&card, line, service, tei, &room);
        unsigned place = place_of(service, tei);
        int now = QUEUE - (int)room.queue, left = kept[line][place].count - now;
        if (numbers[i % 2] != 0 && tei == report.given_up_tei)
            gone[i % 2] += left;
        else
            wants(left <= 0 || ((room.va - kept[line][place].va) & 127) == left, "contents are gone silently");
        kept[line][place].count = now;
        kept[line][place].va = room.va;
    }
    wants(numbers[0] == gone[0] && numbers[1] == gone[1], "so many are not given up");
    wants(numbers[0] + numbers[1] == 0 || lapd_tells(&report), "what is given up is nothing to tell");
    wants(numbers[0] + numbers[1] != 0 || report.given_up_tei == 255, "a TEI that gives nothing up");
    given_up += (unsigned)(gone[0] + gone[1]);
}

static void send(uint32_t line, uint8_t service, uint8_t tei) {
    uint32_t status = lapd_data(&card, line, service, tei, NULL, 0, &report);
    if (status == LAPD_REFUSED_QUEUE_FULL) {
        waits[line][place_of(service, tei)] = true;
        refused++;
    }
    if (status == LAPD_OK)
        is_told(line);
}

/* A frame of the link: SABME, DISC, UA, or RR, mostly with an N(R) that acknowledges something. */
static size_t frame_of(uint32_t line, uint8_t service, uint8_t tei, uint8_t *frame) {
    struct lapd_room room = {0, 0, 0, {0}};
    uint32_t what = chance(12);
    (void)!lapd_room(&card, line, service, tei, &room);
    frame[0] = (uint8_t)(4 * service + 2 * (what == 2));
    frame[1] = (uint8_t)(2 * tei + 1);
    frame[2] = what == 0 ? 0x7F : what == 1 ? 0x53 : what == 2 ? 0x73 : 0x01;
    frame[3] = (uint8_t)(2 * (room.va + chance(3)));
    return what < 3 ? 3 : 4;
}

static void hear(uint32_t line, uint8_t service, uint8_t tei) {
    uint8_t frame[4];
    size_t length = frame_of(line, service, tei, frame);
    wants(lapd_frame(&card, line, frame, length, &report) == LAPD_OK, "a frame is not served");
    is_told(line);
}

static void take(uint32_t line) {
    uint8_t frame[LAPD_MOST_FRAME];
    size_t length;
    memset(&report, 0xFF, sizeof report);
    if (lapd_next_frame(&card, line, frame, sizeof frame, &length, &report) == LAPD_OK)
        is_told(line);
}

static void manage(uint32_t line, uint8_t tei) {
    uint32_t status = chance(3) == 0 ? lapd_remove(&card, line, tei, &report) : lapd_assign(&card, line, tei, &report);
    if (status == LAPD_OK)
        is_told(line);
}

/* What happens at a card of either kind. */
static void asked(uint32_t line, uint8_t service, uint8_t tei, uint32_t what) {
    lapd_timer timer = {LAPD_T200, service, tei};
    if (what < 18) {
        send(line, service, tei);
    } else if (what < 19) {
        wants(lapd_expire(&card, line, &timer, &report) == LAPD_OK, "a timer is not served");
        is_told(line);
    } else if (chance(2)) {
        manage(line, tei);
    } else {
        uint8_t request = chance(3) ? LAPD_ESTABLISH : chance(4) ? LAPD_DEACTIVATE : LAPD_DOWN;
        if (lapd_request_with(&card, line, request, service, tei, NULL, 0, &report) == LAPD_OK)
            is_told(line);
    }
}

static void happens(void) {
    uint32_t line = chance(LINES), what = chance(48);
    uint8_t service = chance(2) ? LAPD_CALL : LAPD_PACKET, tei = (uint8_t)(chance(2) ? 64 : 126);
    if (what < 20) {
        asked(line, service, tei, what);
    } else if (what < 36) {
        hear(line, service, tei);
    } else if (what < 47) {
        take(line);
    } else {
        wants(lapd_frame_failed(&card, line, LAPD_FCS, &report) == LAPD_OK, "a fault is not served");
        is_told(line);
    }
}

/* At a card of octets: each octet, each pull, and exchanges of several octets tell alike. */
static hdlc_sender senders[LINES];

static void exchange(uint32_t line) {
    uint8_t in[16], out[16];
    size_t steps = 0;
    for (size_t i = 0; i < sizeof in; i++)
        in[i] = hdlc_octet(&senders[line]);
    while (steps < 2 * sizeof in && !failed) {
        memset(&report, 0xFF, sizeof report);
        wants(lapd_exchange(&card, line, in, sizeof in, out, sizeof out, &steps, &report) == LAPD_OK, "an exchange is not served");
        is_told(line);
    }
}

static void octets(uint32_t line) {
    uint8_t octet;
    for (unsigned i = 0; i < 16; i++) {
        wants(lapd_octet(&card, line, hdlc_octet(&senders[line]), &report) == LAPD_OK, "an octet is not served");
        is_told(line);
        memset(&report, 0xFF, sizeof report);
        wants(lapd_pull(&card, line, &octet, &report) == LAPD_OK, "a pull is not served");
        is_told(line);
    }
}

static void happens_in_octets(void) {
    uint32_t line = chance(LINES), what = chance(48);
    uint8_t service = chance(2) ? LAPD_CALL : LAPD_PACKET, tei = (uint8_t)(chance(2) ? 64 : 126), frame[4];
    if (what < 20) {
        asked(line, service, tei, what);
        return;
    }
    if (!hdlc_busy(&senders[line]))
        hdlc_load(&senders[line], frame, frame_of(line, service, tei, frame));
    if (what < 34)
        exchange(line);
    else
        octets(line);
}

static void plays(const char *kind, uint32_t started, void (*round)(void)) {
    wants(started == LAPD_OK, "there is no card");
    memset(waits, 0, sizeof waits);
    memset(kept, 0, sizeof kept);
    refused = told = dropped = given_up = 0;
    for (uint32_t line = 0; line < LINES; line++) {
        hdlc_begin(&senders[line]);
        wants(lapd_assign(&card, line, 64, &report) == LAPD_OK && lapd_assign(&card, line, 126, &report) == LAPD_OK, "no TEI");
    }
    for (unsigned i = 0; i < ROUNDS && !failed; i++)
        round();
    printf("reopened: %s: refused %u, told %u, dropped %u, given up %u\n", kind, refused, told, dropped, given_up);
    wants(failed || (refused > ROUNDS / 200 && told > ROUNDS / 400 && dropped > 20 && given_up > ROUNDS / 400), "little has happened");
    wants(lapd_card_free(&card) == LAPD_OK, "a card is not freed");
}

/* A link whose TEI leaves the line is not told, nor is that of a terminal which gets the TEI then. */
static void of_another_terminal(void) {
    wants(lapd_card_start_frames(&card, &config) == LAPD_OK && lapd_assign(&card, 0, 64, &report) == LAPD_OK, "no TEI to leave");
    const uint8_t sabme[] = {0x00, 0x81, 0x7F};
    wants(lapd_frame(&card, 0, sabme, sizeof sabme, &report) == LAPD_OK, "no link to leave");
    for (unsigned i = 0; i < 2; i++)
        wants(lapd_data(&card, 0, LAPD_CALL, 64, NULL, 0, &report) == LAPD_OK && report.reopened == 0, "no room for two");
    wants(lapd_data(&card, 0, LAPD_CALL, 64, NULL, 0, &report) == LAPD_REFUSED_QUEUE_FULL, "room for three");
    wants(lapd_remove(&card, 0, 64, &report) == LAPD_OK && report.reopened == 0, "a link that is gone is told");
    wants(lapd_assign(&card, 0, 64, &report) == LAPD_OK && report.reopened == 0, "another terminal's link is told");
    wants(lapd_frame(&card, 0, sabme, sizeof sabme, &report) == LAPD_OK && report.reopened == 0, "it is told later");
    wants(lapd_card_free(&card) == LAPD_OK, "a card is not freed");
}

int main(void) {
    plays("frames", lapd_card_start_frames(&card, &config), happens);
    plays("octets", lapd_card_start(&card, &config), happens_in_octets);
    of_another_terminal();
    return failed;
}
