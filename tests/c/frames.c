/*
 * frames.c: cards of frames, with bad input of every kind. Frames of each length, faults at any time, a room that is too
 * small, calls of the other kind and buffers that come back: each leads to what lapd.h says, and a wrong call changes
 * nothing. Then a card of frames and one of octets, to which random things happen alike, tell the same, send the same
 * frames in the same order, and count the same. For tests alone.
 */
#include <stdio.h>
#include <string.h>

#include "hdlc.h"
#include "lapd.h"

enum { LINES = 2, ROUNDS = 40000 };

static const lapd_config config = {.lines = LINES, .terminals = 8, .k = 7, .k16 = 7, .queue = 8, .unit_queue = 4, .control = 4, .slots = 8,
                                   .n201 = 260, .n200 = 3};
static const lapd_config narrow = {.lines = 1, .terminals = 1, .k = 1, .k16 = 1, .queue = 1, .unit_queue = 1, .control = 2, .slots = 1,
                                   .n201 = 8, .n200 = 0};
static const lapd_config primary = {.lines = 1, .terminals = 1, .k = 7, .k16 = 7, .queue = 8, .unit_queue = 4, .control = 4, .slots = 20,
                                    .n201 = 260, .n200 = 3};
static const uint8_t sabme[] = {0x00, 0x81, 0x7F}, ua[] = {0x00, 0x81, 0x73}, from_terminal[] = {0x02, 0x81, 0x73};
static int failed;

static void wants(bool is, const char *what) {
    if (!is) {
        failed = 1;
        fprintf(stderr, "frames: %s\n", what);
    }
}

/* A report, and octets, in which a call that writes is seen. */
static lapd_report report, painted;
static uint8_t out[LAPD_MOST_FRAME + 8], paint[LAPD_MOST_FRAME + 8];
static size_t length;

static void lay_paint(void) {
    memset(&report, 0xA5, sizeof report);
    memset(&painted, 0xA5, sizeof painted);
    memset(out, 0x5A, sizeof out);
    memset(paint, 0x5A, sizeof paint);
    length = 777;
}

/* The call answered this, and wrote nothing. */
static void refused(uint32_t status, uint32_t wanted, const char *what) {
    bool same = memcmp(&report, &painted, sizeof report) == 0 && memcmp(out, paint, sizeof out) == 0 && length == 777;
    wants(status == wanted, what);
    wants(same, "a call that is refused has written something");
    lay_paint();
}

static uint32_t next(lapd_card *card, uint32_t line) {
    return lapd_next_frame(card, line, out, LAPD_MOST_FRAME, &length, &report);
}

static bool is_next(lapd_card *card, const uint8_t *frame, size_t wanted) {
    lay_paint();
    return next(card, 0) == LAPD_OK && length == wanted && memcmp(out, frame, wanted) == 0 && report.begun == 1
           && memcmp(out + wanted, paint + wanted, sizeof out - wanted) == 0;
}

static bool is_dropped(lapd_card *card, const uint8_t *frame, size_t count, uint8_t cause) {
    return lapd_frame(card, 0, frame, count, &report) == LAPD_OK && report.cause == cause && report.note_count == 0
           && report.order_count == 0 && report.lost == 0 && report.begun == 0 && report.delivered == 0;
}

/* ---- The SAPI of the second service ------------------------------------------------------------------------------- */

/* SABME of the packet link of TEI 64 goes with the SAPI of the configuration, and one with SAPI 16 is dropped if that is another. */
static void by_sapi(uint16_t sapi, uint8_t first) {
    lapd_card card = LAPD_CARD_NONE;
    lapd_config abis = config;
    abis.sapi = sapi;
    const uint8_t sent[] = {first, 0x81, 0x7F}, of_16[] = {0x40, 0x81, 0x7F};
    wants(lapd_card_start_frames(&card, &abis) == LAPD_OK, "a SAPI");
    wants(lapd_request(&card, 0, LAPD_ASSIGN, LAPD_CALL, 64, NULL, 0, &report) == LAPD_OK, "a TEI");
    wants(lapd_request(&card, 0, LAPD_ESTABLISH, LAPD_PACKET, 64, NULL, 0, &report) == LAPD_OK, "a packet link");
    wants(is_next(&card, sent, sizeof sent), "SABME with the SAPI of the configuration");
    wants(lapd_frame(&card, 0, of_16, sizeof of_16, &report) == LAPD_OK, "a frame of SAPI 16");
    wants((report.cause == LAPD_SAPI) == (sapi == 62), "the cause of SAPI 16");
    wants(lapd_card_free(&card) == LAPD_OK, "the end");
}

static void the_second_service(void) {
    by_sapi(0, 0x42);
    by_sapi(16, 0x42);
    by_sapi(62, 0xFA);
}

/* ---- Wrong calls -------------------------------------------------------------------------------------------------- */

static void of_no_card(void) {
    lapd_card none = LAPD_CARD_NONE;
    lapd_config bad = config;
    lay_paint();
    refused(lapd_frame(&none, 0, sabme, 3, &report), LAPD_NO_CARD, "a frame of no card");
    refused(lapd_frame_failed(&none, 0, LAPD_FCS, &report), LAPD_NO_CARD, "a fault of no card");
    refused(next(&none, 0), LAPD_NO_CARD, "the next frame of no card");
    uint32_t line = 777;
    refused(lapd_next_waiting(&none, 0, &line), LAPD_NO_CARD, "a line that waits of no card");
    wants(line == 777, "a line of no card");
    bad.n201 = 7;
    wants(lapd_card_start_frames(&none, &bad) == LAPD_BAD_N201, "a bad field");
    bad.lines = 0;
    wants(lapd_card_start_frames(&none, &bad) == LAPD_BAD_LINES, "the first bad field");
    bad = config;
    bad.sapi = 63;
    wants(lapd_card_start_frames(&none, &bad) == LAPD_BAD_SAPI, "a SAPI of management");
    wants(lapd_card_free(&none) == LAPD_NO_CARD && !none.started && none.at == NULL, "a card after a bad start");
}

static void of_other_kind(lapd_card *frames, lapd_card *octets) {
    lapd_head head = {1, {2, 3, 4, 5}, {6}};
    size_t steps = 3;
    lay_paint();
    refused(lapd_octet(frames, 9, 0x7E, &report), LAPD_WRONG_CARD, "an octet at a card for frames");
    refused(lapd_pull(frames, 0, out, &report), LAPD_WRONG_CARD, "a pull of a card for frames");
    refused(lapd_exchange(frames, 0, sabme, 3, out, 3, &steps, &report), LAPD_WRONG_CARD, "an exchange at a card for frames");
    refused(lapd_begun(frames, 0, &head), LAPD_WRONG_CARD, "a frame begun by no pull");
    refused(lapd_heard(frames, 0, &head), LAPD_WRONG_CARD, "a frame heard in no octets");
    wants(steps == 3 && head.length == 1 && head.octets[3] == 5, "a call of the other kind has written something");
    refused(lapd_frame(octets, 9, sabme, 3, &report), LAPD_WRONG_CARD, "a frame at a card for octets");
    refused(lapd_frame_failed(octets, 9, 99, &report), LAPD_WRONG_CARD, "a fault at a card for octets");
    refused(next(octets, 9), LAPD_WRONG_CARD, "the next frame of a card for octets");
    uint32_t line = 777;
    refused(lapd_next_waiting(octets, 0, &line), LAPD_WRONG_CARD, "a line that waits of a card for octets");
    wants(line == 777, "a line of a card for octets");
    wants(lapd_card_start(frames, &config) == LAPD_SECOND_START, "a second start, for octets");
    wants(lapd_card_start_frames(octets, &config) == LAPD_SECOND_START, "a second start, for frames");
}

static void of_wrong_arguments(lapd_card *card) {
    static const uint8_t causes[] = {0, LAPD_EXTENSION, LAPD_SAPI, LAPD_TEI, LAPD_UNSERVED, 9, 255};
    lay_paint();
    refused(lapd_frame(card, LINES, sabme, 3, &report), LAPD_WRONG_LINE, "a frame of no line");
    refused(lapd_frame_failed(card, UINT32_MAX, 99, &report), LAPD_WRONG_LINE, "a fault of no line");
    refused(lapd_next_frame(card, LINES, out, 0, &length, &report), LAPD_WRONG_LINE, "the next frame of no line");
    for (size_t i = 0; i < sizeof causes; i++)
        refused(lapd_frame_failed(card, 0, causes[i], &report), LAPD_WRONG_CAUSE, "a fault of another cause");
    for (size_t room = 0; room < LAPD_MOST_FRAME; room++)
        refused(lapd_next_frame(card, 0, out, room, &length, &report), LAPD_WRONG_LENGTH, "too little room, with nothing to send");
    refused(next(card, 0), LAPD_NO_FRAME, "a frame that nobody sends");
}

/* ---- Frames of each length, and faults ---------------------------------------------------------------------------- */

static void of_each_length(lapd_card *card) {
    static uint8_t frame[65535];
    lapd_report told;
    wants(lapd_assign(card, 0, 64, &report) == LAPD_OK, "no TEI");
    wants(is_dropped(card, frame, 0, LAPD_SHORT), "a frame of nothing");
    memcpy(frame, sabme, sizeof sabme);
    wants(is_dropped(card, frame, 1, LAPD_SHORT) && is_dropped(card, frame, 2, LAPD_SHORT), "a frame of an address");
    wants(lapd_frame(card, 0, sabme, 3, &told) == LAPD_OK && told.note_count == 1 && told.order_count == 1, "no SABME");
    for (size_t room = 0; room < LAPD_MOST_FRAME; room += 3) {
        lay_paint();
        refused(lapd_next_frame(card, 0, out, room, &length, &report), LAPD_WRONG_LENGTH, "too little room");
    }
    wants(is_next(card, ua, 3), "no UA after too little room");
    memcpy(frame, "\x00\x81\x00\x00", 4);
    wants(is_dropped(card, frame, 3, LAPD_SHORT), "a control field of one octet");
    wants(lapd_frame(card, 0, frame, 264, &told) == LAPD_OK && told.delivered == 1 && told.length == 260, "the longest frame");
    memcpy(frame, "\x00\x81\x02\x00", 4);
    wants(lapd_frame(card, 0, frame, 265, &report) == LAPD_OK && report.delivered == 0 && report.note_count == 1
              && report.notes[0].error == 'O', "one octet more than the longest");
    wants(lapd_frame(card, 0, frame, sizeof frame, &report) == LAPD_OK && report.cause == LAPD_UNSERVED
              && report.delivered == 0, "a frame of 65,535 octets, as the link is established anew");
    wants(lapd_frame(card, 0, from_terminal, 3, &report) == LAPD_OK && report.note_count == 0, "the terminal's UA");
    wants(lapd_frame(card, 0, frame, sizeof frame, &report) == LAPD_OK && report.note_count == 1
              && report.notes[0].error == 'O', "a frame of 65,535 octets on a link that is up");
}

static void of_faults(lapd_card *card) {
    for (uint8_t cause = LAPD_ABORT; cause <= LAPD_FCS; cause++)
        for (uint32_t line = 0; line < LINES; line++) {
            lay_paint();
            wants(lapd_frame_failed(card, line, cause, &report) == LAPD_OK && report.cause == cause && report.note_count == 0
                      && report.order_count == 0 && report.lost == 0 && report.begun == 0 && report.delivered == 0
                      && report.length == 0, "a fault");
        }
}

/* A card of N201 8 needs room for 12 octets, and no more. */
static void of_narrow(void) {
    lapd_card card = LAPD_CARD_NONE;
    wants(lapd_card_start_frames(&card, &narrow) == LAPD_OK, "no narrow card");
    wants(lapd_assign(&card, 0, 64, &report) == LAPD_OK && lapd_frame(&card, 0, sabme, 3, &report) == LAPD_OK, "no narrow SABME");
    lay_paint();
    refused(lapd_next_frame(&card, 0, out, 11, &length, &report), LAPD_WRONG_LENGTH, "room for 11 octets");
    wants(lapd_next_frame(&card, 0, out, 12, &length, &report) == LAPD_OK && length == 3, "room for 12 octets");
    wants(lapd_card_free(&card) == LAPD_OK && lapd_card_free(&card) == LAPD_NO_CARD, "a card that is freed twice");
}

/* ---- Both kinds, to which the same happens ------------------------------------------------------------------------ */

static uint32_t chance(uint32_t below) {
    static uint64_t seed = 20261125;
    seed = seed * 6364136223846793005u + 1442695040888963407u;
    return (uint32_t)(seed >> 33) % below;
}

typedef struct {
    lapd_card frames, octets;
    lapd_head heard[LINES];
    unsigned told, sent, delivered;
} pair;

static bool is_same(const lapd_report *one, const lapd_report *two) {
    return one->note_count == two->note_count && one->order_count == two->order_count && one->cause == two->cause
           && one->lost == two->lost && one->begun == two->begun && one->delivered == two->delivered
           && one->length == two->length && one->reopened == two->reopened
           && one->given_up == two->given_up && one->given_up_16 == two->given_up_16
           && one->given_up_tei == two->given_up_tei
           && memcmp(one->notes, two->notes, one->note_count * sizeof *one->notes) == 0
           && memcmp(one->orders, two->orders, one->order_count * sizeof *one->orders) == 0
           && memcmp(one->contents, two->contents, one->length) == 0;
}

/* An octet comes; how many of its frame, or fault, have told something so far. */
static unsigned hear_octet(pair *both, uint32_t line, uint8_t octet, unsigned tells, lapd_report *told) {
    wants(lapd_octet(&both->octets, line, octet, &report) == LAPD_OK, "no octet is taken");
    if (!lapd_tells(&report))
        return tells;
    if (tells == 0)
        *told = report;
    return tells + 1;
}

/* How the latest frame of the line began: what came in its octets. */
static void is_latest(pair *both, uint32_t line) {
    lapd_head head = {1, {2, 3, 4, 5}, {6}};
    wants(lapd_heard(&both->octets, line, &head) == LAPD_OK && memcmp(&head, &both->heard[line], sizeof head) == 0,
          "another frame was heard last");
}

/* Whether these octets are long enough for a frame. */
static bool is_frame(const uint8_t *frame, size_t count) {
    return count > 3 || (count == 3 && frame[2] % 4 == 3);
}

static void was_heard(pair *both, uint32_t line, const uint8_t *frame, size_t count) {
    lapd_head *head = &both->heard[line];
    if (!is_frame(frame, count))
        return;
    memset(head, 0, sizeof *head);
    memcpy(head->octets, frame, count < 4 ? count : 4);
    head->length = (uint16_t)(count > config.n201 + 4u ? config.n201 + 5u : count);
}

/* Whether the latest octet has ended a frame: then it is this one, whole, or of one that is too long its first four octets. */
static bool has_ended(pair *both, uint32_t line, const uint8_t *frame, size_t count) {
    uint8_t whole[LAPD_MOST_FRAME];
    size_t length = 777, known = count > config.n201 + 4u ? 4 : count;
    uint32_t status = lapd_heard_frame(&both->octets, line, whole, sizeof whole, &length);
    wants(status == LAPD_OK ? length == known && memcmp(whole, frame, known) == 0 : status == LAPD_NO_FRAME && length == 777,
          "another frame was ended");
    return status == LAPD_OK;
}

/* The octets of a frame come on an idle line, and 1s after them: at most one octet has anything to tell, and one ends it. */
static void hear(pair *both, uint32_t line, const uint8_t *frame, size_t count, lapd_report *told) {
    static hdlc_sender sender;
    hdlc_begin(&sender);
    hdlc_load(&sender, frame, count);
    for (size_t ones = 14 - (hdlc_left(&sender) + 6) % 8; ones > 0; ones--)
        sender.bits[sender.to++] = 1;
    unsigned tells = 0, ends = 0;
    while (hdlc_busy(&sender)) {
        tells = hear_octet(both, line, hdlc_octet(&sender), tells, told);
        ends += has_ended(both, line, frame, count);
    }
    wants(tells <= 1, "two octets of a frame tell something");
    wants(ends == is_frame(frame, count), "not one octet has ended a frame");
    was_heard(both, line, frame, count);
    is_latest(both, line);
}

/* The octets that a fault means, by its cause: from a flag to the 1s of an idle line. One of them tells it. */
static void hear_fault(pair *both, uint32_t line, uint8_t cause, lapd_report *told) {
    static const struct {
        size_t count;
        uint8_t octets[9];
    } faults[] = {[LAPD_ABORT] = {3, {0x7E, 0x00, 0xFF}},
                  [LAPD_RAGGED] = {4, {0x7E, 0xE0, 0xF7, 0xFF}},
                  [LAPD_SHORT] = {4, {0x7E, 0x00, 0x7E, 0xFF}},
                  [LAPD_FCS] = {9, {0x7E, 0x00, 0x00, 0x00, 0x00, 0x00, 0x00, 0x7E, 0xFF}}};
    unsigned tells = 0;
    for (size_t i = 0; i < faults[cause].count; i++) {
        tells = hear_octet(both, line, faults[cause].octets[i], tells, told);
        wants(!has_ended(both, line, NULL, 0), "a fault has ended a frame");
    }
    wants(tells == 1, "not one octet of a fault tells it");
    is_latest(both, line);
}

/* A frame as a terminal may send it, or a little different, or anything. */
static size_t any_frame(uint8_t *frame) {
    static const uint8_t controls[] = {0x7F, 0x6F, 0x53, 0x43, 0x73, 0x63, 0x1F, 0x0F, 0x03, 0x13, 0xAF, 0x87, 0xFF, 0x01, 0x05, 0x09};
    size_t count = 3;
    frame[0] = (uint8_t)(chance(8) == 0 ? chance(256) : chance(6) == 0 ? 0xFC : chance(2) * 2 + chance(2) * 64);
    frame[1] = (uint8_t)(chance(16) == 0 ? chance(256) : 129 + 2 * chance(2));
    frame[2] = controls[chance(sizeof controls)];
    if (frame[2] % 4 == 1)
        frame[count++] = (uint8_t)(chance(8) * 2 + chance(2));
    if (chance(3) == 0) {
        frame[2] = (uint8_t)(chance(4) * 2);
        frame[3] = (uint8_t)(chance(4) * 2 + chance(2));
        count = 4;
    }
    if (frame[0] == 0xFC)
        memcpy(frame + 1, (const uint8_t[]){0xFF, 0x03, 0x0F, 0x12, (uint8_t)chance(256), 1, 0xFF}, count = 7), count = 8;
    else if (chance(2) == 0)
        for (size_t more = chance(12) == 0 ? 240 + chance(40) : chance(8); more > 0; more--)
            frame[count++] = (uint8_t)chance(256);
    return chance(12) == 0 ? chance((uint32_t)count) : count;
}

static uint32_t ask(lapd_card *card, uint32_t line, uint8_t what, uint8_t tei, size_t count, lapd_report *told) {
    static const uint8_t octets[8] = {0x01, 0x7E, 0xFF, 0xFF, 0xF8, 0x1F, 0x7D, 0x08};
    bool has_contents = what == LAPD_DATA || what == LAPD_UNIT;
    return lapd_request(card, line, what, what % 2 == 0 ? LAPD_CALL : LAPD_PACKET, tei, octets, has_contents ? count : 0, told);
}

/* Whether a frame waits on a line. From each line on, the first that is told is the first on which one waits. */
static bool is_waiting(lapd_card *card, uint32_t line) {
    uint32_t next = LINES;
    bool waits[LINES] = {false};
    for (uint32_t from = 2 * LINES; from-- > 0;) {
        uint32_t found = 777;
        bool is_told = lapd_next_waiting(card, from, &found) == LAPD_OK;
        if (from < LINES && is_told && found == from) {
            next = from;
            waits[from] = true;
        }
        wants(found == (next < LINES ? next : 777) && is_told == (next < LINES), "not the first line that waits");
    }
    return waits[line];
}

/* The next frame of the one; the other is pulled up to the octet that begins one. */
static void take_next(pair *both, uint32_t line) {
    static lapd_report pulled;
    lapd_head head;
    uint8_t octet, whole[LAPD_MOST_FRAME];
    size_t begun = 0;
    int pulls = 0;
    bool waits = is_waiting(&both->frames, line);
    uint32_t status = next(&both->frames, line);
    wants((status == LAPD_OK) == waits, "a line that waits gives no frame, or one that does not gives one");
    do
        wants(lapd_pull(&both->octets, line, &octet, &pulled) == LAPD_OK, "no octet is given");
    while (!pulled.begun && ++pulls < 400);
    wants((status == LAPD_OK) == pulled.begun, "a frame waits on one card alone");
    if (status != LAPD_OK)
        return;
    both->sent++;
    wants(lapd_begun(&both->octets, line, &head) == LAPD_OK, "no frame has begun");
    wants(is_same(&report, &pulled), "the next frame has other orders");
    wants(head.length == length && memcmp(head.octets, out, length < 4 ? length : 4) == 0, "another frame is next");
    wants(lapd_begun_frame(&both->octets, line, whole, length - 1, &begun) == LAPD_WRONG_LENGTH && begun == 0, "too little room");
    wants(lapd_begun_frame(&both->octets, line, whole, length, &begun) == LAPD_OK && begun == length
              && memcmp(whole, out, length) == 0, "another frame is next, whole");
    wants(report.more == is_waiting(&both->frames, line), "more is told that does not wait, or none where one does");
}

/* Something happens at both. */
static void happens(pair *both) {
    static uint8_t frame[512];
    static lapd_report one, two;
    uint32_t line = chance(LINES), what = chance(20), status = LAPD_OK, other = LAPD_OK;
    memset(&two, 0, sizeof two);
    two.given_up_tei = 255; /* octets that tell nothing give nothing up */
    if (what < 9) {
        size_t count = any_frame(frame);
        status = lapd_frame(&both->frames, line, frame, count, &one);
        hear(both, line, frame, count, &two);
    } else if (what < 11) {
        uint8_t tei = (uint8_t)(chance(8) == 0 ? chance(256) : 64 + chance(2)), asked = (uint8_t)(1 + chance(9));
        size_t count = chance(9);
        status = ask(&both->frames, line, asked, tei, count, &one);
        other = ask(&both->octets, line, asked, tei, count, &two);
    } else if (what < 14) {
        lapd_timer timer = {(uint8_t)(1 + chance(3)), (uint8_t)(16 * chance(2)), (uint8_t)(64 + chance(2))};
        status = lapd_expire(&both->frames, line, &timer, &one);
        other = lapd_expire(&both->octets, line, &timer, &two);
    } else if (what < 15) {
        uint8_t cause = (uint8_t)(LAPD_ABORT + chance(4));
        status = lapd_frame_failed(&both->frames, line, cause, &one);
        hear_fault(both, line, cause, &two);
    } else {
        take_next(both, line);
        return;
    }
    wants(status == other, "another status");
    if (status != LAPD_OK)
        return;
    both->told += lapd_tells(&one);
    both->delivered += one.delivered;
    wants(is_same(&one, &two), "another report");
}

static bool knows_the_same(pair *both) {
    uint8_t states[2];
    uint32_t stored[2], limits[2], lines[2];
    struct lapd_room rooms[2];
    struct lapd_link_counters of_link[2];
    struct lapd_counters counters[2];
    lapd_card *cards[] = {&both->frames, &both->octets};
    bool same = true;
    for (uint8_t link = 0; link < 4; link++) {
        uint32_t answers[2];
        memset(rooms, 0, sizeof rooms);
        memset(of_link, 0, sizeof of_link);
        for (int i = 0; i < 2; i++) {
            same = lapd_state(cards[i], link % 2, LAPD_CALL, (uint8_t)(64 + link / 2), &states[i]) == LAPD_OK && same;
            answers[i] = lapd_room(cards[i], link % 2, LAPD_CALL, (uint8_t)(64 + link / 2), &rooms[i]);
            same = lapd_link_counters(cards[i], link % 2, LAPD_CALL, (uint8_t)(64 + link / 2), &of_link[i]) == answers[i] && same;
        }
        same = same && memcmp(&of_link[0], &of_link[1], sizeof of_link[0]) == 0;
        same = same && states[0] == states[1] && answers[0] == answers[1] && memcmp(&rooms[0], &rooms[1], sizeof rooms[0]) == 0;
    }
    for (uint32_t line = 0; line < LINES; line++) {
        for (int i = 0; i < 2; i++)
            same = lapd_counters(cards[i], line, &counters[i]) == LAPD_OK && same;
        same = same && memcmp(&counters[0], &counters[1], sizeof counters[0]) == 0;
    }
    for (int i = 0; i < 2; i++) {
        same = lapd_stored(cards[i], &stored[i]) == LAPD_OK && same;
        same = lapd_limit(cards[i], &limits[i]) == LAPD_OK && same;
        same = lapd_lines(cards[i], &lines[i]) == LAPD_OK && same;
    }
    return same && stored[0] <= stored[1] && limits[0] == limits[1] && lines[0] == lines[1];
}

static void both_kinds(void) {
    static pair both;
    wants(lapd_card_start_frames(&both.frames, &config) == LAPD_OK && lapd_card_start(&both.octets, &config) == LAPD_OK, "no pair");
    for (int round = 0; round < ROUNDS && !failed; round++) {
        happens(&both);
        if (round % 16 == 0)
            wants(knows_the_same(&both), "the two cards differ");
    }
    wants(both.told > ROUNDS / 20 && both.sent > ROUNDS / 40 && both.delivered > ROUNDS / 400, "little has happened");
    wants(lapd_card_free(&both.frames) == LAPD_OK && lapd_card_free(&both.octets) == LAPD_OK, "a pair stays");
}

/* A buffer goes round: what was given comes back from where it was written. */
static void of_buffers(lapd_card *card) {
    for (int round = 0; round < 100; round++) {
        lay_paint();
        if (next(card, 0) == LAPD_OK)
            wants(lapd_frame(card, 0, out, length, &report) == LAPD_OK, "a frame that comes back");
    }
}

/* A first try, without a terminal. */
static void first_try(void) {
    lapd_card card = LAPD_CARD_NONE;
    uint8_t frame[LAPD_MOST_FRAME + 1] = {0};
    lay_paint();
    wants(lapd_card_start_frames(&card, &config) == LAPD_OK, "no card for a first try");
    static const uint8_t sabme[] = {0x00, 0x81, 0x7F};                                /* of TEI 64 */
    uint32_t status = lapd_assign(&card, 0, 64, &report);
    if (status == LAPD_OK)
        status = lapd_frame(&card, 0, sabme, sizeof sabme, &report);                  /* tells that the link is up */
    if (status == LAPD_OK)
        status = lapd_next_frame(&card, 0, frame, sizeof frame, &length, &report);    /* UA: 00 81 73 */
    wants(status == LAPD_OK && length == 3 && memcmp(frame, ua, 3) == 0, "a first try is not answered");
    wants(lapd_card_free(&card) == LAPD_OK, "the card of a first try stays");
}

/* A trunk's other end, as docs/EMBEDDING.md has it. */
static void first_trunk(void) {
    lapd_card card = LAPD_CARD_NONE;
    uint8_t frame[LAPD_MOST_FRAME + 1] = {0};
    lay_paint();
    static const lapd_lengths lengths = {.t200 = 1000, .t203 = 10000, .t201 = 1000, .t202 = 2000};
    lapd_config trunk = primary;
    trunk.side = LAPD_USER;
    static const uint8_t ua_of_network[] = {0x00, 0x01, 0x73};
    uint32_t status = lapd_card_start_frames_timed(&card, &trunk, &lengths);
    if (status == LAPD_OK)
        status = lapd_assign(&card, 0, 0, &report);                        /* TEI 0 is on the line, and stays there */
    if (status == LAPD_OK)
        status = lapd_establish(&card, 0, LAPD_CALL, 0, &report);
    if (status == LAPD_OK)
        status = lapd_next_frame(&card, 0, frame, sizeof frame, &length, &report);       /* SABME, user's: 00 01 7F */
    if (status == LAPD_OK)
        status = lapd_frame(&card, 0, ua_of_network, sizeof ua_of_network, &report);     /* tells that the link is up */
    wants(status == LAPD_OK && length == 3 && memcmp(frame, "\x00\x01\x7F", 3) == 0, "a trunk is not established");
    wants(report.note_count == 1 && report.notes[0].note == LAPD_ESTABLISH_CONFIRM, "a trunk is not up");
    wants(lapd_card_free(&card) == LAPD_OK, "the card of a trunk stays");
}

int main(void) {
    lapd_card frames = LAPD_CARD_NONE, octets = LAPD_CARD_NONE;
    of_no_card();
    the_second_service();
    of_narrow();
    first_try();
    first_trunk();
    wants(lapd_card_start_frames(&frames, &config) == LAPD_OK && lapd_card_start(&octets, &config) == LAPD_OK, "no cards");
    of_other_kind(&frames, &octets);
    of_wrong_arguments(&frames);
    of_faults(&frames);
    of_each_length(&frames);
    of_faults(&frames);
    of_buffers(&frames);
    wants(lapd_card_free(&frames) == LAPD_OK && lapd_card_free(&octets) == LAPD_OK, "the cards stay");
    both_kinds();
    return failed;
}
