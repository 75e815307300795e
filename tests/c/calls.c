/*
 * calls.c: calls that no script makes. The links of a line, as lapd_next_link tells them, are those that lapd_state has
 * a state of, in order, from each place on; contents of a report go back with the same report, and with another one while the
 * first stays as it is; the room of a link is what it refuses contents by; the frame begun last is the one that goes; what
 * is counted is what came, went and was told; a line goes down, and an exchange starts, as docs/EMBEDDING.md has it; lengths
 * of timers that are out of range change nothing; the usual configurations have the fields that they should; a note tells the
 * SAPI of a packet link, in room enough; and the version is the header's. For tests alone.
 */
#include <stdio.h>
#include <string.h>

#include "hdlc.h"
#include "lapd.h"

enum { PLACES = 254, LINES = 2 };

static const lapd_config config = {.lines = LINES, .terminals = 8, .k = 7, .k16 = 7, .queue = 8, .unit_queue = 4, .control = 4, .slots = 8,
                                   .n201 = 260, .n200 = 3};
static const lapd_lengths lengths_of = {.t200 = 1000, .t203 = 10000, .t201 = 1000, .t202 = 2000};
static lapd_card card;
static lapd_report report;
static int failed;

static void wants(bool is, const char *what) {
    if (!is) {
        failed = 1;
        fprintf(stderr, "calls: %s\n", what);
    }
}

/* The first place of a link from a place on, as lapd_state has it; PLACES where there is none. */
static unsigned first_from(uint32_t line, unsigned place, lapd_link *link) {
    for (; place < PLACES; place++) {
        link->service = place % 2 == 0 ? LAPD_CALL : LAPD_PACKET;
        link->tei = (uint8_t)(place / 2);
        wants(lapd_state(&card, line, link->service, link->tei, &link->state) == LAPD_OK, "lapd_state is not served");
        if (link->state != 0)
            break;
    }
    return place;
}

/* From each place on, also from those that are none. */
static void look_at(uint32_t line, unsigned links) {
    for (unsigned from = 0; from < 256; from++) {
        lapd_link link = {1, 2, 3, {4}}, wanted = {0, 0, 0, {0}};
        uint8_t place = (uint8_t)from;
        uint32_t status = lapd_next_link(&card, line, &place, &link);
        unsigned at = first_from(line, from, &wanted);
        if (at >= PLACES)
            wants(status == LAPD_NO_MORE_LINKS && place == from && link.service == 1 && link.tei == 2 && link.state == 3,
                  "no more links, and something has changed");
        else
            wants(status == LAPD_OK && place == at + 1 && memcmp(&link, &wanted, sizeof link) == 0, "another link");
    }
    uint8_t place = 0;
    unsigned count = 0;
    for (lapd_link link; lapd_next_link(&card, line, &place, &link) == LAPD_OK;)
        count++;
    wants(count == links, "another number of links");
}

/* The usual configurations and lengths, field by field. */
static void presets(void) {
    static const lapd_config basic = LAPD_BASIC_ACCESS, primary = LAPD_PRIMARY_RATE;
    static const lapd_config bus = {.lines = 1, .terminals = 8, .k = 1, .k16 = 3, .queue = 8, .unit_queue = 4, .control = 4,
                                    .slots = 132, .n201 = 260, .n200 = 3, .side = LAPD_NETWORK, .seed = 0, .sapi = 0,
                                    .reading = LAPD_ANNEX_B};
    static const lapd_config trunk = {.lines = 1, .terminals = 1, .k = 7, .k16 = 7, .queue = 8, .unit_queue = 4, .control = 4,
                                      .slots = 20, .n201 = 260, .n200 = 3, .side = LAPD_NETWORK, .seed = 0, .sapi = 0,
                                      .reading = LAPD_ANNEX_B};
    static const lapd_lengths lengths = LAPD_DEFAULT_LENGTHS;
    wants(memcmp(&basic, &bus, sizeof bus) == 0 && memcmp(&primary, &trunk, sizeof trunk) == 0, "another usual configuration");
    wants(memcmp(&lengths, &lengths_of, sizeof lengths_of) == 0, "other usual lengths");
}

static void wrong_calls(void) {
    lapd_card none = LAPD_CARD_NONE;
    lapd_link link = {1, 2, 3, {4}};
    uint8_t place = 7;
    wants(lapd_next_link(&none, 0, &place, &link) == LAPD_NO_CARD, "a link of no card");
    wants(lapd_next_link(&card, LINES, &place, &link) == LAPD_WRONG_LINE, "a link of no line");
    lapd_head head = {1, {2, 3, 4, 5}, {6}};
    wants(lapd_begun(&none, 0, &head) == LAPD_NO_CARD, "a frame of no card");
    wants(lapd_begun(&card, LINES, &head) == LAPD_WRONG_LINE, "a frame of no line");
    wants(lapd_heard(&none, 0, &head) == LAPD_NO_CARD, "a frame that no card heard");
    wants(lapd_heard(&card, LINES, &head) == LAPD_WRONG_LINE, "a frame that no line heard");
    uint8_t out[LAPD_MOST_FRAME] = {9};
    size_t length = 7;
    wants(lapd_begun_frame(&none, 0, out, sizeof out, &length) == LAPD_NO_CARD, "a whole frame of no card");
    wants(lapd_begun_frame(&card, LINES, out, sizeof out, &length) == LAPD_WRONG_LINE, "a whole frame of no line");
    wants(lapd_begun_frame(&card, 1, out, sizeof out, &length) == LAPD_NO_FRAME, "a whole frame before the first");
    wants(lapd_heard_frame(&none, 0, out, sizeof out, &length) == LAPD_NO_CARD, "a whole frame that no card heard");
    wants(lapd_heard_frame(&card, LINES, out, sizeof out, &length) == LAPD_WRONG_LINE, "a whole frame that no line heard");
    wants(lapd_heard_frame(&card, 1, out, sizeof out, &length) == LAPD_NO_FRAME, "a whole frame heard before the first");
    wants(lapd_heard_frame(&card, 1, out, 0, &length) == LAPD_NO_FRAME, "no room for no frame");
    wants(length == 7 && out[0] == 9, "a wrong call has written a frame");
    wants(head.length == 1 && memcmp(head.octets, "\x02\x03\x04\x05", 4) == 0, "a wrong call has told a frame");
    wants(lapd_begun(&card, 1, &head) == LAPD_OK && head.length == 0, "a frame before the first");
    head.length = 1;
    wants(lapd_heard(&card, 1, &head) == LAPD_OK && head.length == 0, "a frame heard before the first");
    wants(place == 7 && link.service == 1 && link.tei == 2 && link.state == 3, "a wrong call has changed something");
}

/* How many I-frames have begun on line 0, by how each frame begins. */
static unsigned i_frames;

/* The next octet of line 0. */
static void pull(uint8_t *octet) {
    lapd_head head;
    wants(lapd_pull(&card, 0, octet, &report) == LAPD_OK, "no octet is given");
    if (report.begun && lapd_begun(&card, 0, &head) == LAPD_OK && head.octets[2] % 2 == 0)
        i_frames++;
}

/* A frame that comes on line 0, and as many octets as go out meanwhile. */
static void hear(hdlc_sender *sender, const uint8_t *frame, size_t length, lapd_report *told) {
    hdlc_load(sender, frame, length);
    for (size_t left = hdlc_left(sender), i = 0; i < left; i += 8) {
        uint8_t octet = hdlc_octet(sender);
        wants(lapd_octet(&card, 0, octet, &report) == LAPD_OK, "no octet is taken");
        if (report.delivered)
            *told = report;
        pull(&octet);
    }
}

/* The octets of the next command that line 0 sends; flags and responses go by. */
static void send(uint8_t *octets, size_t length) {
    do
        pull(octets);
    while (!report.begun || octets[0] != 0x02);
    for (size_t i = 1; i < length; i++)
        pull(&octets[i]);
}

/* The frame that a pull of line 0 began last has these octets, and so many. */
static bool has_begun(const uint8_t *octets, size_t length) {
    lapd_head head = {1, {2, 3, 4, 5}, {6}};
    uint8_t out[LAPD_MOST_FRAME];
    size_t count = 0;
    return lapd_begun(&card, 0, &head) == LAPD_OK && head.length == length && memcmp(head.octets, octets, 4) == 0
           && lapd_begun_frame(&card, 0, out, sizeof out, &count) == LAPD_OK && count == length && memcmp(out, octets, length) == 0;
}

/* The latest octet of line 0 has ended a frame of these octets: they are written if there is room, and nothing after them. The
 * next octet ends nothing. */
static void has_ended(const uint8_t *octets, size_t length) {
    uint8_t out[LAPD_MOST_FRAME] = {0};
    size_t count = 777;
    wants(lapd_heard_frame(&card, 0, out, length - 1, &count) == LAPD_WRONG_LENGTH && count == 777 && out[0] == 0, "a frame in too little room");
    memset(out, 0xAB, sizeof out);
    wants(lapd_heard_frame(&card, 0, out, length, &count) == LAPD_OK && count == length && memcmp(out, octets, length) == 0
              && out[length] == 0xAB, "another frame was ended");
    wants(lapd_octet(&card, 0, 0xFF, &report) == LAPD_OK, "no 1s are taken");
    wants(lapd_heard_frame(&card, 0, out, sizeof out, &count) == LAPD_NO_FRAME && count == length && out[length] == 0xAB, "a frame that has gone");
}

/* Information that came goes back from where it stands in the report, acknowledged and not, whole and a part of it. */
static void echo(void) {
    static const uint8_t sabme[] = {0x00, 0x81, 0x7F}, data[] = {0x00, 0x81, 0x00, 0x00, 0x11, 0x22, 0x33, 0x44};
    static hdlc_sender sender;
    lapd_report told = report;
    lapd_head head = {1, {2, 3, 4, 5}, {6}};
    uint8_t octets[32], whole[] = {0x02, 0x81, 0x00, 0x02, 0x11, 0x22, 0x33, 0x44};
    hdlc_begin(&sender);
    hear(&sender, sabme, sizeof sabme, &told);
    for (int i = 0; i < 64; i++)
        pull(octets);
    hear(&sender, data, sizeof data, &told);
    wants(told.delivered && told.length == 4, "nothing was delivered");
    wants(lapd_heard(&card, 0, &head) == LAPD_OK && head.length == sizeof data && memcmp(head.octets, data, 4) == 0, "another frame was heard");
    has_ended(data, sizeof data);
    wants(lapd_data(&card, 0, LAPD_CALL, 64, told.contents, told.length, &told) == LAPD_OK, "contents of a report");
    send(octets, sizeof octets);
    wants(memcmp(octets, whole, sizeof whole) == 0, "other contents went back");
    wants(has_begun(whole, sizeof whole), "another frame was begun than went back");
    wants(lapd_unit(&card, 0, LAPD_CALL, 64, told.contents + 1, 2, &told) == LAPD_OK, "a part of a report");
    send(octets, sizeof octets);
    wants(memcmp(octets, "\x02\x81\x03\x22\x33", 5) == 0, "another part went back");
    wants(has_begun(octets, 5), "another frame was begun than the part");
    size_t last = sizeof told.contents - 1;
    wants(lapd_data(&card, 0, LAPD_CALL, 64, told.contents + last, 1, &told) == LAPD_OK, "the last octet of a report");
    wants(lapd_data(&card, 0, LAPD_CALL, 64, NULL, 0, &told) == LAPD_OK, "no contents");
}

/* While one report is read, a request writes to another: the first stays, and what it has goes back without a copy. */
static void two_reports(void) {
    static const uint8_t sabme[] = {0x00, 0x81, 0x7F}, data[] = {0x00, 0x81, 0x00, 0x00, 0x11, 0x22, 0x33, 0x44};
    static const uint8_t wanted[] = {0x02, 0x81, 0x00, 0x02, 0x11, 0x22, 0x33, 0x44};
    lapd_card own = LAPD_CARD_NONE;
    lapd_report came, asked, copy;
    uint8_t out[LAPD_MOST_FRAME];
    size_t length = 0;
    wants(lapd_card_start_frames_timed(&own, &config, &lengths_of) == LAPD_OK && lapd_assign(&own, 0, 64, &asked) == LAPD_OK, "no card of frames");
    wants(lapd_frame(&own, 0, sabme, sizeof sabme, &came) == LAPD_OK && came.note_count == 1, "no link");
    wants(lapd_next_frame(&own, 0, out, sizeof out, &length, &asked) == LAPD_OK && length == 3, "no UA");
    memset(&came, 0, sizeof came);
    wants(lapd_frame(&own, 0, data, sizeof data, &came) == LAPD_OK && came.delivered, "nothing came");
    memcpy(&copy, &came, sizeof copy);
    wants(lapd_data(&own, 0, came.notes[0].service, came.notes[0].tei, came.contents, came.length, &asked) == LAPD_OK, "no answer");
    wants(asked.note_count == 0 && !asked.delivered && memcmp(&copy, &came, sizeof copy) == 0, "a request writes to two reports");
    wants(lapd_next_frame(&own, 0, out, sizeof out, &length, &asked) == LAPD_OK && length == sizeof wanted
              && memcmp(out, wanted, sizeof wanted) == 0, "other contents are sent");
    wants(memcmp(&copy, &came, sizeof copy) == 0, "a frame that goes writes to another report");
    wants(lapd_fall_due(&own, lengths_of.t200, &asked) == LAPD_OK && memcmp(&copy, &came, sizeof copy) == 0, "an expiry writes to another report");
    wants(lapd_card_free(&own) == LAPD_OK, "the card of two reports stays");
}

/* The room of TEI 64 on line 0 is this. */
static bool has_room(uint8_t queue, uint32_t pool, uint8_t va) {
    struct lapd_room room = {1, 2, 3, {4}};
    return lapd_room(&card, 0, LAPD_CALL, 64, &room) == LAPD_OK && room.queue == queue && room.pool == pool
           && room.va == va;
}

/* Contents take a place and a slot each, and are refused for what is used up; an acknowledgement gives both back. */
static void rooms(void) {
    static const uint8_t first_acknowledged[] = {0x02, 0x81, 0x01, 0x02};
    static hdlc_sender sender;
    lapd_report told;
    hdlc_begin(&sender);
    wants(has_room(5, 5, 0), "another room with three contents");
    hear(&sender, first_acknowledged, sizeof first_acknowledged, &told);
    wants(has_room(6, 6, 1), "another room with two contents");
    wants(lapd_unit(&card, 1, LAPD_CALL, LAPD_GROUP_TEI, first_acknowledged, 1, &report) == LAPD_OK, "no unit data");
    for (uint8_t left = 5; left > 0; left--) {
        wants(has_room(left + 1, left, 1), "another room on the way");
        wants(lapd_data(&card, 0, LAPD_CALL, 64, NULL, 0, &report) == LAPD_OK, "refused with room left");
    }
    wants(has_room(1, 0, 1), "another room with a full pool");
    wants(lapd_data(&card, 0, LAPD_CALL, 64, NULL, 0, &report) == LAPD_REFUSED_POOL_FULL, "not refused for the pool");
    for (uint8_t i = 0, octet; i < 16; i++)
        wants(lapd_pull(&card, 1, &octet, &report) == LAPD_OK, "no octet of another line");
    wants(has_room(1, 1, 1), "another room after unit data");
    wants(lapd_data(&card, 0, LAPD_CALL, 64, NULL, 0, &report) == LAPD_OK, "the last place is refused");
    wants(has_room(0, 0, 1), "another room with nothing left");
    wants(lapd_data(&card, 0, LAPD_CALL, 64, NULL, 0, &report) == LAPD_REFUSED_QUEUE_FULL, "not refused for the queue");
}

static void rooms_of_nobody(void) {
    lapd_card none = LAPD_CARD_NONE;
    struct lapd_room room = {1, 2, 3, {4}};
    wants(lapd_room(&none, 0, LAPD_CALL, 64, &room) == LAPD_NO_CARD, "room of no card");
    wants(lapd_room(&card, LINES, LAPD_CALL, 64, &room) == LAPD_WRONG_LINE, "room of no line");
    wants(lapd_room(&card, 0, 1, 64, &room) == LAPD_WRONG_SERVICE, "room of no service");
    wants(lapd_room(&card, 0, LAPD_CALL, 127, &room) == LAPD_WRONG_TEI, "room of the group");
    wants(lapd_room(&card, 0, LAPD_CALL, 64, &room) == LAPD_REFUSED_NO_LINK, "room of no link");
    wants(room.pool == 1 && room.queue == 2 && room.va == 3, "a wrong call has told a room");
}

/* A clock takes lengths in range, for timers that are started later, and no others. */
static void lengths(void) {
    lapd_clock clock = LAPD_CLOCK_NONE;
    const lapd_order start = {LAPD_START, {LAPD_T200, LAPD_CALL, 64}};
    uint64_t moment = 0;
    wants(lapd_clock_set_lengths(&clock, 1, 1, 1, 1) == LAPD_NO_CLOCK, "lengths of no clock");
    wants(lapd_clock_start(&clock, &config) == LAPD_OK, "no clock");
    wants(lapd_clock_set_lengths(&clock, 3600000, 3600000, 3600000, 3600000) == LAPD_OK, "an hour is refused");
    wants(lapd_clock_set_lengths(&clock, 1, 2, 3, 4) == LAPD_OK, "a millisecond is refused");
    wants(lapd_clock_set_lengths(&clock, 0, 5, 5, 5) == LAPD_WRONG_TIME, "T200 of nothing");
    wants(lapd_clock_set_lengths(&clock, 5, 3600001, 5, 5) == LAPD_WRONG_TIME, "T203 of more than an hour");
    wants(lapd_clock_set_lengths(&clock, 5, 5, UINT32_MAX, 5) == LAPD_WRONG_TIME, "T201 of more than an hour");
    wants(lapd_clock_set_lengths(&clock, 5, 5, 5, 3600001) == LAPD_WRONG_TIME, "T202 of more than an hour");
    wants(lapd_clock_set_lengths(&clock, 5, 5, 5, 0) == LAPD_WRONG_TIME, "T202 of nothing");
    wants(lapd_clock_apply(&clock, 0, &start, 100) == LAPD_OK, "no T200");
    wants(lapd_clock_next(&clock, &moment) == LAPD_OK && moment == 101, "a wrong call has changed the lengths");
    wants(lapd_clock_free(&clock) == LAPD_OK, "a clock stays");
}

/* Of line 0 the counter is this. */
static bool has_counted(unsigned place, uint64_t value) {
    struct lapd_counters counters;
    return lapd_counters(&card, 0, &counters) == LAPD_OK && counters.values[place] == value;
}

/* After an echo of one I-frame, and an acknowledgement. */
static void counts(void) {
    struct lapd_counters counters = {{7}, {8}};
    lapd_card none = LAPD_CARD_NONE;
    wants(lapd_counters(&none, 0, &counters) == LAPD_NO_CARD, "counters of no card");
    wants(lapd_counters(&card, LINES, &counters) == LAPD_WRONG_LINE, "counters of no line");
    wants(counters.values[0] == 7, "a wrong call has told counters");
    wants(has_counted(LAPD_HEARD_SABME, 1) && has_counted(LAPD_BEGUN_UA, 1), "another number of establishments");
    wants(has_counted(LAPD_HEARD_I, 1) && i_frames > 0 && has_counted(LAPD_BEGUN_I, i_frames), "another number of I-frames");
    wants(has_counted(LAPD_HEARD_RR, 1) && has_counted(LAPD_HEARD_POLLS, 0), "another number of RR");
    wants(has_counted(LAPD_BEGUN_UI, 1) && has_counted(LAPD_HEARD_OCTETS, 3 + 8 + 4), "another number of octets");
    wants(has_counted(LAPD_TOLD_ESTABLISH_INDICATION, 1) && has_counted(LAPD_TOLD_DATA, 1), "other notes");
    wants(has_counted(LAPD_LOST, 0) && has_counted(LAPD_DROPPED_FCS, 0), "something was lost or dropped");
    wants(lapd_counters(&card, 1, &counters) == LAPD_OK && counters.values[LAPD_HEARD_SABME] == 0, "another line counts");
}

static lapd_clock timers;
static unsigned released, ended;

static uint64_t now(void) { return 0; }

/* Each link that was up tells its release; the line itself, if a check ran, that its timer stops. */
static void layer_3(const lapd_report *of) {
    if (of->line != 0 || !lapd_tells(of))
        return;
    if (of->note_count == 0) {
        wants(of->order_count == 1 && of->orders[0].order == LAPD_STOP && of->orders[0].timer.timer == LAPD_T201, "a line that is down orders something else");
        ended++;
        return;
    }
    wants(of->note_count == 1 && of->notes[0].note == LAPD_RELEASE_INDICATION, "a link that is given up tells something else");
    released++;
}

static uint32_t told(uint32_t status) {
    if (status == LAPD_OK)
        status = lapd_clock_apply_report(&timers, report.line, &report, now());
    if (status == LAPD_OK)
        layer_3(&report);
    return status;
}

static int fail(const char *text) {
    wants(false, text);
    return 1;
}

/* As docs/EMBEDDING.md has it. */
static int is_down(uint32_t line) {
    uint8_t place = 0;
    uint32_t status = LAPD_OK;
    while (status == LAPD_OK)
        status = told(lapd_line_down(&card, line, &place, &report));
    if (status != LAPD_NO_MORE_LINKS)
        return fail(lapd_status_text(status));
    return 0;
}

static void goes_down(uint32_t line) { wants(is_down(line) == 0, "a line does not go down"); }

/* How many links of the line are up. */
static unsigned count_up(uint32_t line) {
    uint8_t place = 0;
    unsigned count = 0;
    for (lapd_link link; lapd_next_link(&card, line, &place, &link) == LAPD_OK;)
        count += link.state != 4;
    return count;
}

/* What waits on the line and is of no link is given up, too: no frame goes after it, and a check that ran has ended. */
static void nothing_waits(void) {
    uint64_t moment = 0;
    uint8_t octet = 8;
    unsigned begun = 0;
    wants(lapd_unit(&card, 0, LAPD_CALL, LAPD_GROUP_TEI, &octet, 1, &report) == LAPD_OK, "no unit data");
    wants(lapd_check(&card, 0, 64, &report) == LAPD_OK, "no check");
    wants(lapd_clock_apply_report(&timers, 0, &report, now()) == LAPD_OK, "no place for T201");
    wants(lapd_clock_next(&timers, &moment) == LAPD_OK && moment == 1000, "no T201");
    goes_down(0);
    wants(ended == 1 && lapd_clock_next(&timers, &moment) == LAPD_NO_TIMER, "a check runs on a line that is down");
    for (unsigned i = 0; i < 400; i++, begun += report.begun)
        wants(lapd_pull(&card, 0, &octet, &report) == LAPD_OK, "no octet");
    wants(begun == 0, "a frame waits on a line that is down");
    wants(lapd_check(&card, 0, 64, &report) == LAPD_OK, "no check after that");
    goes_down(0);
    wants(ended == 2, "the second check does not end");
}

/* A line that goes down: each link that was up tells its release, and none is up after it. */
static void line_down(unsigned links) {
    unsigned up = count_up(0);
    wants(up > 0, "no link is up");
    wants(lapd_clock_start(&timers, &config) == LAPD_OK, "no clock");
    goes_down(0);
    wants(released == up && count_up(0) == 0, "a link is up on a line that is down");
    goes_down(0);
    wants(released == up && ended == 0, "a link is given up twice");
    nothing_waits();
    wants(released == up, "a link is up by what waits");
    uint8_t place = 0;
    unsigned calls = 0;
    while (lapd_line_down(&card, 0, &place, &report) == LAPD_OK)
        calls++;
    wants(calls == links + 1, "another number of calls than of links, and one for the line");
    wants(place == 0xFF, "the line goes down twice");
    wants(lapd_line_down(&card, 0, &place, &report) == LAPD_NO_MORE_LINKS, "a link after the last");
    wants(lapd_line_down(&card, LINES, &place, &report) == LAPD_WRONG_LINE, "no line goes down");
    wants(lapd_clock_free(&timers) == LAPD_OK, "a clock stays");
}

/* The next frame of a line is the network's identity remove of this TEI. */
static void removes(uint32_t line, uint8_t tei) {
    const uint8_t wanted[] = {0xFE, 0xFF, 0x03, 0x0F, 0x00, 0x00, 0x06, (uint8_t)(2 * tei + 1)};
    uint8_t frame[LAPD_MOST_FRAME];
    size_t length = 0;
    wants(lapd_next_frame(&card, line, frame, sizeof frame, &length, &report) == LAPD_OK && length == sizeof wanted
              && memcmp(frame, wanted, sizeof wanted) == 0, "no identity remove");
}

/* As docs/EMBEDDING.md has it. */
static uint32_t disowns_all(const lapd_config basic) {
    uint32_t status = LAPD_OK;
    for (uint32_t line = 0; line < basic.lines; line++)
        for (int times = 0; status == LAPD_OK && times < 2; times++)
            status = told(lapd_disown(&card, line, LAPD_GROUP_TEI, &report));
    return status;
}

static void disowns(const uint8_t *frame) {
    if (report.cause == LAPD_TEI && frame[0] >> 2 != 63 && frame[1] >> 1 != LAPD_GROUP_TEI)
        (void)!told(lapd_disown(&card, report.line, frame[1] >> 1, &report));
}

/* A frame that is dropped, since its TEI is on no line; whether that is disowned. */
static void is_dropped(uint8_t first, uint8_t second, bool is_disowned) {
    const uint8_t frame[] = {first, second, 0x7F};
    wants(lapd_frame(&card, 0, frame, sizeof frame, &report) == LAPD_OK && report.cause == LAPD_TEI, "an unknown TEI is known");
    disowns(frame);
    if (is_disowned)
        removes(0, second >> 1);
}

/* An exchange starts: all TEIs are disowned, twice; and then those of frames that are dropped, and no others. */
static void exchange_starts(void) {
    wants(lapd_card_start_frames(&card, &config) == LAPD_OK && lapd_clock_start(&timers, &config) == LAPD_OK, "no card of frames");
    wants(disowns_all(config) == LAPD_OK, "not all are disowned");
    for (uint32_t line = 0; line < 2 * LINES; line++)
        removes(line / 2, LAPD_GROUP_TEI);
    wants(lapd_assign(&card, 0, 64, &report) == LAPD_OK, "no TEI");
    wants(disowns_all(config) == LAPD_REFUSED_TEI_TAKEN, "all are disowned while one is on the line");
    wants(lapd_disown(&card, 0, 64, &report) == LAPD_REFUSED_TEI_TAKEN, "a TEI of the line is disowned");
    is_dropped(0x00, 0x83, true);
    is_dropped(0x00, 0xFF, false);
    is_dropped(0xFC, 0x83, false);
    wants(lapd_next_waiting(&card, 0, &(uint32_t){0}) == LAPD_NO_FRAME, "a frame waits");
    wants(lapd_card_free(&card) == LAPD_OK && lapd_clock_free(&timers) == LAPD_OK, "the card of frames stays");
}

/* Each note has its name, and of a packet link its SAPI; with an octet of room too little nothing is written. */
static void notes_with_sapi(void) {
    char wanted[40], text[40], was[40];
    memset(was, '#', sizeof was);
    for (unsigned kind = 0; kind <= LAPD_REMOVE_ALL + 1; kind++) {
        for (uint16_t sapi = 0; sapi <= 62; sapi++) {
            lapd_config of = config;
            lapd_note call = {(uint8_t)kind, LAPD_CALL, 64, 0, {0}}, packet = {(uint8_t)kind, LAPD_PACKET, 64, 0, {0}};
            bool is_of_link = strcmp(lapd_note_text(&call), lapd_note_text(&packet)) != 0;
            of.sapi = sapi;
            snprintf(wanted, sizeof wanted, is_of_link ? "%s sapi %u" : "%s", lapd_note_text(&call), sapi == 0 ? 16u : sapi);
            size_t octets = strlen(wanted) + 1;
            memcpy(text, was, sizeof text);
            wants(lapd_note_text_of(&packet, &of, text, octets - 1) == LAPD_WRONG_LENGTH && memcmp(text, was, sizeof text) == 0,
                  "a note has too little room");
            wants(lapd_note_text_of(&packet, &of, text, octets) == LAPD_OK && strcmp(text, wanted) == 0 && octets <= 29
                      && memcmp(text + octets, was, sizeof text - octets) == 0, "another text of a note");
            wants(lapd_note_text_of(&call, &of, text, sizeof text) == LAPD_OK && strcmp(text, lapd_note_text(&call)) == 0,
                  "another text of a note of call control");
        }
    }
}

int main(void) {
    static const uint8_t teis[] = {0, 1, 63, 64, 65, 100, 125, 126};
    wants(lapd_version() == LAPD_VERSION, "the library has another version");
    exchange_starts();
    wants(lapd_card_start(&card, &config) == LAPD_OK, "no card");
    wrong_calls();
    presets();
    notes_with_sapi();
    rooms_of_nobody();
    lengths();
    look_at(0, 0);
    for (unsigned i = 0; i < sizeof teis; i++) {
        wants(lapd_assign(&card, 0, teis[i], &report) == LAPD_OK, "no TEI");
        look_at(0, 2 * (i + 1));
    }
    look_at(1, 0);
    two_reports();
    echo();
    rooms();
    counts();
    line_down(2 * sizeof teis);
    look_at(0, 2 * sizeof teis);
    wants(lapd_remove(&card, 0, 126, &report) == LAPD_OK, "the TEI stays");
    look_at(0, 2 * sizeof teis - 2);
    wants(lapd_card_free(&card) == LAPD_OK, "the card stays");
    return failed;
}
