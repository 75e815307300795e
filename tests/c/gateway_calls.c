/*
 * gateway_calls.c: what examples/c/gateway.h says of each call: what it answers, from when timers run, and that an advance
 * that comes late asks a silent terminal once, of which the log tells; that a call tells the time by itself; and that an error
 * leads to a check, at a terminal to a verify. Starts are refused each block of memory in turn. For tests alone.
 */
#include <stdio.h>
#include <stdlib.h>
#include <string.h>

#include "gateway.h"
#include "lapd_memory.h"

static const lapd_config config = {.lines = 2, .terminals = 2, .k = 1, .k16 = 3, .queue = 8, .unit_queue = 4,
                                   .control = 4, .slots = 16, .n201 = 260, .n200 = 3, .side = LAPD_NETWORK};
static const lapd_lengths lengths = {1000, 10000, 1000, 2000, {0}}, bad_lengths = {1000, 10000, 3600001, 2000, {0}};
static const uint8_t contents[] = {1, 2, 3};
/* of TEI 64, and of TEI 65 */
static const uint8_t sabme[] = {0x00, 0x81, 0x7F}, ua[] = {0x00, 0x81, 0x73}, poll[] = {0x02, 0x81, 0x01, 0x01};
static const uint8_t data[] = {0x02, 0x81, 0x00, 0x00, 1, 2, 3}, acknowledged[] = {0x02, 0x81, 0x01, 0x02};
static const uint8_t sabme_65[] = {0x00, 0x83, 0x7F}, ua_65[] = {0x00, 0x83, 0x73};
static const uint8_t poll_65[] = {0x02, 0x83, 0x01, 0x01};
/* of TEI management: a request and its denial, a check of TEI 64 and its response, the removal of all TEIs, and a check of
 * TEI 65 */
static const uint8_t identity_request[] = {0xFC, 0xFF, 0x03, 0x0F, 0x12, 0x34, 0x01, 0xFF};
static const uint8_t identity_denied[] = {0xFE, 0xFF, 0x03, 0x0F, 0x12, 0x34, 0x03, 0xFF};
static const uint8_t check_request[] = {0xFE, 0xFF, 0x03, 0x0F, 0x00, 0x00, 0x04, 0x81};
static const uint8_t check_response[] = {0xFC, 0xFF, 0x03, 0x0F, 0x00, 0x00, 0x05, 0x81};
static const uint8_t removal_of_all[] = {0xFE, 0xFF, 0x03, 0x0F, 0x00, 0x00, 0x06, 0xFF};
static const uint8_t check_request_65[] = {0xFE, 0xFF, 0x03, 0x0F, 0x00, 0x00, 0x04, 0x83};
static const uint8_t identity_assigned[] = {0xFE, 0xFF, 0x03, 0x0F, 0x12, 0x34, 0x02, 0x83};
/* answers that nobody asked for: of TEI 64, TEI 63, and the network; and what the network has verified */
static const uint8_t stray_ua[] = {0x02, 0x81, 0x73}, stray_ua_63[] = {0x02, 0x7F, 0x73}, its_stray_ua[] = {0x00, 0x81, 0x73};
static const uint8_t its_sabme[] = {0x02, 0x81, 0x7F}, verify_request[] = {0xFC, 0xFF, 0x03, 0x0F, 0x00, 0x00, 0x07, 0x81};

static gateway own = GATEWAY_NONE;
static trace its_log; /* of network's side */
static unsigned notes[LAPD_REMOVE_ALL + 1], drops, reports;

/* ---- Memory, of which the start is refused a block ---------------------------------------------------------------- */

static long left = -1, taken; /* blocks until one is refused, and blocks that are not given back */

static rattle_tried answer(void *at) {
    static char nothing;
    rattle_tried tried = {at != NULL, at != NULL ? at : &nothing};
    taken += tried.there;
    return tried;
}

rattle_tried rattle_alloc(size_t octets, size_t alignment) {
    return answer(left-- == 0 ? NULL : malloc(octets > 0 ? octets : alignment));
}

rattle_tried rattle_realloc(void *at, size_t old_octets, size_t octets, size_t alignment) {
    (void)old_octets;
    rattle_tried tried = answer(left-- == 0 ? NULL : realloc(at, octets > 0 ? octets : alignment));
    taken -= tried.there; /* the old block */
    return tried;
}

void rattle_dealloc(void *at) {
    taken--;
    free(at);
}

/* ---- What is asked of each call ----------------------------------------------------------------------------------- */

static void want(bool is, const char *what) {
    if (!is) {
        fprintf(stderr, "gateway_calls: not so: %s\n", what);
        exit(1);
    }
}
#define WANT(is) want(is, #is)

static void on_report(gateway *gate, const lapd_report *report) {
    WANT(gate == &own && report->line == 0 && report->order_count == 0 && (report->note_count != 0 || report->cause != 0));
    reports++;
    for (unsigned i = 0; i < report->note_count; i++)
        notes[report->notes[i].note]++;
    drops += report->cause != 0;
}

static void advances_to(uint64_t now) {
    want(gateway_advance(&own, now) == LAPD_OK && own.now == now, "time goes on");
}

/* Line 0 is the first that waits, and gives this frame; `more` is told of it exactly where it waits again. */
static bool takes(const uint8_t *frame, size_t length) {
    uint8_t out[LAPD_MOST_FRAME];
    size_t octets;
    uint32_t line = 9;
    bool more;
    return lapd_next_waiting(&own.card, 0, &line) == LAPD_OK && line == 0
           && gateway_take(&own, own.now, 0, out, sizeof out, &octets, &more) == LAPD_OK && octets == length
           && memcmp(out, frame, length) == 0 && more == (lapd_next_waiting(&own.card, 0, &line) == LAPD_OK);
}

static bool takes_none(void) {
    uint8_t out[LAPD_MOST_FRAME];
    size_t octets;
    uint32_t line = 9;
    bool more = true;
    return lapd_next_waiting(&own.card, 0, &line) == LAPD_NO_FRAME && line == 9
           && gateway_take(&own, own.now, 0, out, sizeof out, &octets, &more) == LAPD_NO_FRAME && more;
}

static bool is_next(uint64_t wanted) {
    uint64_t moment;
    return lapd_next_moment(&own.card, &moment) == LAPD_OK && moment == wanted;
}

/* Whether both links are in this state. */
static bool are_in(uint8_t wanted) {
    uint8_t one = 0, two = 0;
    WANT(lapd_state(&own.card, 0, LAPD_CALL, 64, &one) == LAPD_OK);
    WANT(lapd_state(&own.card, 0, LAPD_CALL, 65, &two) == LAPD_OK);
    return one == wanted && two == wanted;
}

/* Each block of the card is refused in turn; then it is there. */
static void starts(void) {
    uint64_t moment;
    uint32_t status;
    unsigned refused = 0;
    own.on_report = on_report;
    WANT(gateway_start(&own, &config, &bad_lengths) == LAPD_WRONG_TIME && taken == 0);
    for (long block = 0; left = block, (status = gateway_start(&own, &config, &lengths)) == LAPD_NO_MEMORY; block++) {
        WANT(taken == 0 && gateway_frame(&own, own.now, 0, sabme, sizeof sabme) == LAPD_NO_CARD);
        WANT(gateway_advance(&own, 0) == LAPD_NO_CARD);
        refused++;
    }
    left = -1;
    WANT(status == LAPD_OK && refused > 0); /* lapd.c takes one block */
    WANT(gateway_start(&own, &config, &lengths) == LAPD_SECOND_START);
    advances_to(0);
    WANT(lapd_next_moment(&own.card, &moment) == LAPD_NO_TIMER);
}

/* All terminals of a line are told twice to give up their TEIs; there is room for that twice. */
static void disowns(void) {
    WANT(gateway_disown(&own, config.lines) == LAPD_WRONG_LINE);
    WANT(gateway_disown(&own, 0) == LAPD_OK && gateway_disown(&own, 0) == LAPD_OK);
    WANT(gateway_disown(&own, 0) == LAPD_REFUSED_CONTROL_FULL && reports == 0);
    for (int times = 0; times < 4; times++)
        WANT(takes(removal_of_all, sizeof removal_of_all));
    WANT(takes_none());
}

/* A wrong call changes nothing. */
static void wrong_calls(uint64_t now) {
    uint8_t out[LAPD_MOST_FRAME];
    size_t length;
    bool more;
    unsigned before = reports;
    WANT(gateway_frame(&own, own.now, config.lines, sabme, sizeof sabme) == LAPD_WRONG_LINE);
    WANT(gateway_frame_failed(&own, 0, LAPD_TEI) == LAPD_WRONG_CAUSE);
    WANT(gateway_ask(&own, own.now, 0, 0, LAPD_CALL, 64, NULL, 0) == LAPD_WRONG_REQUEST);
    WANT(gateway_ask(&own, own.now, 0, LAPD_DATA, LAPD_CALL, 66, contents, sizeof contents) == LAPD_REFUSED_NO_LINK);
    WANT(gateway_down(&own, config.lines) == LAPD_WRONG_LINE);
    WANT(gateway_disown(&own, 0) == LAPD_REFUSED_TEI_TAKEN);
    WANT(gateway_take(&own, own.now, 0, out, sizeof out - 1, &length, &more) == LAPD_WRONG_LENGTH);
    WANT(gateway_advance(&own, now - 1) == LAPD_WRONG_TIME && gateway_advance(&own, LAPD_LATEST) == LAPD_WRONG_TIME);
    WANT(gateway_advance(&own, UINT64_MAX) == LAPD_WRONG_TIME && own.now == now);
    WANT(reports == before);
}

/* A link comes up at 9 s, so T203 runs until 19 s; T200 of data runs from when they are taken. From here on there is a log. */
static void comes_up(void) {
    its_log.to = tmpfile();
    WANT(its_log.to != NULL);
    own.log = &its_log;
    WANT(gateway_ask(&own, own.now, 0, LAPD_ASSIGN, LAPD_CALL, 64, NULL, 0) == LAPD_OK);
    WANT(gateway_ask(&own, own.now, 0, LAPD_ASSIGN, LAPD_CALL, 65, NULL, 0) == LAPD_OK);
    advances_to(9000);
    WANT(gateway_frame(&own, own.now, 0, sabme, sizeof sabme) == LAPD_OK);
    WANT(notes[LAPD_ESTABLISH_INDICATION] == 1 && is_next(19000));
    wrong_calls(9000);
    WANT(takes(ua, sizeof ua) && takes_none() && is_next(19000));
    advances_to(10000);
    WANT(gateway_ask(&own, own.now, 0, LAPD_DATA, LAPD_CALL, 64, contents, sizeof contents) == LAPD_OK && is_next(19000));
    advances_to(12000);
    WANT(takes(data, sizeof data) && is_next(13000));
    advances_to(12500);
    WANT(gateway_frame(&own, own.now, 0, acknowledged, sizeof acknowledged) == LAPD_OK && is_next(22500));
    WANT(gateway_frame(&own, own.now, 0, sabme_65, sizeof sabme_65) == LAPD_OK && are_in(7));
    WANT(takes(ua_65, sizeof ua_65));
}

/* How many lines of the log are this one. */
static unsigned logged(const char *wanted) {
    char line[LAPD_MOST_TEXT];
    unsigned count = 0;
    rewind(its_log.to);
    while (fgets(line, sizeof line, its_log.to) != NULL)
        count += strcmp(line, wanted) == 0;
    return count;
}

/* T203 of both links is due; the call comes 20 s late, and asks each terminal once. The log tells of both. */
static void time_passes(void) {
    advances_to(22499);
    WANT(takes_none() && are_in(7) && logged("22.499 0   expired t203 64\n") == 0);
    advances_to(42500);
    WANT(are_in(8) && is_next(43500) && logged("42.500 0   expired t203 64\n") == 1 && logged("42.500 0   expired t203 65\n") == 1);
    WANT(logged("42.500 0   state 64: 7 (multiple frame established) to 8 (timer recovery)\n") == 1);
    own.log = NULL;
    WANT(fclose(its_log.to) == 0);
    advances_to(42600);
    WANT(takes(poll, sizeof poll) && takes(poll_65, sizeof poll_65) && takes_none());
    WANT(notes[LAPD_RELEASE_INDICATION] == 0 && notes[LAPD_ERROR_INDICATION] == 0);
}

/* The line goes down, twice: its links are released once, and what waits on it is given up with its check. */
static void goes_down(void) {
    uint64_t moment;
    advances_to(42700);
    WANT(gateway_frame_failed(&own, 0, LAPD_FCS) == LAPD_OK && drops == 1);
    WANT(gateway_ask(&own, own.now, 0, LAPD_UNIT, LAPD_CALL, LAPD_GROUP_TEI, contents, sizeof contents) == LAPD_OK);
    WANT(gateway_ask(&own, own.now, 0, LAPD_CHECK, LAPD_CALL, 64, NULL, 0) == LAPD_OK);
    WANT(gateway_down(&own, 0) == LAPD_OK && are_in(4) && takes_none());
    WANT(notes[LAPD_RELEASE_INDICATION] == 2 && lapd_next_moment(&own.card, &moment) == LAPD_NO_TIMER);
    advances_to(42800);
    WANT(gateway_down(&own, 0) == LAPD_OK && notes[LAPD_RELEASE_INDICATION] == 2);
    WANT(gateway_ask(&own, own.now, 0, LAPD_DATA, LAPD_CALL, 64, contents, sizeof contents) == LAPD_REFUSED_WRONG_STATE);
    advances_to(42900);
    WANT(gateway_frame(&own, own.now, 0, sabme, sizeof sabme) == LAPD_OK && is_next(52900));
}

static uint64_t denials(void) {
    struct lapd_counters counters;
    WANT(lapd_counters(&own.card, 0, &counters) == LAPD_OK);
    return counters.values[LAPD_BEGUN_DENIED];
}

/* A TEI is asked for twice, a T201 apart, in this frame; and its terminal answers, or none. */
static void is_checked(const uint8_t *request, size_t length, bool is_answered) {
    for (int times = 0; times < 2; times++) {
        WANT(notes[LAPD_REMOVED] == 0 && takes(request, length) && is_next(own.now + 1000));
        if (is_answered)
            WANT(gateway_frame(&own, own.now, 0, check_response, sizeof check_response) == LAPD_OK);
        advances_to(own.now + 1000);
    }
}

/* A third terminal is denied a TEI, so the line is audited: the first answers both times, the second has gone. */
static void is_audited(void) {
    uint8_t place = 0, other_place = 0;
    WANT(takes(ua, sizeof ua) && denials() == 0);
    advances_to(43000);
    WANT(gateway_frame(&own, own.now, 0, identity_request, sizeof identity_request) == LAPD_OK && denials() == 0);
    WANT(takes(identity_denied, sizeof identity_denied) && denials() == 1);
    WANT(gateway_audit(&own, own.now, 0, &place) == LAPD_OK && place == 129);
    WANT(gateway_audit(&own, own.now, 0, &place) == LAPD_REFUSED_CHECK_RUNNING && place == 129);
    is_checked(check_request, sizeof check_request, true);
    WANT(gateway_audit(&own, own.now, 0, &place) == LAPD_OK && place == 131);
    is_checked(check_request_65, sizeof check_request_65, false);
    WANT(notes[LAPD_REMOVED] == 1 && gateway_audit(&own, own.now, 0, &place) == LAPD_NO_MORE_LINKS);
    WANT(gateway_audit(&own, own.now, 1, &other_place) == LAPD_NO_MORE_LINKS);
    WANT(gateway_audit(&own, own.now, config.lines, &place) == LAPD_WRONG_LINE);
    WANT(gateway_frame(&own, own.now, 0, identity_request, sizeof identity_request) == LAPD_OK);
    WANT(notes[LAPD_ASSIGNED] == 1 && denials() == 1);
}

/* T203 of TEI 64 is due as a frame of it comes, whose call tells the time: an enquiry waits, and the link is as after the frame. */
static void tells_the_time(void) {
    uint64_t moment = 0;
    uint8_t state = 0;
    WANT(takes(identity_assigned, sizeof identity_assigned) && takes_none());
    WANT(lapd_next_moment(&own.card, &moment) == LAPD_OK && moment > own.now);
    WANT(gateway_frame(&own, moment, 0, sabme_65, sizeof sabme_65) == LAPD_OK && own.now == moment);
    WANT(takes(ua_65, sizeof ua_65) && takes(poll, sizeof poll));
    WANT(lapd_state(&own.card, 0, LAPD_CALL, 64, &state) == LAPD_OK && state == 8);
    WANT(gateway_ask(&own, moment - 1, 0, LAPD_BUSY, LAPD_CALL, 64, NULL, 0) == LAPD_WRONG_TIME && own.now == moment);
}

/* Error C: a TEI from 64 on is checked, and none that is set by hand. */
static void errors_are_managed(void) {
    unsigned before = notes[LAPD_ERROR_INDICATION];
    WANT(gateway_ask(&own, own.now, 0, LAPD_REMOVE, LAPD_CALL, 65, NULL, 0) == LAPD_OK);
    WANT(gateway_ask(&own, own.now, 0, LAPD_ASSIGN, LAPD_CALL, 63, NULL, 0) == LAPD_OK);
    while (takes(check_request, sizeof check_request) || !takes_none())
        ; /* the removal goes */
    WANT(gateway_frame(&own, own.now, 0, stray_ua_63, sizeof stray_ua_63) == LAPD_OK);
    WANT(notes[LAPD_ERROR_INDICATION] == before + 1 && takes_none());
    WANT(gateway_frame(&own, own.now, 0, stray_ua, sizeof stray_ua) == LAPD_OK);
    WANT(notes[LAPD_ERROR_INDICATION] == before + 2 && takes(check_request, sizeof check_request));
}

/* At a terminal it is verified. */
static void terminals_verify(void) {
    lapd_config terminal = config;
    unsigned before = notes[LAPD_ERROR_INDICATION];
    terminal.side = LAPD_TERMINAL;
    WANT(gateway_start(&own, &terminal, &lengths) == LAPD_OK);
    WANT(gateway_ask(&own, 5000, 0, LAPD_ASSIGN, LAPD_CALL, 64, NULL, 0) == LAPD_OK && own.now == 5000);
    WANT(gateway_frame(&own, 6000, 0, its_sabme, sizeof its_sabme) == LAPD_OK && own.now == 6000);
    WANT(gateway_frame(&own, 6000, 0, its_stray_ua, sizeof its_stray_ua) == LAPD_OK);
    WANT(notes[LAPD_ERROR_INDICATION] == before + 1 && takes(verify_request, sizeof verify_request) && is_next(8000));
    gateway_end(&own);
}

static void ends(void) {
    uint64_t moment;
    gateway_end(&own);
    gateway_end(&own);
    WANT(taken == 0 && gateway_down(&own, 0) == LAPD_NO_CARD);
    WANT(gateway_advance(&own, 50000) == LAPD_NO_CARD && lapd_next_moment(&own.card, &moment) == LAPD_NO_CARD);
}

int main(void) {
    starts();
    disowns();
    comes_up();
    time_passes();
    goes_down();
    is_audited();
    tells_the_time();
    errors_are_managed();
    ends();
    terminals_verify();
    return 0;
}
