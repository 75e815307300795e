/*
 * interop_trunk.c: a real network against the user's side of a card. libpri, the ISDN stack of a widespread PBX, is the
 * network side of a primary rate access, point to point, with TEI 0, at one end of a socket with one frame a datagram.
 * At the other end is a card of frames through the C library, as the user's side: the private exchange's end of the
 * trunk. One frame in twelve is lost each way, by a seed, whatever it is.
 *
 * Layer 3 of the card sends STATUS ENQUIRY after STATUS ENQUIRY, each with a call reference of its own, which libpri
 * does not know. libpri answers each by RELEASE COMPLETE with that reference. So a message goes each way for each, and
 * what comes is compared: each reference once, in order, none missing. First libpri establishes the link; then the card
 * releases it, and establishes it itself; then the card releases it for good.
 *
 * libpri wants the link back after a release, so both ends may establish it at the same time. If libpri's SABME is lost
 * then, it comes again when the link is up at the card, and establishes it anew. Information that was in transit then is
 * lost, as the standard has it (5.5.1, 5.7): of the enquiries that wait for an answer at that time some may get none.
 * Layer 3 sends as many more. At most a few such cases are taken.
 *
 *     interop_trunk [SEED]
 *
 * Each step is told; status 1 where one did not come in time, or another answer came. For tests alone: see tests/interop.
 */
#define _POSIX_C_SOURCE 200809L

#include <poll.h>
#include <stdbool.h>
#include <stdio.h>
#include <stdlib.h>
#include <string.h>
#include <sys/socket.h>
#include <unistd.h>

#include "lapd.h"
#include "libpri_terminal.h"
#include "tapped.h"

enum { MOST_OCTETS = 2048, CHECK_OCTETS = 2, MESSAGES = 400, LOST_OF = 12, T200_MS = 200, MOST_ESTABLISHED = 6 };

static void fail(const char *why) {
    printf("FAILED: %s\n", why);
    exit(1);
}

/* ---- The line: one frame in twelve is lost ---------------------------------------------------------------------- */

static int ends[2]; /* libpri's, and the card's */
static uint64_t chance = 1;
static unsigned from_network, from_user, lost_from_network, lost_from_user;

static bool is_lost(unsigned *given, unsigned *lost) {
    chance = chance * 6364136223846793005 + 1442695040888963407;
    bool answer = (chance >> 33) % LOST_OF == 0;
    ++*given;
    *lost += answer;
    return answer;
}

/* libpri takes and hands over frames with two octets of room for a check, which it does not look at. */
static int take(struct pri *pri, void *octets, int room) {
    (void)pri;
    ssize_t length = recv(ends[0], octets, (size_t)room, MSG_DONTWAIT);
    return length < 0 ? 0 : (int)length;
}

static int give(struct pri *pri, void *octets, int length) {
    (void)pri;
    tapped(monotonic(), true, octets, (size_t)length - CHECK_OCTETS);
    return is_lost(&from_network, &lost_from_network) ? length : (int)send(ends[0], octets, (size_t)length, 0);
}

/* ---- The card --------------------------------------------------------------------------------------------------- */

static lapd_card card = LAPD_CARD_NONE;
static lapd_clock timers = LAPD_CLOCK_NONE;
static uint64_t now;
static unsigned indicated, confirmed, released, errors, asked, answered, wanted;
static unsigned latest;   /* the call reference of the last answer */
static unsigned doubtful; /* enquiries up to this one may get no answer: the link was established after them */

/* The last enquiry that was answered or may have been lost: all after it get an answer, each in its turn. */
static unsigned settled(void) {
    return latest > doubtful ? latest : doubtful;
}

/* RELEASE COMPLETE came: its call reference is that of the oldest STATUS ENQUIRY that was not answered. */
static void answer_came(const uint8_t *octets, size_t length) {
    enum { RELEASE_COMPLETE = 0x5A };
    if (length < 5 || octets[0] != 8 || octets[1] != 2 || octets[4] != RELEASE_COMPLETE)
        return; /* libpri restarts channels, as it comes up */
    unsigned reference = (octets[2] & 0x7FU) << 8 | octets[3];
    if (reference <= latest || reference > asked || (reference > doubtful && reference != settled() + 1))
        fail("an answer is missing, came twice, or out of order");
    latest = reference;
    answered++;
}

/* The link was established: what waits for an answer may have been lost. */
static void established(void) {
    doubtful = asked;
    if (indicated + confirmed > MOST_ESTABLISHED)
        fail("the link is established again and again");
}

static void tell(const lapd_report *report) {
    if (lapd_clock_apply_report(&timers, 0, report, now) != LAPD_OK)
        fail("an order finds no place");
    for (const lapd_note *note = report->notes; note < report->notes + report->note_count; note++) {
        if (note->note == LAPD_DATA_INDICATION) {
            answer_came(report->contents, report->length);
            continue;
        }
        printf("  %s%s%c\n", lapd_note_text(note), note->error ? " " : "", note->error ? note->error : ' ');
        indicated += note->note == LAPD_ESTABLISH_INDICATION;
        confirmed += note->note == LAPD_ESTABLISH_CONFIRM;
        released += note->note == LAPD_RELEASE_CONFIRM;
        errors += note->note == LAPD_ERROR_INDICATION;
        if (note->note == LAPD_ESTABLISH_INDICATION || note->note == LAPD_ESTABLISH_CONFIRM)
            established();
    }
    if (report->cause != 0)
        printf("  dropped %s\n", lapd_cause_text(report->cause));
}

static void ask(uint8_t request, const uint8_t *octets, size_t length) {
    static lapd_report report;
    uint32_t status = lapd_request(&card, 0, request, LAPD_CALL, 0, octets, length, &report);
    if (status != LAPD_OK)
        fail(lapd_status_text(status));
    tell(&report);
}

/* Layer 3 has enquiries to send, as long as there is room for one: as many as are wanted and not to be answered yet. */
static void enquire(void) {
    enum { STATUS_ENQUIRY = 0x75 };
    struct lapd_room room;
    while (answered + (asked - settled()) < wanted && lapd_room(&card, 0, LAPD_CALL, 0, &room) == LAPD_OK && room.queue > 0) {
        unsigned reference = ++asked;
        const uint8_t message[] = {8, 2, (uint8_t)(reference >> 8), (uint8_t)reference, STATUS_ENQUIRY};
        ask(LAPD_DATA, message, sizeof message);
    }
}

/* Frames that came, timers that are due, and frames that wait. */
static void turn_card(void) {
    static lapd_report report;
    uint8_t frame[MOST_OCTETS] = {0};
    size_t length;
    for (ssize_t came; (came = recv(ends[1], frame, sizeof frame, MSG_DONTWAIT)) > CHECK_OCTETS; tell(&report))
        if (lapd_frame(&card, 0, frame, (size_t)came - CHECK_OCTETS, &report) != LAPD_OK)
            fail("a frame is not taken");
    for (lapd_due due; lapd_clock_due(&timers, now, &due) == LAPD_OK; tell(&report))
        if (lapd_expire(&card, due.line, &due.timer, &report) != LAPD_OK)
            fail("a timer does not expire");
    enquire();
    while (lapd_next_frame(&card, 0, frame, LAPD_MOST_FRAME, &length, &report) == LAPD_OK) {
        tell(&report);
        tapped(monotonic(), false, frame, length);
        if (!is_lost(&from_user, &lost_from_user) && send(ends[1], frame, length + CHECK_OCTETS, 0) < 0)
            fail("a frame does not go");
    }
}

/* ---- libpri ----------------------------------------------------------------------------------------------------- */

static struct pri *network;
static unsigned network_up, network_down;

static void happened(const pri_event *event) {
    if (event == NULL)
        return;
    printf("  network: %s\n", pri_event2str(event->e));
    network_up += event->e == PRI_EVENT_DCHAN_UP;
    network_down += event->e == PRI_EVENT_DCHAN_DOWN;
}

static void turn_network(void) {
    struct pollfd there = {.fd = ends[0], .events = POLLIN, .revents = 0};
    while (poll(&there, 1, 0) > 0)
        happened(pri_check_event(network));
    happened(pri_schedule_run(network));
}

/* ---- Steps ------------------------------------------------------------------------------------------------------ */

/* Both go on until the count is what is wanted, or for so long. */
static void step(const char *name, const unsigned *is, unsigned to_be, unsigned ms) {
    struct pollfd there[2] = {{ends[0], POLLIN, 0}, {ends[1], POLLIN, 0}};
    printf("%s\n", name);
    for (uint64_t end = monotonic() + ms; now < end && *is < to_be; now = monotonic()) {
        turn_card();
        turn_network();
        poll(there, 2, 1);
    }
    if (*is < to_be)
        fail(name);
}

static void start(void) {
    static const lapd_config config = {.lines = 1, .terminals = 1, .k = 7, .k16 = 7, .queue = 8, .unit_queue = 1,
                                       .control = 4, .slots = 8, .n201 = 260, .n200 = 10, .side = LAPD_USER};
    if (socketpair(AF_UNIX, SOCK_SEQPACKET, 0, ends) != 0)
        fail("there is no socket");
    if (lapd_card_start_frames(&card, &config) != LAPD_OK || lapd_clock_start(&timers, &config) != LAPD_OK
        || lapd_clock_set_lengths(&timers, T200_MS, 10000, 1000, 2000) != LAPD_OK)
        fail("the card does not start");
    now = monotonic();
    ask(LAPD_ASSIGN, (const uint8_t *)"", 0); /* TEI 0, that of a line from point to point */
    network = libpri_network(ends[0], take, give);
    pri_set_timer(network, PRI_TIMER_T200, T200_MS);
    pri_set_timer(network, PRI_TIMER_N200, 10);
}

static void release(void) {
    ask(LAPD_RELEASE, (const uint8_t *)"", 0);
    step("the user's side releases the link", &released, released + 1, 10000);
}

/* libpri wants the link back at once. Where it is first, the card releases the link again. */
static void release_until_down(void) {
    for (unsigned before = indicated - 1; before < indicated;) {
        before = indicated;
        release();
    }
}

int main(int words, char **argv) {
    chance = words > 1 ? strtoull(argv[1], NULL, 10) : 1;
    setvbuf(stdout, NULL, _IOLBF, 0);
    tapped_begin("trunk", (unsigned)chance);
    start();
    step("the network establishes the link", &indicated, 1, 10000);
    step("the network has it up", &network_up, 1, 10000);
    wanted = MESSAGES;
    step("messages go each way, and frames are lost", &answered, MESSAGES, 120000);
    release_until_down();
    ask(LAPD_ESTABLISH, (const uint8_t *)"", 0);
    step("it establishes the link itself", &confirmed, 1, 10000);
    wanted = 2 * MESSAGES;
    step("messages go each way again", &answered, 2 * MESSAGES, 120000);
    release();
    if (lost_from_network == 0 || lost_from_user == 0)
        fail("nothing was lost");
    printf("interop_trunk: all steps passed; lost were %u of %u frames of the network and %u of %u of the user; %u errors\n",
           lost_from_network, from_network, lost_from_user, from_user, errors);
    return lapd_clock_free(&timers) != LAPD_OK || lapd_card_free(&card) != LAPD_OK;
}
