/*
 * interop_terminals.c: terminals of the card's against a real network. libpri, the ISDN stack of a widespread PBX, is the
 * network side of a basic access line, point to multipoint. On its bus are one to three cards of frames that are terminals,
 * each with a seed of its own, and with one TEI or two. Each frame of the network is heard by each terminal, and each of
 * theirs by the network. In each run so many of a hundred that are heard are lost, 0 to 40, whatever they are.
 *
 * For some minutes each terminal asks for its TEIs and establishes their links, and at random moments it releases one, verifies
 * one, which makes libpri check all, or takes one off its line without a word. So TEIs get lost, doubled and removed. Then
 * nothing is lost any more, and a minute later each terminal has its TEIs, which no other has; libpri has them, too, as its
 * messages tell; and all links are up.
 *
 * At each moment: a TEI is assigned to a terminal only by a message with the number of its latest request; it is removed only
 * by a message, or after two verifies without a check; no message of a terminal is lost, and each note is one that can be.
 * While nothing is lost, no two terminals have one TEI.
 *
 *     interop_terminals [RUNS [SEED]]
 *
 * Time is simulated, for libpri too. Status 1 where something is not so. For tests alone: see tests/interop.
 */
#include <stdbool.h>
#include <stdio.h>
#include <stdlib.h>
#include <string.h>
#include <sys/time.h>

#include "lapd.h"
#include "libpri_terminal.h"
#include "tapped.h"

enum { MOST_TERMINALS = 3, MOST_TEIS = 2, MOST_FRAMES = 64, CHECK_OCTETS = 2, TEIS = 127, STEP = 10 };
/* in milliseconds: how long frames are lost, how long none is then, and the time between two things that layer 3 does */
enum { TROUBLE = 180000, CALM = 60000, ACTS_EACH = 8000, T202 = 2000 };
enum { ASKED = 1, ASSIGNED = 2, DENIED = 3, CHECKED = 4, ANSWERED = 5, REMOVED = 6, VERIFIED = 7 };

typedef struct {
    size_t length;
    uint8_t octets[LAPD_MOST_FRAME];
} frame;

typedef struct {
    lapd_card card;
    unsigned wanted;           /* TEIs */
    uint64_t acts_at;          /* when layer 3 does something */
    bool has[TEIS];            /* which TEIs it was told */
    bool has_asked;            /* a request of its went, whose number this is */
    uint16_t number;
    uint64_t verified[TEIS];   /* when its latest verify of a TEI went */
    const uint8_t *message;    /* the network's that it hears now, or NULL */
} terminal;

static terminal terminals[MOST_TERMINALS];
static unsigned count; /* terminals on the bus */
static struct pri *network;
static bool assigned[TEIS]; /* the network's TEIs, by its messages; it gives some up without one */
static frame to_network[MOST_FRAMES], from_network[MOST_FRAMES];
static size_t to_count, from_count;
static uint64_t now, seed, calm_at;
static unsigned run, loss;
static struct {
    unsigned long assigned, denied, unassigned, removed, by_time, given_up, verified, checked, answered, lost, heard, up, doubled, all;
} seen;

static void want(bool is, const char *what) {
    if (is)
        return;
    printf("FAILED: run %u, %u terminals, %u of 100 lost, after %llu ms: %s\n", run, count, loss, (unsigned long long)now, what);
    exit(1);
}

static uint64_t below(uint64_t most) {
    seed = seed * 6364136223846793005u + 1442695040888963407u;
    return (seed >> 33) % most;
}

static bool is_lost(void) {
    bool answer = now < calm_at && below(100) < loss;
    seen.heard++;
    seen.lost += answer;
    return answer;
}

/* Whether it is one of TEI management, of a type. */
static bool is_message(const uint8_t *octets, size_t length, uint8_t type) {
    return length == 8 && octets[0] >> 2 == 63 && octets[3] == 0x0F && octets[6] == type;
}

static uint8_t tei_of(const uint8_t *message) {
    return message[7] >> 1;
}

static uint16_t number_of(const uint8_t *message) {
    return (uint16_t)(message[4] << 8 | message[5]);
}

static void put(frame *queue, size_t *queued, const uint8_t *octets, size_t length) {
    want(*queued < MOST_FRAMES && length <= LAPD_MOST_FRAME, "a frame finds no room on the bus");
    queue[*queued].length = length;
    memcpy(queue[(*queued)++].octets, octets, length);
}

/* ---- The network -------------------------------------------------------------------------------------------------- */

/* libpri's time: a while after 1970. */
int gettimeofday(struct timeval *restrict at, void *restrict zone) {
    (void)zone;
    at->tv_sec = (time_t)(1000000 + now / 1000);
    at->tv_usec = (suseconds_t)(now % 1000 * 1000);
    return 0;
}

/* libpri takes and hands over frames with two octets of room for a check, which it does not look at. */
static int network_reads(struct pri *pri, void *octets, int room) {
    (void)pri;
    if (to_count == 0)
        return 0;
    frame first = to_network[0];
    memmove(to_network, to_network + 1, --to_count * sizeof *to_network);
    if (is_lost())
        return 0;
    want((size_t)room >= first.length + CHECK_OCTETS, "libpri has too little room");
    memcpy(octets, first.octets, first.length);
    return (int)first.length + CHECK_OCTETS;
}

static int network_writes(struct pri *pri, void *octets, int length) {
    (void)pri;
    const uint8_t *of = octets;
    size_t octets_of = (size_t)length - CHECK_OCTETS;
    if (is_message(of, octets_of, ASSIGNED))
        assigned[tei_of(of)] = true;
    if (is_message(of, octets_of, REMOVED) && tei_of(of) == LAPD_GROUP_TEI)
        memset(assigned, 0, sizeof assigned);
    else if (is_message(of, octets_of, REMOVED))
        assigned[tei_of(of)] = false;
    tapped(now, true, of, octets_of);
    put(from_network, &from_count, of, octets_of);
    return length;
}

static void turn_network(void) {
    for (size_t left = to_count; left > 0; left--)
        pri_check_event(network);
    pri_schedule_run(network);
}

/* ---- A terminal's layer 3 ----------------------------------------------------------------------------------------- */

static void tell(terminal *own, const lapd_report *report);

/* A request that may be refused for a reason. */
static void ask(terminal *own, uint8_t request, uint8_t tei, uint32_t or) {
    lapd_report report;
    uint32_t status = lapd_request_with(&own->card, 0, request, LAPD_CALL, tei, NULL, 0, &report);
    want(status == LAPD_OK || status == or, lapd_status_text(status));
    if (status == LAPD_OK)
        tell(own, &report);
}

static uint8_t state(terminal *own, uint8_t tei) {
    uint8_t state = 0;
    want(lapd_state(&own->card, 0, LAPD_CALL, tei, &state) == LAPD_OK, "no state");
    want((state != 0) == own->has[tei], "it has another TEI than it was told");
    return state;
}

/* How many TEIs it has; one of them, after another, is told, and 0 if there is none. */
static unsigned teis(terminal *own, unsigned after, uint8_t *tei) {
    unsigned many = 0;
    *tei = 0;
    for (uint8_t it = 0; it < TEIS; it++)
        if (own->has[it] && many++ == after)
            *tei = it;
    return many;
}

/* A TEI is assigned by an answer to the latest request alone. */
static void was_assigned(terminal *own, uint8_t tei) {
    want(own->message != NULL && is_message(own->message, 8, ASSIGNED) && tei_of(own->message) == tei, "a TEI is assigned without a message");
    want(own->has_asked && number_of(own->message) == own->number, "a TEI is assigned by another's answer");
    want(!own->has[tei], "a TEI is assigned twice");
    own->has[tei] = true;
    seen.assigned++;
    ask(own, LAPD_ESTABLISH, tei, LAPD_OK);
}

/* It is removed by a message, or as no check came after two verifies. */
static void was_removed(terminal *own, uint8_t tei) {
    bool is_told = own->message != NULL && is_message(own->message, 8, REMOVED)
                   && (tei_of(own->message) == tei || tei_of(own->message) == LAPD_GROUP_TEI);
    bool is_unchecked = own->message == NULL && own->verified[tei] != 0 && now - own->verified[tei] <= T202 + 2 * STEP;
    want(own->has[tei], "a TEI is removed that it has not");
    want(is_told || is_unchecked, "a TEI is removed without a cause");
    own->has[tei] = false;
    seen.removed++;
    seen.by_time += !is_told;
    own->acts_at = now + below(3000);
}

/* libpri removes all, as it has none and one is asked for: a terminal with two is told, and takes them off itself. */
static void all_are_removed(terminal *own) {
    uint8_t tei;
    want(own->message != NULL && is_message(own->message, 8, REMOVED) && tei_of(own->message) == LAPD_GROUP_TEI, "all are removed without a message");
    want(teis(own, 0, &tei) > 1, "one TEI is all, and stays");
    for (; teis(own, 0, &tei) > 0; own->has[tei] = false)
        ask(own, LAPD_REMOVE, tei, LAPD_OK);
    seen.all++;
}

static void tell(terminal *own, const lapd_report *report) {
    want(report->order_count == 0 && report->lost == 0, "an order, or a message that is lost");
    for (const lapd_note *note = report->notes; note < report->notes + report->note_count; note++)
        switch (note->note) {
        case LAPD_ASSIGNED: was_assigned(own, note->tei); break;
        case LAPD_REMOVED: was_removed(own, note->tei); break;
        case LAPD_REMOVE_ALL: all_are_removed(own); break;
        case LAPD_DENIED: seen.denied++; break;
        case LAPD_UNASSIGNED: seen.unassigned++; break;
        case LAPD_ESTABLISH_CONFIRM: seen.up++; break;
        case LAPD_RELEASE_INDICATION: case LAPD_RELEASE_CONFIRM: case LAPD_ESTABLISH_INDICATION: case LAPD_ERROR_INDICATION: break;
        default: want(false, lapd_note_text(note));
        }
}

/* Layer 3 wants its TEIs, and their links up; in trouble it does this and that besides. */
static void act(terminal *own) {
    uint8_t tei;
    unsigned many = teis(own, (unsigned)below(MOST_TEIS), &tei);
    own->acts_at = now + STEP + below(now < calm_at ? ACTS_EACH : 1000);
    if (many < own->wanted)
        ask(own, LAPD_ASK_TEI, LAPD_GROUP_TEI, LAPD_REFUSED_CHECK_RUNNING);
    if (tei == 0)
        return;
    if (state(own, tei) == 4)
        ask(own, LAPD_ESTABLISH, tei, LAPD_OK);
    else if (now < calm_at && below(6) == 0)
        ask(own, LAPD_RELEASE, tei, LAPD_REFUSED_WRONG_STATE);
    if (now < calm_at ? below(4) == 0 : below(8) == 0)
        ask(own, LAPD_VERIFY_TEI, tei, LAPD_REFUSED_CHECK_RUNNING);
    if (now < calm_at && below(12) == 0) {
        ask(own, LAPD_REMOVE, tei, LAPD_OK);
        own->has[tei] = false;
        seen.given_up++;
    }
}

/* ---- A terminal's line -------------------------------------------------------------------------------------------- */

/* Its frames go on the bus. */
static void give(terminal *own) {
    lapd_report report;
    uint8_t out[LAPD_MOST_FRAME];
    for (size_t length; lapd_next_frame(&own->card, 0, out, sizeof out, &length, &report) == LAPD_OK;) {
        tell(own, &report);
        if (is_message(out, length, ASKED)) {
            own->has_asked = true;
            own->number = number_of(out);
        }
        if (is_message(out, length, VERIFIED)) {
            own->verified[tei_of(out)] = now;
            seen.verified++;
        }
        seen.answered += is_message(out, length, ANSWERED);
        tapped(now, false, out, length);
        put(to_network, &to_count, out, length);
    }
}

static void turn_terminal(terminal *own) {
    lapd_report report;
    uint32_t status;
    while ((status = lapd_fall_due(&own->card, now, &report)) == LAPD_OK)
        tell(own, &report);
    want(status == LAPD_NO_TIMER, "time does not go on");
    for (size_t i = 0; i < from_count; i++) {
        if (is_lost())
            continue;
        own->message = from_network[i].octets;
        seen.checked += is_message(own->message, from_network[i].length, CHECKED);
        want(lapd_frame(&own->card, 0, from_network[i].octets, from_network[i].length, &report) == LAPD_OK, "a frame is not taken");
        tell(own, &report);
        own->message = NULL;
    }
    if (own->acts_at <= now)
        act(own);
    give(own);
}

/* ---- A run -------------------------------------------------------------------------------------------------------- */

static void start(void) {
    static const lapd_lengths lengths = {.t200 = 1000, .t203 = 10000, .t201 = 1000, .t202 = T202};
    lapd_config config = {.lines = 1, .terminals = MOST_TEIS, .k = 1, .k16 = 3, .queue = 8, .unit_queue = 4, .control = 4,
                          .slots = 40, .n201 = 260, .n200 = 3, .side = LAPD_TERMINAL};
    memset(assigned, 0, sizeof assigned);
    to_count = from_count = 0;
    tapped_begin("terminals", run);
    network = libpri_access((int)run, network_reads, network_writes);
    want(network != NULL, "libpri does not start");
    for (unsigned i = 0; i < count; i++) {
        terminal *own = &terminals[i];
        memset(own, 0, sizeof *own);
        own->wanted = 1 + (run / 3 + i) % MOST_TEIS;
        own->acts_at = now + below(2000);
        config.seed = (uint16_t)below(65536);
        lapd_report report;
        want(lapd_card_start_frames_timed(&own->card, &config, &lengths) == LAPD_OK, "a card does not start");
        want(lapd_fall_due(&own->card, now, &report) == LAPD_NO_TIMER, "a card begins with a timer");
    }
}

static void step(void) {
    now += STEP;
    from_count = 0;
    turn_network();
    for (unsigned i = 0; i < count; i++)
        turn_terminal(&terminals[i]);
}

/* Two terminals may have one TEI while frames are lost: one of them did not hear that it was removed. */
static bool is_doubled(uint8_t tei) {
    unsigned many = 0;
    for (unsigned i = 0; i < count; i++)
        many += terminals[i].has[tei];
    return many > 1;
}

/* Each terminal has its TEIs, which are the network's and nobody else's, and their links are up. */
static void is_settled(terminal *own) {
    uint8_t tei;
    struct lapd_counters counters;
    want(teis(own, 0, &tei) == own->wanted, "a terminal has no TEI at last");
    for (unsigned i = 0; i < own->wanted; i++) {
        teis(own, i, &tei);
        want(assigned[tei] && !is_doubled(tei), "a TEI at last is none of the network's, or another's, too");
        want(state(own, tei) >= 7, "a link is not up at last"); /* 8 while an enquiry is out */
    }
    want(lapd_counters(&own->card, 0, &counters) == LAPD_OK && counters.values[LAPD_LOST] == 0, "a message is lost");
    want(lapd_card_free(&own->card) == LAPD_OK, "a card does not end");
}

static void one_run(void) {
    count = 1 + run % MOST_TERMINALS;
    loss = run % 5 * 10;
    calm_at = now + TROUBLE;
    unsigned long before = seen.doubled;
    start();
    while (now < calm_at + CALM) {
        step();
        for (uint8_t tei = 64; tei < TEIS && now % 1000 == 0; tei++)
            seen.doubled += is_doubled(tei);
        want(loss > 0 || seen.doubled == before, "a TEI is doubled, and nothing was lost");
    }
    for (unsigned i = 0; i < count; i++)
        is_settled(&terminals[i]);
}

int main(int words, char **argv) {
    unsigned runs = words > 1 ? (unsigned)strtoul(argv[1], NULL, 10) : 200;
    seed = words > 2 ? strtoull(argv[2], NULL, 10) : 2;
    for (run = 0; run < runs; run++)
        one_run();
    printf("interop_terminals: %u runs passed; of %lu frames that were heard %lu were lost\n", runs, seen.heard, seen.lost);
    printf("  TEIs: %lu assigned, %lu not assigned, %lu denied, %lu removed, %lu of these for want of a check, %lu times all, %lu given up\n",
           seen.assigned, seen.unassigned, seen.denied, seen.removed, seen.by_time, seen.all, seen.given_up);
    printf("  %lu verifies, %lu check requests heard, %lu responses; a TEI of two terminals was seen %lu times; %lu links came up\n",
           seen.verified, seen.checked, seen.answered, seen.doubled, seen.up);
    want(seen.assigned > 2 * runs && seen.removed > runs && seen.verified > runs && seen.checked > runs && seen.answered > runs
             && seen.up > 2 * runs && (runs < 50 || (seen.by_time > 0 && seen.unassigned > 0)), "too little has happened");
    return 0;
}
