/*
 * link_counts_seen.c: what is counted of a link, against an observer. Two cards exchange frames over a wire that loses some, in
 * an order drawn by a seed. Frames of nobody come between, timers expire, and layer 3 asks. After each step lapd_link_counters
 * has to tell what was seen. For tests alone.
 */
#include <stdio.h>
#include <string.h>

#include "lapd.h"

enum { TEI = 5, WIRE = 512, SEEDS = 2000, STEPS = 1500 };
enum { NONE = 0, SABME = 0x6F, DISC = 0x43, DM = 0x0F, UA = 0x63, RR = 0x01, REJ = 0x09 };

/* What was seen of the link of a card; how many I-frames had a new number since it was established; whether T200 runs; and, by
 * annex B, whether a release was granted in state 5, which UA then does not establish. */
typedef struct seen {
    struct lapd_link_counters counts;
    unsigned numbers;
    bool runs_t200, is_owed;
} seen;

typedef struct sent {
    uint8_t octets[LAPD_MOST_FRAME];
    size_t length;
} sent;

static lapd_card cards[2] = {LAPD_CARD_NONE, LAPD_CARD_NONE};
static seen known[2];
static sent wires[2][WIRE]; /* those that come to a card */
static unsigned first[2], last[2];
static lapd_report report;
static struct lapd_link_counters total;
static unsigned owed; /* releases */
static uint64_t drawn;
static int failed;

static unsigned below(unsigned limit) {
    drawn = drawn * UINT64_C(6364136223846793005) + UINT64_C(1442695040888963407);
    return (unsigned)(drawn >> 33) % limit;
}

static void wants(bool is, const char *what, unsigned seed, unsigned step) {
    if (!is && failed++ < 5)
        fprintf(stderr, "link_counts_seen: seed %u, step %u: %s\n", seed, step, what);
}

static uint8_t state_of(int card) {
    uint8_t state = 0;
    (void)!lapd_state(&cards[card], 0, LAPD_CALL, TEI, &state);
    return state;
}

/* The orders of the report. */
static void carries_out(seen *of) {
    for (unsigned i = 0; i < report.order_count; i++)
        if (report.orders[i].timer.timer == LAPD_T200 && report.orders[i].timer.service == LAPD_CALL)
            of->runs_t200 = report.orders[i].order == LAPD_START;
}

static void hears(int card, const uint8_t *octets, size_t length) {
    uint8_t state = state_of(card), kind = length == 3 && (octets[2] & 3) == 3 ? octets[2] & 0xEF : NONE;
    bool final = (octets[2] & 0x10) != 0;
    if (length == 4 && octets[2] == REJ && state >= 7)
        known[card].counts.rejects_received++;
    if ((kind == SABME && (state == 4 || state >= 7)) || (kind == UA && final && state == 5 && !known[card].is_owed)) {
        known[card].counts.established++;
        known[card].numbers = 0;
    }
    (void)!lapd_frame(&cards[card], 0, octets, length, &report);
    carries_out(&known[card]);
}

/* The next frame, which comes to the other card unless it is lost. */
static void gives(int card, unsigned loss) {
    sent frame;
    seen *of = &known[card];
    if (lapd_next_frame(&cards[card], 0, frame.octets, sizeof frame.octets, &frame.length, &report) != LAPD_OK)
        return;
    carries_out(of);
    if (frame.length == 4 && frame.octets[2] == REJ)
        of->counts.rejects_sent++;
    if ((frame.octets[2] & 1) == 0 && frame.octets[2] >> 1 == of->numbers % 128)
        of->numbers++;
    else if ((frame.octets[2] & 1) == 0)
        of->counts.sent_again++;
    if (below(100) >= loss && last[!card] - first[!card] < WIRE)
        wires[!card][last[!card]++ % WIRE] = frame;
}

static void expires(int card) {
    lapd_timer timer = {below(4) ? LAPD_T200 : LAPD_T203, LAPD_CALL, TEI};
    if (timer.timer == LAPD_T200) {
        known[card].counts.t200_expired += known[card].runs_t200;
        known[card].runs_t200 = false;
    }
    (void)!lapd_expire(&cards[card], 0, &timer, &report);
    carries_out(&known[card]);
}

static void asks(int card, unsigned step) {
    uint8_t contents[2] = {(uint8_t)step, (uint8_t)(step >> 8)};
    unsigned draw = below(200);
    uint8_t request = draw < 20 ? LAPD_ESTABLISH : draw == 20 ? LAPD_RELEASE : draw < 25 ? LAPD_BUSY : draw < 40 ? LAPD_READY
                                                                                                     : LAPD_DATA;
    size_t length = request == LAPD_DATA ? sizeof contents : 0;
    bool is_in_5 = state_of(card) == 5;
    if (lapd_request_with(&cards[card], 0, request, LAPD_CALL, TEI, contents, length, &report) != LAPD_OK)
        return;
    carries_out(&known[card]);
    if (is_in_5)
        known[card].is_owed = request == LAPD_RELEASE;
    owed += known[card].is_owed;
}

/* A frame that the other card has not sent, or the link begins anew. */
static void meets(int card) {
    static const uint8_t kinds[] = {SABME | 0x10, DISC | 0x10, DM, DM | 0x10, UA, UA | 0x10, RR, REJ, REJ, REJ};
    uint8_t kind = kinds[below(sizeof kinds)];
    bool is_either = kind == RR || kind == REJ, is_command = (kind & 0xEF) == SABME || (kind & 0xEF) == DISC;
    uint8_t octets[4] = {0, TEI << 1 | 1, kind, (uint8_t)below(256)};
    octets[0] = (is_either ? below(2) == 0 : is_command == (card == 1)) ? 2 : 0;
    if (below(8) != 0) {
        hears(card, octets, is_either ? 4 : 3);
    } else if (lapd_deactivate(&cards[card], 0, LAPD_CALL, TEI, &report) == LAPD_OK) {
        memset(&known[card], 0, sizeof known[card]);
    }
}

static void starts(unsigned seed) {
    static const uint8_t windows[] = {1, 3, 7, 127};
    lapd_config config = {.lines = 1, .terminals = 1, .k = 7, .k16 = 7, .queue = 127, .unit_queue = 4, .control = 4, .slots = 300,
                          .n201 = 260, .n200 = 0};
    config.k = windows[below(4)];
    config.n200 = (uint8_t)below(4);
    config.reading = seed % 2 ? LAPD_PROFILE : LAPD_ANNEX_B;
    memset(known, 0, sizeof known);
    memset(first, 0, sizeof first);
    memset(last, 0, sizeof last);
    for (int card = 0; card < 2; card++) {
        config.side = card ? LAPD_USER : LAPD_NETWORK;
        wants(lapd_card_start_frames(&cards[card], &config) == LAPD_OK && lapd_assign(&cards[card], 0, TEI, &report) == LAPD_OK,
              "no card", seed, 0);
    }
}

static void one_step(unsigned seed, unsigned step, unsigned loss) {
    int card = (int)below(2);
    struct lapd_link_counters told;
    memset(&told, 9, sizeof told);
    unsigned draw = below(300);
    if (draw < 110)
        gives(card, loss);
    else if (draw < 220 && first[card] != last[card])
        hears(card, wires[card][first[card] % WIRE].octets, wires[card][first[card] % WIRE].length), first[card]++;
    else if (draw < 285)
        asks(card, step);
    else if (draw < 299)
        expires(card);
    else if (below(4) == 0)
        meets(card);
    known[card].is_owed &= state_of(card) == 5;
    wants(lapd_link_counters(&cards[card], 0, LAPD_CALL, TEI, &told) == LAPD_OK
              && memcmp(&told, &known[card].counts, sizeof told) == 0, "another number than was seen", seed, step);
}

int main(void) {
    for (unsigned seed = 0; seed < SEEDS; seed++) {
        drawn = seed;
        starts(seed);
        unsigned loss = below(3) * below(20);
        for (unsigned step = 0; step < STEPS; step++)
            one_step(seed, step, loss);
        total.sent_again |= known[0].counts.sent_again;
        total.t200_expired |= known[0].counts.t200_expired;
        total.rejects_sent |= known[0].counts.rejects_sent;
        total.rejects_received |= known[0].counts.rejects_received;
        total.established |= known[0].counts.established;
        wants(lapd_card_free(&cards[0]) == LAPD_OK && lapd_card_free(&cards[1]) == LAPD_OK, "a card stays", seed, STEPS);
    }
    wants(total.sent_again > 3 && total.t200_expired > 3 && total.rejects_sent > 3 && total.rejects_received > 3
              && total.established > 3 && owed > 100, "too little was seen", SEEDS, STEPS);
    return failed != 0;
}
