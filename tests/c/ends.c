/* ends.c: two cards of octets as the two ends of a line, in beats. See ends.h. For tests alone. */
#include "ends.h"

#include <stdio.h>
#include <stdlib.h>
#include <string.h>

lapd_report report;
uint64_t chance;

void fails(const char *what) {
    fprintf(stderr, "clocks: %s\n", what);
    exit(2);
}

uint32_t below(uint32_t most) {
    chance ^= chance << 13;
    chance ^= chance >> 7;
    chance ^= chance << 17;
    return (uint32_t)(chance >> 16) % most;
}

/* Four octets, the information and its check, a 0 after each fifth bit, a flag, and an octet more. */
int longest_frame(int n201) {
    int bits = 8 * (n201 + 6);
    return (bits + bits / 5 + 8) / 8 + 1;
}

int answered_in(int n201, int way, int control) {
    return 2 * (longest_frame(n201) + way) + 9 * control;
}

int enough_t200(int answered, int rate) {
    return (answered + rate + rate - 1) / rate;
}

void start_end(end *e, const lapd_config *config, int way) {
    memset(e, 0, sizeof *e);
    if (lapd_card_start(&e->card, config) != LAPD_OK) fails("a start");
    e->network = config->side == LAPD_NETWORK;
    e->t200 = e->t203 = e->last_command = e->last_response = NEVER;
    hdlc_listen(&e->own);
    hdlc_listen(&e->other);
    if (lapd_request(&e->card, 0, LAPD_ASSIGN, LAPD_CALL, TEI, NULL, 0, &report) != LAPD_OK) fails("a TEI");
    memset(e->transit, 0x7E, sizeof e->transit);
    e->count = way;
}

void free_end(end *e) {
    if (lapd_card_free(&e->card) != LAPD_OK) fails("a card");
}

int state_of(end *e) {
    uint8_t state = 0;
    if (lapd_state(&e->card, 0, LAPD_CALL, TEI, &state) != LAPD_OK) fails("a state");
    return state;
}

/* ---- What a card tells -------------------------------------------------------------------------------------------- */

static void obey(end *e, long now) {
    e->lost += report.lost;
    for (int i = 0; i < report.order_count; i++) {
        const lapd_order *order = &report.orders[i];
        bool is_t200 = order->timer.timer == LAPD_T200;
        long *moment = is_t200 ? &e->t200 : &e->t203;
        *moment = order->order == LAPD_START ? now + (is_t200 ? e->runs_t200 : e->runs_t203) : NEVER;
    }
}

bool ask_end(end *e, long now, uint8_t request, const uint8_t *contents, size_t length) {
    if (lapd_request(&e->card, 0, request, LAPD_CALL, TEI, contents, length, &report) != LAPD_OK) return false;
    obey(e, now);
    return true;
}

uint8_t due(const end *e, long now) {
    bool t200 = e->t200 != NEVER && e->t200 <= now, t203 = e->t203 != NEVER && e->t203 <= now;
    if (t200 && t203) return e->t200 <= e->t203 ? LAPD_T200 : LAPD_T203;
    return t200 ? LAPD_T200 : t203 ? LAPD_T203 : 0;
}

void expire(end *e, long now, uint8_t timer) {
    lapd_timer expired = {timer, LAPD_CALL, TEI};
    *(timer == LAPD_T200 ? &e->t200 : &e->t203) = NEVER;
    if (lapd_expire(&e->card, 0, &expired, &report) != LAPD_OK) fails("an expiry");
    obey(e, now);
}

/* ---- Octets ------------------------------------------------------------------------------------------------------- */

/* The P or F bit (Q.921 table 5): of I-frames and supervisory frames in their second octet. */
bool has_bit(const uint8_t *frame, size_t length) {
    return (frame[2] & 3) == 3 ? frame[2] & 0x10 : length > 3 && frame[3] & 1;
}

/* Commands of the network's side have C/R bit 1, and those of the user's 0 (clause 3.3.2). */
bool is_command(const end *e, const uint8_t *frame) {
    return ((frame[0] & 2) != 0) == e->network;
}

static uint32_t sum_of(const hdlc_listener *heard) {
    uint32_t sum = 2166136261u;
    for (size_t i = 0; i < heard->length; i++) sum = (sum ^ heard->frame[i]) * 16777619u;
    return sum;
}

bool pull(end *e, long now) {
    uint8_t octet = 0;
    if (lapd_pull(&e->card, 0, &octet, &report) != LAPD_OK) fails("a pull");
    obey(e, now);
    bool ends = hdlc_hear(&e->own, octet);
    if (ends) {
        if (has_bit(e->own.frame, e->own.length))
            *(is_command(e, e->own.frame) ? &e->last_command : &e->last_response) = e->given;
        e->ended[e->frames % MOST_IN_TRANSIT] = e->given;
        e->sums[e->frames++ % MOST_IN_TRANSIT] = sum_of(&e->own);
    }
    e->transit[(e->first + e->count++) % MOST_IN_TRANSIT] = octet;
    e->given++;
    return ends;
}

bool hear(end *e, end *other, int way, long now, int noise) {
    uint8_t octet = noise == NO_NOISE ? other->transit[other->first] : (uint8_t)noise;
    other->first = (other->first + 1) % MOST_IN_TRANSIT;
    other->count--;
    if (hdlc_hear(&e->other, octet)) {
        bool stood = false;
        for (int i = 0; i < MOST_IN_TRANSIT && i < other->frames; i++)
            stood = stood || (other->ended[i] == e->received - way && other->sums[i] == sum_of(&e->other));
        if (!stood) return false;
    }
    e->received++;
    if (lapd_octet(&e->card, 0, octet, &report) != LAPD_OK) fails("an octet");
    obey(e, now);
    return true;
}
