/*
 * resent.c: layer 3 sends again what is told as given up, by examples/c/outbox.h. The wire loses frames of each kind. Links of
 * both services are released, deactivated and established anew. In the end nothing is missing. Only what was told as given up
 * comes twice, or what a link still kept as it began anew. For tests alone.
 */
#include <stdio.h>
#include <stdlib.h>
#include <string.h>

#include "outbox.h"

enum { TEI = 5, LINKS = 2, MANY = 20000, MOST_WAITING = 20, MOST_IN_TRANSIT = 256, QUIET = 120000, STEP = 10 };

static const lapd_lengths lengths = {200, 2000, 1000, 2000, {0}};
static lapd_config config = {.lines = 1, .terminals = 1, .k = 7, .k16 = 7, .queue = 8, .unit_queue = 4, .control = 4, .slots = 40,
                             .n201 = 260, .n200 = 3};
/* The card of the near end, and that of the far one. */
static lapd_card card = LAPD_CARD_NONE, far_card = LAPD_CARD_NONE;
static lapd_report report;
static uint64_t now;
static uint32_t seed = 4; /* with which what a link kept comes twice, too */

/* ---- Layer 3 of the near end ------------------------------------------------------------------------------------ */

/* A link. Its messages are numbers that count up: how many entered, and whether each has come, and may come twice. */
typedef struct {
    uint8_t service;
    outbox out;
    uint32_t entered, given_up, twice;
    bool came[MANY], may_double[MANY];
} link;

static link links[LINKS] = {{.service = LAPD_CALL}, {.service = LAPD_PACKET}};

static void wants(bool is, const char *what) {
    if (!is) {
        fprintf(stderr, "resent: %s, at %llu ms\n", what, (unsigned long long)now);
        exit(1);
    }
}

static uint32_t chance(uint32_t many) {
    seed ^= seed << 13;
    seed ^= seed >> 17;
    seed ^= seed << 5;
    return seed % many;
}

/* From this copy on, so many messages may come twice. */
static void may_double(link *it, uint8_t from, uint32_t many) {
    for (uint32_t i = 0; i < many; i++) {
        uint32_t number;
        memcpy(&number, it->out.copies[(from + i) % OUTBOX_COPIES].octets, sizeof number);
        it->may_double[number] = true;
    }
}

/* The newest so many wait again, before those that wait already. */
static void gives_up(link *it, uint8_t count) {
    wants(count <= config.queue && count <= it->entered - it->out.waiting, "more is given up than was granted");
    outbox_gave_up(&it->out, count);
    it->given_up += count;
    may_double(it, it->out.next, count);
}

/* The link is established anew. What it keeps then may come twice: REJ or a recovery may have set V(S) back before. */
static void begins_anew(link *it) {
    struct lapd_room room;
    wants(lapd_room(&card, 0, it->service, TEI, &room) == LAPD_OK, "no link");
    uint32_t kept = (uint32_t)(config.queue - room.queue);
    may_double(it, (uint8_t)(it->out.next + OUTBOX_COPIES - kept), kept);
}

static void layer_3(const lapd_report *told) {
    uint8_t counts[LINKS] = {told->given_up, told->given_up_16};
    wants(told->given_up_tei == (counts[0] != 0 || counts[1] != 0 ? TEI : 255), "another TEI");
    for (int i = 0; i < LINKS; i++)
        gives_up(&links[i], counts[i]);
    for (int i = 0; i < told->note_count; i++)
        if (told->notes[i].error != 0 && strchr("BEFIJKLNO", told->notes[i].error) != NULL)
            begins_anew(&links[told->notes[i].service == LAPD_PACKET]);
    for (int i = 0; i < LINKS; i++)
        outbox_send(&links[i].out, &card, 0, links[i].service, TEI, layer_3);
}

/* New messages wait; a link that is down is established. */
static void asks(link *it) {
    while (it->entered < MANY && it->out.waiting < MOST_WAITING) {
        wants(outbox_enter(&it->out, (const uint8_t *)&it->entered, sizeof it->entered), "no copy is kept");
        it->entered++;
    }
    uint8_t state = 0;
    wants(lapd_state(&card, 0, it->service, TEI, &state) == LAPD_OK, "no link");
    if (state == 4 && lapd_establish(&card, 0, it->service, TEI, &report) == LAPD_OK)
        layer_3(&report);
}

/* ---- Two ends and the wire ---------------------------------------------------------------------------------------- */

/* An end, and the frames that it sent and the other has not received. */
typedef struct {
    lapd_card *card;
    struct { uint8_t octets[LAPD_MOST_FRAME]; size_t length; } way[MOST_IN_TRANSIT];
    int first, count;
} end;

static end near = {.card = &card}, far = {.card = &far_card};

static void far_told(void) {
    uint32_t number;
    if (report.delivered == 0)
        return;
    wants(report.note_count > 0 && report.length == sizeof number, "contents of another length");
    link *it = &links[report.notes[0].service == LAPD_PACKET];
    memcpy(&number, report.contents, sizeof number);
    wants(number < MANY, "contents that were not sent");
    it->twice += it->came[number];
    wants(!it->came[number] || it->may_double[number], "contents come twice");
    it->came[number] = true;
}

static void told(const end *e) {
    if (e == &near)
        layer_3(&report);
    else
        far_told();
}

static void go_on(end *e) {
    while (lapd_fall_due(e->card, now, &report) == LAPD_OK)
        told(e);
}

/* What an end sends goes on its way, or is lost. */
static void sends(end *e, uint32_t loss) {
    uint8_t frame[LAPD_MOST_FRAME];
    size_t length = 0;
    while (e->count < MOST_IN_TRANSIT && lapd_next_frame(e->card, 0, frame, sizeof frame, &length, &report) == LAPD_OK) {
        told(e);
        if (chance(100) < loss)
            continue;
        int place = (e->first + e->count++) % MOST_IN_TRANSIT;
        memcpy(e->way[place].octets, frame, length);
        e->way[place].length = length;
    }
}

static void receives(end *from, end *to) {
    for (; from->count > 0; from->count--, from->first = (from->first + 1) % MOST_IN_TRANSIT) {
        wants(lapd_frame(to->card, 0, from->way[from->first].octets, from->way[from->first].length, &report) == LAPD_OK, "a frame");
        told(to);
    }
}

/* Now and then one end releases a link, or gives it up for a moment. */
static void disturbs(void) {
    uint32_t what = chance(800);
    if (what > 7)
        return;
    end *e = what % 2 == 0 ? &near : &far;
    uint8_t service = what < 4 ? LAPD_CALL : LAPD_PACKET, request = what % 4 < 2 ? LAPD_RELEASE : LAPD_DEACTIVATE;
    if (lapd_request_with(e->card, 0, request, service, TEI, NULL, 0, &report) == LAPD_OK)
        told(e);
}

static void step(uint32_t loss) {
    now += STEP;
    go_on(&near);
    go_on(&far);
    for (int i = 0; i < LINKS; i++) {
        asks(&links[i]);
        if (lapd_establish(&far_card, 0, links[i].service, TEI, &report) == LAPD_OK)
            far_told(); /* in state 4 alone */
    }
    sends(&near, loss);
    sends(&far, loss);
    receives(&near, &far);
    receives(&far, &near);
}

static void starts(end *e, uint16_t side) {
    config.side = side;
    wants(lapd_card_start_frames_timed(e->card, &config, &lengths) == LAPD_OK, "no card");
    wants(lapd_assign(e->card, 0, TEI, &report) == LAPD_OK, "no TEI");
}

int main(void) {
    starts(&near, LAPD_NETWORK);
    starts(&far, LAPD_USER);
    while (links[0].entered < MANY || links[1].entered < MANY) {
        step(15);
        disturbs();
    }
    for (uint64_t end_of_it = now + QUIET; now < end_of_it;)
        step(0);
    for (int i = 0; i < LINKS; i++) {
        for (uint32_t number = 0; number < MANY; number++)
            wants(links[i].came[number], "contents are missing");
        printf("resent: service %u: %d messages, %u given up and sent again, %u came twice\n", links[i].service, MANY,
               links[i].given_up, links[i].twice);
        wants(links[i].given_up > MANY / 100, "little was given up");
    }
    wants(lapd_card_free(&card) == LAPD_OK && lapd_card_free(&far_card) == LAPD_OK, "a card is not freed");
    return 0;
}
