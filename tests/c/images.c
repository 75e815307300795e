/*
 * images.c: a card that is restored from its image goes on as the one that was saved. The same happens to two cards, at random;
 * again and again one of them is saved, and the other ends and is restored from the image. From then on both tell the same, give
 * the same frames, and the same timers fall due; states, rooms, counters, moments of changes and what is stored are the same, and
 * so is the image of each. With a clock beside each card, its image goes with that of the card. A save changes nothing and takes no
 * memory; a restore that is refused memory gives back all that it had taken. A sum of all images is printed. For tests alone.
 *
 *     images SEED frames|octets network|user|terminal [timed] [annex] [told]
 */
#include <inttypes.h>
#include <stdio.h>
#include <stdlib.h>
#include <string.h>

#include "hdlc.h"
#include "lapd.h"
#include "lapd_memory.h"

enum { TURNS = 12000, LINES = 2, ENDS = 2, MOST_FRAMES = 256, MOST_IMAGE = 1 << 14, QUIET = 48 };

typedef struct {
    uint32_t line;
    size_t length;
    uint8_t octets[HDLC_MOST_OCTETS + 3];
} frame;

/* A card with all that is beside it; and the frames that it gave in a turn. */
typedef struct {
    lapd_card card;
    lapd_clock clock;
    lapd_report told;
    hdlc_listener listeners[LINES];
    unsigned given;
    frame frames[MOST_FRAMES];
} side;

typedef struct {
    size_t length, of_clock;
    uint8_t octets[MOST_IMAGE], clock[MOST_IMAGE];
} image;

static lapd_config config = {.lines = LINES, .terminals = 3, .k = 2, .k16 = 1, .queue = 2, .unit_queue = 2, .control = 4, .slots = 14,
                             .n201 = 16, .n200 = 2};
static const lapd_lengths lengths = {100, 1000, 150, 250, {0}};
static side ends[ENDS];
static hdlc_sender senders[LINES];
static uint64_t now, seed;
static bool for_octets, is_timed;
static unsigned restored, expired, frames, reopened;
static uint64_t sum; /* of all images: the same on each processor, and by each way of the library */
static uint8_t asked[2]; /* the reference number of the latest frame of TEI management that went */

static void wants(bool is, const char *what) {
    if (is)
        return;
    fprintf(stderr, "images: at %" PRIu64 " ms, after %u restores: %s\n", now, restored, what);
    exit(1);
}

static unsigned below(unsigned most) {
    seed = seed * 6364136223846793005u + 1442695040888963407u;
    return (unsigned)((seed >> 33) % most);
}

/* ---- Memory: which calls take it, and that all is given back ---------------------------------------------------------- */

static bool may_take;
static long blocks, refused_at = -1; /* so many blocks are taken; and the one that is refused, if it is not negative */

static rattle_tried answer(void *at) {
    static char nothing;
    rattle_tried tried = {at != NULL, at != NULL ? at : &nothing};
    return tried;
}

rattle_tried rattle_alloc(size_t octets, size_t alignment) {
    wants(may_take, "memory is taken");
    if (refused_at == 0)
        return answer(NULL);
    refused_at--;
    blocks++;
    return answer(malloc(octets > 0 ? octets : alignment));
}

rattle_tried rattle_realloc(void *at, size_t old_octets, size_t octets, size_t alignment) {
    (void)old_octets;
    wants(may_take, "memory is taken");
    return answer(realloc(at, octets > 0 ? octets : alignment));
}

void rattle_dealloc(void *at) {
    wants(may_take, "memory is given back");
    blocks--;
    free(at);
}

/* ---- The same of both ------------------------------------------------------------------------------------------------- */

static void same_reports(uint32_t status, uint32_t other) {
    lapd_report *one = &ends[0].told, *two = &ends[1].told;
    wants(status == other, "another status");
    if (status != LAPD_OK)
        return;
    wants(one->line == two->line && one->note_count == two->note_count && one->order_count == two->order_count && one->cause == two->cause
              && one->lost == two->lost && one->begun == two->begun && one->more == two->more && one->delivered == two->delivered
              && one->length == two->length && one->given_up == two->given_up && one->given_up_16 == two->given_up_16
              && one->given_up_tei == two->given_up_tei, "another report");
    wants(one->reopened == two->reopened && (!one->reopened || (one->reopened_service == two->reopened_service
              && one->reopened_tei == two->reopened_tei)), "another link has room");
    wants(memcmp(one->notes, two->notes, one->note_count * sizeof *one->notes) == 0
              && memcmp(one->orders, two->orders, one->order_count * sizeof *one->orders) == 0
              && memcmp(one->contents, two->contents, one->length) == 0 && memcmp(&one->expired, &two->expired, sizeof one->expired) == 0,
          "other notes, orders, contents or another timer");
    reopened += one->reopened;
}

/* The orders of a report go to the clock, at a card that has one. */
static void obeyed(side *at, uint32_t line) {
    wants(is_timed ? at->told.order_count == 0 : lapd_clock_apply_report(&at->clock, line, &at->told, now) == LAPD_OK, "orders");
}

static void told(const uint32_t *status, uint32_t line) {
    same_reports(status[0], status[1]);
    for (int i = 0; i < ENDS && status[i] == LAPD_OK; i++)
        obeyed(&ends[i], line);
}

static uint32_t next_moment(side *at, uint64_t *moment) {
    return is_timed ? lapd_next_moment(&at->card, moment) : lapd_clock_next(&at->clock, moment);
}

/* One timer that is due falls due. */
static uint32_t fall_due(side *at) {
    lapd_due due;
    if (is_timed)
        return lapd_fall_due(&at->card, now, &at->told);
    uint32_t status = lapd_clock_due(&at->clock, now, &due);
    if (status != LAPD_OK)
        return status;
    status = lapd_expire(&at->card, due.line, &due.timer, &at->told);
    at->told.expired = due.timer;
    return status;
}

static void time_goes_on(void) {
    uint64_t next = now;
    if (below(3) == 0 || next_moment(&ends[0], &next) != LAPD_OK || next < now)
        next = now + below(below(10) == 0 ? 5000 : 60);
    now = next;
    for (;;) {
        uint32_t status[ENDS];
        for (int i = 0; i < ENDS; i++)
            status[i] = fall_due(&ends[i]);
        told(status, ends[0].told.line);
        if (status[0] != LAPD_OK)
            break;
        expired++;
    }
}

/* ---- What comes and goes ---------------------------------------------------------------------------------------------- */

static uint8_t tei(void) {
    static const uint8_t some[] = {64, 64, 64, 65, 66, 70, 127};
    return some[below(sizeof some)];
}

static void octet_comes(uint32_t line) {
    uint32_t status[ENDS];
    uint8_t octet = hdlc_octet(&senders[line]);
    for (int i = 0; i < ENDS; i++)
        status[i] = lapd_octet(&ends[i].card, line, octet, &ends[i].told);
    told(status, line);
}

/* A frame of octets stands between whole flags: a port that begins anew sees its first one, too. */
static void comes(uint32_t line, const uint8_t *octets, size_t length) {
    uint32_t status[ENDS];
    if (!for_octets) {
        for (int i = 0; i < ENDS; i++)
            status[i] = lapd_frame(&ends[i].card, line, octets, length, &ends[i].told);
        told(status, line);
        return;
    }
    octet_comes(line);
    octet_comes(line);
    hdlc_load(&senders[line], octets, length);
    while (hdlc_busy(&senders[line]))
        octet_comes(line);
    octet_comes(line);
    octet_comes(line);
}

static void frame_comes(void) {
    uint8_t address = (uint8_t)(tei() << 1 | 1), sapi = below(4) ? 0x00 : 0x40, nr = (uint8_t)(2 * below(5));
    uint8_t ns = (uint8_t)(2 * below(4)), poll = (uint8_t)below(2), number = (uint8_t)below(256), given = (uint8_t)(2 * below(8) + 129), type = (uint8_t)(2 + below(5));
    uint8_t from[][10] = {{sapi, address, 0x7F}, {sapi, address, 0x7F}, {sapi, address, 0x53}, {sapi | 2, address, 0x73},
                          {sapi, address, ns, nr, 1, 2}, {sapi | 2, address, 0x01, nr | poll},
                          {sapi, address, 0x01, nr | 1}, {sapi | 2, address, 0x09, nr}, {sapi | 2, address, 0x05, nr}, {sapi | 2, address, 0x1F},
                          {0xFC, 0xFF, 0x03, 0x0F, 0x12, number, 0x01, 0xFF}, {0xFC, 0xFF, 0x03, 0x0F, 1, 2, 0x05, address},
                          {0xFE, 0xFF, 0x03, 0x0F, asked[0], asked[1], 0x02, given},
                          {0xFE, 0xFF, 0x03, 0x0F, asked[0], asked[1], type, address}};
    static const size_t octets[] = {3, 3, 3, 3, 6, 4, 4, 4, 4, 3, 8, 8, 8, 8};
    unsigned which = below(sizeof octets / sizeof *octets);
    if (which < 10 && below(4) != 0) /* links stay up for a while */
        which = 10 + below(4);
    if (config.side != LAPD_NETWORK && which < 10)
        from[which][0] ^= 2;
    comes(below(LINES), from[which], octets[which]);
}

static void keep(side *at, uint32_t line, const uint8_t *octets, size_t length) {
    wants(at->given < MOST_FRAMES, "too many frames");
    frame *it = &at->frames[at->given++];
    it->line = line;
    it->length = length;
    memcpy(it->octets, octets, length);
}

/* Octets of a line are pulled until no frame has begun for as long as the longest one takes. */
static void octets_go(side *at, uint32_t line) {
    uint8_t octet;
    for (unsigned quiet = 0; quiet < QUIET; quiet++) {
        wants(lapd_pull(&at->card, line, &octet, &at->told) == LAPD_OK, "no octet");
        obeyed(at, line);
        if (hdlc_hear(&at->listeners[line], octet))
            keep(at, line, at->listeners[line].frame, at->listeners[line].length);
        if (at->told.begun)
            quiet = 0;
    }
}

static void frames_go_of(side *at) {
    uint8_t out[LAPD_MOST_FRAME];
    size_t length;
    at->given = 0;
    for (uint32_t line = 0; for_octets && line < LINES; line++)
        octets_go(at, line);
    for (uint32_t line = 0; !for_octets && lapd_next_waiting(&at->card, line, &line) == LAPD_OK;) {
        wants(lapd_next_frame(&at->card, line, out, sizeof out, &length, &at->told) == LAPD_OK, "no frame");
        obeyed(at, line);
        keep(at, line, out, length);
    }
}

static void frames_go(void) {
    for (int i = 0; i < ENDS; i++)
        frames_go_of(&ends[i]);
    wants(ends[0].given == ends[1].given, "another number of frames");
    for (unsigned i = 0; i < ends[0].given; i++) {
        const frame *one = &ends[0].frames[i], *two = &ends[1].frames[i];
        wants(one->line == two->line && one->length == two->length && memcmp(one->octets, two->octets, one->length) == 0, "another frame");
        if (one->octets[0] >> 2 == 63)
            memcpy(asked, one->octets + 4, sizeof asked);
    }
    frames += ends[0].given;
}

static void asks(uint32_t line, uint8_t request, uint8_t service, uint8_t of, size_t length) {
    static const uint8_t contents[17] = {1, 2, 3};
    uint32_t status[ENDS];
    for (int i = 0; i < ENDS; i++)
        status[i] = lapd_request_with(&ends[i].card, line, request, service, of, contents, length, &ends[i].told);
    told(status, line);
}

static void is_asked(void) {
    uint8_t request = (uint8_t)(1 + below(14)), of = tei(), service = below(4) ? LAPD_CALL : LAPD_PACKET;
    bool takes_down = request == LAPD_RELEASE || request == LAPD_REMOVE || (request >= LAPD_DEACTIVATE && request <= LAPD_DISOWN);
    if ((takes_down && below(8) != 0) || below(2) == 0)
        request = below(10) ? LAPD_DATA : LAPD_UNIT;
    uint32_t line = below(LINES);
    asks(line, request, service, of, request == LAPD_DATA || request == LAPD_UNIT ? below(18) : 0);
}

/* The other end of a link brings it up, or acknowledges. */
static void other_end(void) {
    uint8_t of = (uint8_t)(64 + below(3)), service = below(4) ? LAPD_CALL : LAPD_PACKET, state = 0;
    uint8_t response = config.side == LAPD_NETWORK ? 2 : 0, first = service == LAPD_CALL ? 0x00 : 0x40, address = (uint8_t)(of << 1 | 1);
    uint32_t line = below(LINES);
    struct lapd_room room;
    wants(lapd_state(&ends[0].card, line, service, of, &state) == LAPD_OK, "no state");
    if (state == 0) {
        asks(line, LAPD_ASSIGN, LAPD_CALL, of, 0);
    } else if (state < 7) {
        const uint8_t up[] = {(uint8_t)(first | (state == 4 ? response ^ 2 : response)), address, state == 4 ? 0x7F : 0x73};
        comes(line, up, sizeof up);
    } else {
        wants(lapd_room(&ends[0].card, line, service, of, &room) == LAPD_OK, "no room");
        uint8_t nr = (uint8_t)((room.va + (room.queue < config.queue && below(4) != 0)) % 128);
        const uint8_t rr[] = {(uint8_t)(first | response), address, 0x01, (uint8_t)(nr << 1 | (state == 8))};
        comes(line, rr, sizeof rr);
    }
}

/* ---- What the cards say of themselves --------------------------------------------------------------------------------- */

static void same_links(uint32_t line) {
    uint8_t place[ENDS] = {0};
    for (;;) {
        lapd_link link[ENDS] = {{0}};
        struct lapd_room room[ENDS];
        struct lapd_link_counters counted[ENDS];
        uint64_t changed_at[ENDS] = {0};
        uint32_t status[ENDS], since[ENDS];
        for (int i = 0; i < ENDS; i++) {
            memset(&room[i], 0, sizeof room[i]);
            memset(&counted[i], 0, sizeof counted[i]);
            status[i] = lapd_next_link(&ends[i].card, line, &place[i], &link[i]);
            if (status[i] != LAPD_OK)
                continue;
            wants(lapd_room(&ends[i].card, line, link[i].service, link[i].tei, &room[i]) == LAPD_OK
                      && lapd_link_counters(&ends[i].card, line, link[i].service, link[i].tei, &counted[i]) == LAPD_OK, "no room or counters");
            since[i] = lapd_changed_at(&ends[i].card, line, link[i].service, link[i].tei, &changed_at[i]);
            wants(since[i] == (is_timed ? LAPD_OK : LAPD_WRONG_CARD), "no moment of a change");
        }
        wants(status[0] == status[1] && memcmp(&link[0], &link[1], sizeof link[0]) == 0, "another link or state");
        if (status[0] != LAPD_OK)
            return;
        wants(memcmp(&room[0], &room[1], sizeof room[0]) == 0 && memcmp(&counted[0], &counted[1], sizeof counted[0]) == 0
                  && changed_at[0] == changed_at[1], "another room, counter of a link or moment of a change");
    }
}

static void same(void) {
    uint32_t stored[ENDS];
    uint64_t moment[ENDS] = {0};
    for (uint32_t line = 0; line < LINES; line++) {
        struct lapd_counters counters[ENDS];
        for (int i = 0; i < ENDS; i++)
            wants(lapd_counters(&ends[i].card, line, &counters[i]) == LAPD_OK, "no counters");
        wants(memcmp(&counters[0], &counters[1], sizeof counters[0]) == 0, "other counters");
        same_links(line);
    }
    wants(next_moment(&ends[0], &moment[0]) == next_moment(&ends[1], &moment[1]) && moment[0] == moment[1], "another moment");
    for (int i = 0; i < ENDS; i++)
        wants(lapd_stored(&ends[i].card, &stored[i]) == LAPD_OK, "nothing is stored");
    wants(for_octets || stored[0] == stored[1], "other octets are stored");
}

/* ---- Images ----------------------------------------------------------------------------------------------------------- */

static void save(side *at, image *to) {
    size_t most = lapd_image_octets(&config);
    wants(0 < most && most <= MOST_IMAGE, "how long an image is");
    wants(lapd_card_save(&at->card, to->octets, most, &to->length) == LAPD_OK && to->length <= most, "no save");
    to->of_clock = 0;
    if (!is_timed)
        wants(lapd_clock_save(&at->clock, to->clock, most, &to->of_clock) == LAPD_OK && to->of_clock <= most, "no save of the clock");
}

static void end(side *at) {
    may_take = true;
    wants(lapd_card_free(&at->card) == LAPD_OK && (is_timed || lapd_clock_free(&at->clock) == LAPD_OK), "no end");
    may_take = false;
}

static void restore(side *at, const image *from) {
    may_take = true;
    wants(lapd_card_restore(&at->card, from->octets, from->length) == LAPD_OK, "no restore");
    wants(lapd_card_restore(&at->card, from->octets, from->length) == LAPD_SECOND_START, "a second start");
    wants(is_timed || lapd_clock_restore(&at->clock, from->clock, from->of_clock) == LAPD_OK, "no restore of the clock");
    may_take = false;
    for (uint32_t line = 0; for_octets && line < LINES; line++) {
        lapd_head head = {1, {0}, {0}};
        wants(lapd_begun(&at->card, line, &head) == LAPD_OK && head.length == 0, "a frame has begun");
        head.length = 1;
        wants(lapd_heard(&at->card, line, &head) == LAPD_OK && head.length == 0, "a frame was heard");
        hdlc_listen(&at->listeners[line]);
    }
}

/* What was under way in the cards that were saved, each as often as it was seen: a third card tells, which ends then. */
static struct {
    unsigned timers, unacknowledged, recovering, own_busy, units, procedures;
} met;

/* Whether a request is refused so, at a line or at a TEI of it. */
static bool is_refused(lapd_card *third, uint32_t line, uint8_t request, uint8_t of, uint32_t as) {
    lapd_report told;
    return lapd_request(third, line, request, LAPD_CALL, of, (const uint8_t *)"", 0, &told) == as;
}

static void goes_all(lapd_card *third, uint32_t line) {
    uint8_t out[LAPD_MOST_FRAME];
    size_t length;
    lapd_report told;
    while (lapd_next_frame(third, line, out, sizeof out, &length, &told) == LAPD_OK)
        ;
}

static void look_at_line(lapd_card *third, uint32_t line) {
    struct lapd_room room;
    uint8_t place = 0;
    uint32_t first;
    met.units += is_refused(third, line, LAPD_UNIT, config.side == LAPD_NETWORK ? LAPD_GROUP_TEI : 64, LAPD_REFUSED_QUEUE_FULL);
    met.procedures += config.side == LAPD_TERMINAL && is_refused(third, line, LAPD_ASK_TEI, 64, LAPD_REFUSED_CHECK_RUNNING);
    for (lapd_link link; lapd_next_link(third, line, &place, &link) == LAPD_OK;) {
        wants(lapd_room(third, line, link.service, link.tei, &room) == LAPD_OK, "no room of a link");
        met.unacknowledged += room.queue < config.queue;
        met.recovering += link.state == 8;
        if (for_octets || link.state < 7 || link.service != LAPD_CALL)
            continue;
        goes_all(third, line);
        met.own_busy += !is_refused(third, line, LAPD_READY, link.tei, LAPD_REFUSED_WRONG_STATE)
                        && lapd_next_waiting(third, line, &first) == LAPD_OK && first == line;
    }
    met.procedures += config.side == LAPD_NETWORK && is_refused(third, line, LAPD_CHECK, 64, LAPD_REFUSED_CHECK_RUNNING);
}

static void look_at(const image *of) {
    lapd_card third = LAPD_CARD_NONE;
    uint64_t moment;
    may_take = true;
    wants(lapd_card_restore(&third, of->octets, of->length) == LAPD_OK, "no third card");
    met.timers += is_timed && lapd_next_moment(&third, &moment) == LAPD_OK;
    for (uint32_t line = 0; line < LINES; line++)
        look_at_line(&third, line);
    wants(lapd_card_free(&third) == LAPD_OK, "the third card does not end");
    may_take = false;
}

static bool is_same(const image *one, const image *two) {
    return one->length == two->length && memcmp(one->octets, two->octets, one->length) == 0 && one->of_clock == two->of_clock
           && memcmp(one->clock, two->clock, one->of_clock) == 0;
}

/* One card is saved, which changes nothing, and the other is restored from the image. Which is which is chance. */
static void is_restored(void) {
    static image first, again;
    side *from = &ends[below(ENDS)], *to = from == ends ? ends + 1 : ends;
    save(from, &first);
    for (size_t i = 0; i < first.length + first.of_clock; i++)
        sum = (sum ^ (i < first.length ? first.octets[i] : first.clock[i - first.length])) * 1099511628211u;
    save(from, &again);
    wants(is_same(&first, &again), "a save has changed something");
    end(to);
    restore(to, &first);
    save(to, &again);
    wants(is_same(&first, &again), "the image of a restored card is another");
    restored++;
    same();
    look_at(&first);
}

/* With less room, without a card, and without memory. */
static void wrong_calls(void) {
    static image kept;
    uint8_t small[1] = {7};
    size_t length = 77;
    lapd_card none = LAPD_CARD_NONE;
    lapd_clock no_clock = LAPD_CLOCK_NONE;
    lapd_config bad = config;
    bad.n201 = 7;
    save(&ends[0], &kept);
    wants(lapd_image_octets(&bad) == 0, "how long an image of no card is");
    wants(lapd_card_save(&none, small, 1, &length) == LAPD_NO_CARD && lapd_clock_save(&no_clock, small, 1, &length) == LAPD_NO_CLOCK, "no card");
    wants(lapd_card_save(&ends[0].card, small, 1, &length) == LAPD_WRONG_LENGTH, "a small room");
    wants(is_timed || lapd_clock_save(&ends[0].clock, small, 1, &length) == LAPD_WRONG_LENGTH, "a small room for a clock");
    wants(small[0] == 7 && length == 77, "a wrong call has written something");
    may_take = true;
    wants(lapd_card_restore(&none, kept.octets, 0) == LAPD_BAD_IMAGE && lapd_clock_restore(&no_clock, kept.octets, 0) == LAPD_BAD_IMAGE, "no octets");
    wants(lapd_clock_restore(&no_clock, kept.octets, kept.length) == LAPD_BAD_IMAGE, "a card for a clock");
    wants(is_timed || lapd_card_restore(&none, kept.clock, kept.of_clock) == LAPD_BAD_IMAGE, "a clock for a card");
    long before = blocks, turn = 0;
    uint32_t status = LAPD_NO_MEMORY;
    for (; status == LAPD_NO_MEMORY; turn++) {
        refused_at = turn;
        status = lapd_card_restore(&none, kept.octets, kept.length);
        wants(status == LAPD_OK || (status == LAPD_NO_MEMORY && !none.started && blocks == before), "memory that is refused");
    }
    refused_at = -1;
    wants(status == LAPD_OK && turn > 1 && lapd_card_free(&none) == LAPD_OK && blocks == before, "memory that is given back");
    may_take = false;
}

/* ---- A run ------------------------------------------------------------------------------------------------------------ */

static void starts(void) {
    may_take = true;
    for (side *at = ends; at < ends + ENDS; at++) {
        uint32_t status = for_octets ? is_timed ? lapd_card_start_timed(&at->card, &config, &lengths) : lapd_card_start(&at->card, &config)
                          : is_timed ? lapd_card_start_frames_timed(&at->card, &config, &lengths) : lapd_card_start_frames(&at->card, &config);
        wants(status == LAPD_OK, "no start");
        wants(is_timed || (lapd_clock_start(&at->clock, &config) == LAPD_OK
              && lapd_clock_set_lengths(&at->clock, lengths.t200, lengths.t203, lengths.t201, lengths.t202) == LAPD_OK), "no clock");
        for (uint32_t line = 0; line < LINES; line++)
            hdlc_listen(&at->listeners[line]);
    }
    may_take = false;
    for (uint32_t line = 0; line < LINES; line++)
        hdlc_begin(&senders[line]);
}

static void happens(void) {
    switch (below(10)) {
    case 0: time_goes_on(); break;
    case 1: case 2: frame_comes(); break;
    case 3: case 4: other_end(); break;
    case 5: frames_go(); break;
    default: is_asked();
    }
}

static bool has_word(int words, char **word, const char *wanted) {
    for (int i = 2; i < words; i++)
        if (strcmp(word[i], wanted) == 0)
            return true;
    return false;
}

int main(int words, char **word) {
    seed = words > 1 ? strtoul(word[1], NULL, 10) : 1;
    for_octets = has_word(words, word, "octets");
    is_timed = has_word(words, word, "timed");
    config.side = has_word(words, word, "user") ? LAPD_USER : has_word(words, word, "terminal") ? LAPD_TERMINAL : LAPD_NETWORK;
    config.reading = has_word(words, word, "annex") ? LAPD_ANNEX_B : LAPD_PROFILE;
    starts();
    is_restored();
    for (unsigned turn = 0; turn < TURNS; turn++) {
        happens();
        if (below(20) == 0)
            is_restored();
    }
    wrong_calls();
    if (has_word(words, word, "told"))
        printf("restored %u, expired %u, frames %u, reopened %u; saved with timers %u, unacknowledged contents %u, in state 8 %u, own busy %u, unit data %u, procedures %u\n",
               restored, expired, frames, reopened, met.timers, met.unacknowledged, met.recovering, met.own_busy, met.units, met.procedures);
    wants(restored > 300 && expired > 200 && frames > 500 && reopened > 10 && (met.timers > 300 || !is_timed), "too little has happened");
    wants(met.unacknowledged > 500 && met.recovering > 300 && met.units > 5 && (met.own_busy > 50 || for_octets)
              && (met.procedures > 20 || config.side == LAPD_USER), "too little was under way");
    printf("sum %016" PRIX64 "\n", sum);
    end(&ends[0]);
    end(&ends[1]);
    wants(blocks == 0, "blocks are left");
    return 0;
}
