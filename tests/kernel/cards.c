/* cards.c: our cards, and what their layer 3 knows of their links. See cards.h. */
#define _GNU_SOURCE

#include "cards.h"

#include <poll.h>
#include <string.h>

#include "chance.h"
#include "faults.h"
#include "kernel.h"
#include "plan.h"
#include "streams.h"
#include "wires.h"

enum { SPOILED_OF = 60 };

card_counts our_counts;
int card_count;

static struct {
    lapd_card card;
    uint64_t start; /* its moment 0 */
    our_link links[SERVICES][TEIS];
    int doubt;
    bool is_asking;
} cards[MOST_CARDS];

lapd_card *card_at(int card) {
    return &cards[card].card;
}

our_link *our_link_at(int card, int service, int tei) {
    return &cards[card].links[service][tei];
}

uint8_t lapd_service(int service) {
    return service == PACKETS ? LAPD_PACKET : LAPD_CALL;
}

int *card_doubt(int card) {
    return &cards[card].doubt;
}

bool *card_is_asking(int card) {
    return &cards[card].is_asking;
}

static void need(bool is_so, fault_kind kind, const char *what, int tei) {
    if (!is_so)
        fault(kind, "%s, tei %d", what, tei);
}

static void need_ok(uint32_t status, const char *call) {
    if (status != LAPD_OK)
        fault(FAULT_STATUS, "%s: %s", call, lapd_status_text(status));
}

/* ---- What a card tells -------------------------------------------------------------------------------------------- */

/* The judge is told of data, spoiled if the plan says so: then it has to say so. */
static void data_is_told(int service, int tei, const lapd_report *report) {
    uint8_t octets[LAPD_MOST_OCTETS];
    memcpy(octets, report->contents, report->length);
    bool is_spoiled = plan.spoil != 0 && chance(SPOILED_OF) == 0;
    if (is_spoiled && plan.spoil == SPOILED_LEFT_OUT)
        return;
    if (is_spoiled && plan.spoil == SPOILED_CHANGED)
        octets[0] ^= 1;
    data_came(TO_OURS, service, tei, octets, report->length, kernel_read);
    if (is_spoiled && plan.spoil == SPOILED_TWICE)
        data_came(TO_OURS, service, tei, octets, report->length, kernel_read);
}

/* A note of a link. */
static void link_is_told(int card, const lapd_note *it, const lapd_report *report) {
    int service = it->service == LAPD_PACKET, tei = it->tei;
    our_link *link = our_link_at(card, service, tei);
    switch (it->note) {
    case LAPD_ESTABLISH_CONFIRM:
        need(link->is_establishing, FAULT_OUR_NOTE, "a confirm that was not asked for", tei);
        link->is_establishing = false;
        link->is_up = true;
        streams_told(TO_KERNEL, service, tei);
        break;
    case LAPD_ESTABLISH_INDICATION:
        link->is_up = true;
        streams_told(TO_KERNEL, service, tei);
        break;
    case LAPD_RELEASE_INDICATION:
    case LAPD_RELEASE_CONFIRM:
        need(it->note == LAPD_RELEASE_CONFIRM || link->is_up || link->is_establishing, FAULT_OUR_NOTE,
             "a release indication of a link that is down", tei);
        need(it->note == LAPD_RELEASE_INDICATION || link->is_releasing, FAULT_OUR_NOTE, "a release confirm that was not asked for",
             tei);
        link->is_up = link->is_establishing = link->is_releasing = false;
        streams_told(TO_KERNEL, service, tei);
        break;
    case LAPD_DATA_INDICATION:
        need(link->is_up, FAULT_OUR_NOTE, "data of a link that is down", tei);
        link->view.vr = (link->view.vr + 1) & 127;
        data_is_told(service, tei, report);
        break;
    default: break;
    }
}

static void unit_is_told(int card, const lapd_note *it, const lapd_report *report) {
    if (it->tei == GROUP)
        group_unit_came(TO_OURS, CALLS, card, report->contents, report->length);
    else
        unit_came(TO_OURS, it->service == LAPD_PACKET, it->tei, report->contents, report->length);
}

/* A note of TEI management. */
static void tei_is_told(int card, const lapd_note *it) {
    our_counts.assigned += it->note == LAPD_ASSIGNED;
    our_counts.removed += it->note == LAPD_REMOVED;
    our_counts.doubled += it->note == LAPD_DOUBLED;
    cards[card].is_asking = false;
    need(it->note != LAPD_DOUBLED || is_a_tei_twice(), FAULT_TEI_TWICE, "told doubled, but one terminal has it", it->tei);
    for (int service = 0; it->note == LAPD_ASSIGNED && service < SERVICES; service++)
        memset(our_link_at(card, service, it->tei), 0, sizeof(our_link));
}

static void note_is_told(int card, const lapd_note *it, const lapd_report *report) {
    note("   ours %d: %s%c tei %u", card, lapd_note_text(it), it->error != 0 ? it->error : ' ', it->tei);
    our_counts.errors[it->error & 127] += it->error != 0;
    if (it->error != 0 && strchr("CDGH", it->error) != NULL)
        cards[card].doubt = it->tei;
    switch (it->note) {
    case LAPD_UNIT_INDICATION: unit_is_told(card, it, report); break;
    case LAPD_ASSIGNED:
    case LAPD_UNASSIGNED:
    case LAPD_DOUBLED:
    case LAPD_REMOVED: tei_is_told(card, it); break;
    default: link_is_told(card, it, report); break;
    }
}

static void tell(int card, const lapd_report *report) {
    for (unsigned i = 0; i < report->note_count; i++)
        note_is_told(card, &report->notes[i], report);
    if (report->cause != 0)
        note("   ours %d: dropped, %s", card, lapd_cause_text(report->cause));
    if (report->lost != 0)
        fault(FAULT_OUR_FRAME, "%u frames found no room to wait", report->lost);
}

/* ---- Frames ------------------------------------------------------------------------------------------------------- */

/* The frames that wait go, as layer 1 has room. */
static void give(int card) {
    uint8_t frame[LAPD_MOST_FRAME];
    lapd_report report;
    int service, tei;
    for (size_t length; !wires_are_full()
                        && lapd_next_frame(&cards[card].card, 0, frame, sizeof frame, &length, &report) == LAPD_OK;) {
        tell(card, &report);
        sent_goes(sent_is_of_link(frame, length, &service, &tei) ? &our_link_at(card, service, tei)->view : NULL, frame, length);
        wires_send(frame, length, kernel_is_reached);
    }
}

static void give_all(void) {
    for (int card = 0; card < card_count; card++)
        give(card);
}

static uint8_t state_of(int card, int service, int tei) {
    uint8_t state = 0;
    need_ok(lapd_state(&cards[card].card, 0, lapd_service(service), (uint8_t)tei, &state), "state");
    return state;
}

static void take(int card, int wire, const uint8_t *frame, size_t length) {
    lapd_report report;
    int service, tei;
    card_pass(card);
    if (wires_lose_heard(wire, frame, length))
        return;
    bool is_of_link = sent_is_of_link(frame, length, &service, &tei);
    link_view *view = is_of_link ? &our_link_at(card, service, tei)->view : NULL;
    if (is_of_link)
        sent_comes(view, state_of(card, service, tei), frame, length);
    uint32_t status = lapd_frame(&cards[card].card, 0, frame, length, &report);
    need_ok(status, "frame");
    if (status != LAPD_OK)
        return;
    if (is_of_link)
        sent_came(view, state_of(card, service, tei), frame, length);
    tell(card, &report);
    give(card);
}

/* A frame of the kernel's comes to each of our cards. */
static void take_at_all(int wire, const uint8_t *frame, size_t length) {
    kernel_sends(frame, length);
    for (int card = 0; card < card_count; card++)
        take(card, wire, frame, length);
}

void card_pass(int card) {
    lapd_report report;
    uint32_t status;
    while ((status = lapd_fall_due(&cards[card].card, now() - cards[card].start, &report)) == LAPD_OK)
        tell(card, &report);
    need_ok(status == LAPD_NO_TIMER ? LAPD_OK : status, "fall due");
    give(card);
}

bool card_asked(int card, uint32_t status, const lapd_report *report, const char *what) {
    if (status == LAPD_OK) {
        tell(card, report);
    } else {
        our_counts.refusals++;
        note("   ours %d: %s is refused: %s", card, what, lapd_status_text(status));
    }
    give(card);
    return status == LAPD_OK;
}

/* How long no timer of ours falls due, at most so long. */
static int shorter(int patience) {
    uint64_t moment;
    for (int card = 0; card < card_count; card++) {
        card_pass(card);
        if (lapd_next_moment(&cards[card].card, &moment) != LAPD_OK)
            continue;
        int64_t until = (int64_t)(moment + cards[card].start) - (int64_t)now();
        patience = until < patience ? (int)(until < 0 ? 0 : until) : patience;
    }
    return patience;
}

void cards_serve(int patience) {
    struct pollfd files[MOST_WIRES + MOST_KERNEL_LINKS];
    nfds_t count = 0;
    patience = shorter(patience);
    for (int wire = 0; wire < plan.devs; wire++)
        files[count++] = (struct pollfd){.fd = wires_file(wire), .events = POLLIN};
    for (int i = 0; i < kernel_files(); i++)
        files[count++] = (struct pollfd){.fd = kernel_links[i].file, .events = POLLIN};
    if (poll(files, count, patience) > 0)
        wires_read(take_at_all, give_all);
}

/* ---- Start and end ------------------------------------------------------------------------------------------------ */

static lapd_config config_of(void) {
    lapd_config config = LAPD_BASIC_ACCESS;
    config.k = config.k16 = (uint16_t)plan.k;
    config.queue = 10;
    config.unit_queue = 8;
    config.control = 8;
    config.slots = 100;
    config.side = ours_is_network() ? LAPD_NETWORK : plan.side == KERNEL_NT && !plan.fixed ? LAPD_TERMINAL : LAPD_USER;
    if (plan.side == KERNEL_NT) {
        config.terminals = 1;
        config.seed = (uint16_t)chance(65536);
    }
    return config;
}

/* The TEIs that no message assigns, and those of before. */
static void begin_teis(int card) {
    lapd_card *own = &cards[card].card;
    lapd_report report;
    if (is_primary())
        need_ok(lapd_assign(own, 0, 0, &report), "assign");
    for (int i = 0; plan.fixed && i < (plan.side == KERNEL_TE ? plan.terms : 1); i++)
        need_ok(lapd_assign(own, 0, (uint8_t)(FIRST_FIXED_TEI + card + i), &report), "assign");
    for (int times = 0; plan.side == KERNEL_TE && !plan.fixed && times < 3; times++) /* some may be lost */
        need_ok(lapd_disown(own, 0, LAPD_GROUP_TEI, &report), "disown");
}

void card_start(int card) {
    static const lapd_lengths lengths = LAPD_DEFAULT_LENGTHS;
    lapd_config config = config_of();
    need_ok(lapd_card_start_frames_timed(&cards[card].card, &config, &lengths), "start");
    cards[card].start = now();
    cards[card].is_asking = false;
    cards[card].doubt = 0;
    memset(cards[card].links, 0, sizeof cards[card].links);
    card_pass(card);
    begin_teis(card);
    give(card);
}

void cards_begin(void) {
    memset(&our_counts, 0, sizeof our_counts);
    card_count = plan.side == KERNEL_NT ? plan.terms : 1;
    for (int card = 0; card < card_count; card++)
        card_start(card);
}

void cards_free(void) {
    for (int card = 0; card < card_count; card++)
        need_ok(lapd_card_free(&cards[card].card), "free");
}
