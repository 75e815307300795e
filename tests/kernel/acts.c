/* acts.c: what both layers 3, and management, do at random. See acts.h. */
#include "acts.h"

#include <string.h>

#include "cards.h"
#include "chance.h"
#include "faults.h"
#include "kernel.h"
#include "misdn.h"
#include "plan.h"
#include "streams.h"

enum { MOST_LINKS = 16, MOST_BUSY_MS = 6000 };

static unsigned collisions;

unsigned acts_collisions(void) {
    return collisions;
}

void acts_begin(void) {
    collisions = 0;
}

/* ---- The kernel's ------------------------------------------------------------------------------------------------- */

static void kernel_establishes(kernel_link *link) {
    link->is_establishing = true;
    streams_told(TO_OURS, link->service, link->tei);
    kernel_ask(link, MISDN_ESTABLISH, NULL, 0);
}

static void kernel_releases(kernel_link *link) {
    link->is_releasing = true;
    streams_told(TO_OURS, link->service, link->tei);
    kernel_ask(link, MISDN_RELEASE, NULL, 0);
}

/* A link that is down: it is established, and with `pending` released before it is up. */
static void kernel_acts_down(kernel_link *link, unsigned dice) {
    bool has_none = plan.side == KERNEL_NT && link->tei == GROUP;
    if (link->is_establishing || link->is_releasing || dice >= 50 || has_none)
        return;
    kernel_establishes(link);
    if (plan.pending && link->tei != GROUP && chance(3) == 0)
        kernel_releases(link);
}

static void kernel_sends_data(kernel_link *link) {
    uint8_t octets[LONGEST_MESSAGE];
    for (unsigned i = 1 + chance(6); i > 0; i--)
        kernel_ask(link, MISDN_DATA, octets, data_to_send(TO_OURS, link->service, link->tei, octets));
}

/* The network of a basic access sends unit data to all; a terminal to its network. */
static void kernel_sends_unit(kernel_link *link) {
    uint8_t octets[LONGEST_MESSAGE];
    if (plan.side == KERNEL_NT)
        kernel_ask_group(octets, unit_to_send(TO_OURS, CALLS, GROUP, octets));
    else if (plan.side != KERNEL_NT_E1 && link->tei != GROUP)
        kernel_ask(link, MISDN_UNIT, octets, unit_to_send(TO_OURS, link->service, link->tei, octets));
}

void kernel_acts(void) {
    if (kernel_link_count == 0)
        return;
    kernel_link *link = &kernel_links[chance((unsigned)kernel_link_count)];
    if (plan.side == KERNEL_NT && (link->channel == 0 || link->is_gone))
        return;
    unsigned dice = chance(100);
    if (!link->is_up)
        kernel_acts_down(link, dice);
    else if (link->is_establishing || link->is_releasing)
        return;
    else if (dice < 70)
        kernel_sends_data(link);
    else if (dice < 75 && plan.release)
        kernel_releases(link);
    else if (dice < 78 && plan.release)
        kernel_establishes(link);
    else if (dice < 90)
        kernel_sends_unit(link);
}

/* ---- Ours: a link ------------------------------------------------------------------------------------------------- */

/* At times the kernel is asked for the same link at the same time. */
static void kernel_too(int service, int tei) {
    for (int i = 0; i < kernel_link_count; i++) {
        kernel_link *link = &kernel_links[i];
        bool is_free = !link->is_up && !link->is_establishing && !link->is_releasing;
        if (chance(2) == 0 || link->service != service || link->tei != tei || !is_free)
            continue;
        collisions++;
        link->is_establishing = true;
        kernel_ask(link, MISDN_ESTABLISH, NULL, 0);
    }
}

static void ours_establishes(int card, const lapd_link *at) {
    lapd_report report;
    int service = at->service == LAPD_PACKET;
    our_link *link = our_link_at(card, service, at->tei);
    uint32_t status = lapd_establish(card_at(card), 0, at->service, at->tei, &report);
    if (status == LAPD_OK) {
        note("   ours %d: establish request, tei %d", card, at->tei);
        link->is_establishing = true;
        sent_link_is_asked(&link->view);
        streams_told(TO_KERNEL, service, at->tei);
    }
    if (card_asked(card, status, &report, "establish"))
        kernel_too(service, at->tei);
}

static void ours_releases(int card, const lapd_link *at) {
    lapd_report report;
    int service = at->service == LAPD_PACKET;
    our_link *link = our_link_at(card, service, at->tei);
    uint32_t status = lapd_release(card_at(card), 0, at->service, at->tei, &report);
    if (status == LAPD_OK) {
        note("   ours %d: release request, tei %d", card, at->tei);
        link->is_releasing = true;
        sent_link_is_asked(&link->view);
        streams_told(TO_KERNEL, service, at->tei);
    }
    card_asked(card, status, &report, "release");
}

static void ours_sends_data(int card, const lapd_link *at) {
    lapd_report report;
    uint8_t octets[LONGEST_MESSAGE];
    int service = at->service == LAPD_PACKET;
    for (unsigned i = 1 + chance(8); i > 0; i--) {
        size_t length = data_to_send(TO_KERNEL, service, at->tei, octets);
        uint32_t status = lapd_data(card_at(card), 0, at->service, at->tei, octets, length, &report);
        if (status != LAPD_OK)
            data_unsent(TO_KERNEL, service, at->tei);
        if (status == LAPD_REFUSED_QUEUE_FULL || status == LAPD_REFUSED_POOL_FULL || !card_asked(card, status, &report, "data"))
            return;
    }
}

static void ours_sends_unit(int card, const lapd_link *at) {
    lapd_report report;
    uint8_t octets[LONGEST_MESSAGE];
    int service = at->service == LAPD_PACKET, tei = plan.side == KERNEL_TE && !service && chance(2) ? GROUP : at->tei;
    size_t length = unit_to_send(TO_KERNEL, service, tei, octets);
    uint32_t status = lapd_unit(card_at(card), 0, at->service, (uint8_t)tei, octets, length, &report);
    if (status != LAPD_OK)
        unit_unsent(TO_KERNEL, service, tei);
    card_asked(card, status, &report, "unit data");
}

static void ours_is_busy(int card, const lapd_link *at) {
    lapd_report report;
    our_link *link = our_link_at(card, at->service == LAPD_PACKET, at->tei);
    uint32_t status = lapd_busy(card_at(card), 0, at->service, at->tei, &report);
    if (status == LAPD_OK) {
        note("   ours %d: busy, tei %d", card, at->tei);
        link->is_busy = true;
        link->ready_at = now() + chance(MOST_BUSY_MS);
    }
    card_asked(card, status, &report, "busy");
}

static void ours_acts_at(int card, const lapd_link *at) {
    our_link *link = our_link_at(card, at->service == LAPD_PACKET, at->tei);
    unsigned dice = chance(100);
    if (link->is_establishing || link->is_releasing)
        return;
    if (at->state == 4 && dice < 30)
        ours_establishes(card, at);
    else if (!link->is_up)
        return;
    else if (dice < 60)
        ours_sends_data(card, at);
    else if (dice < 65 && plan.release)
        ours_releases(card, at);
    else if (dice < 80)
        ours_sends_unit(card, at);
    else if (dice < 86 && plan.busy && !link->is_busy)
        ours_is_busy(card, at);
}

/* ---- Ours: management --------------------------------------------------------------------------------------------- */

static void ours_asks_for_tei(int card) {
    lapd_report report;
    *card_is_asking(card) = card_asked(card, lapd_ask_tei(card_at(card), 0, &report), &report, "ask");
}

/* The network checks a TEI; a terminal verifies its own. */
static uint32_t check(int card, int tei) {
    lapd_report report;
    lapd_card *own = card_at(card);
    uint8_t request = ours_is_network() ? LAPD_CHECK : LAPD_VERIFY_TEI;
    uint32_t status = lapd_request_with(own, 0, request, LAPD_CALL, (uint8_t)tei, NULL, 0, &report);
    if (status == LAPD_REFUSED_CHECK_RUNNING)
        return status;
    note("   ours %d: %s tei %d", card, ours_is_network() ? "check" : "verify", tei);
    our_counts.checks += card_asked(card, status, &report, "check");
    return status;
}

static void ours_removes(int card, int tei) {
    lapd_report report;
    uint32_t status = lapd_remove(card_at(card), 0, (uint8_t)tei, &report);
    note("   ours %d: remove request, tei %d", card, tei);
    for (int service = 0; status == LAPD_OK && service < SERVICES; service++)
        streams_told(TO_KERNEL, service, tei);
    if (!card_asked(card, status, &report, "remove"))
        return;
    our_counts.removals++;
    for (int service = 0; service < SERVICES; service++)
        memset(our_link_at(card, service, tei), 0, sizeof(our_link));
}

/* Our network ends, and another card begins, which knows nothing. */
static void ours_restarts(int card) {
    note("   ours: restart");
    our_counts.restarts++;
    cards_free();
    for (int it = 0; it < SERVICES * TEIS; it++)
        streams_told(TO_KERNEL, it % SERVICES, it / SERVICES);
    card_start(card);
}

static bool is_kernel_link(const lapd_link *at) {
    for (int i = 0; i < kernel_link_count; i++)
        if (kernel_links[i].service == (at->service == LAPD_PACKET) && kernel_links[i].tei == at->tei)
            return true;
    return false;
}

/* The links of a card that the kernel serves. */
static int links_of(int card, lapd_link *links) {
    uint8_t place = 0;
    int count = 0;
    for (lapd_link at; count < MOST_LINKS && lapd_next_link(card_at(card), 0, &place, &at) == LAPD_OK;) {
        bool is_call = at.service == LAPD_CALL;
        if (plan.side == KERNEL_NT ? is_call || (plan.sapi16 && plan.fixed) : (is_primary() && is_call) || is_kernel_link(&at))
            links[count++] = at;
    }
    return count;
}

void ours_acts(void) {
    int card = (int)chance((unsigned)card_count);
    unsigned dice = chance(100);
    lapd_link links[MOST_LINKS];
    card_pass(card);
    int count = links_of(card, links);
    bool is_network = plan.side == KERNEL_TE, is_terminal = plan.side == KERNEL_NT;
    if (is_terminal && count == 0 && !*card_is_asking(card) && !plan.fixed)
        ours_asks_for_tei(card);
    else if (is_network && plan.audit && dice < 4 && count > 0)
        check(card, links[chance((unsigned)count)].tei);
    else if (is_terminal && plan.audit && dice < 3 && count > 0)
        check(card, links[0].tei);
    else if (plan.remove && dice < 6 && count > 0 && !is_primary())
        ours_removes(card, links[chance((unsigned)count)].tei);
    else if (plan.restart && dice < 8 && chance(6) == 0 && !is_terminal)
        ours_restarts(card);
    else if (count > 0)
        ours_acts_at(card, &links[chance((unsigned)count)]);
}

/* ---- What is due -------------------------------------------------------------------------------------------------- */

void clear_doubts(void) {
    for (int card = 0; card < card_count; card++) {
        int *doubt = card_doubt(card), tei = *doubt;
        if (tei == 0 || is_primary() || plan.fixed)
            continue;
        card_pass(card);
        if (check(card, tei) != LAPD_REFUSED_CHECK_RUNNING && *doubt == tei)
            *doubt = 0;
    }
}

static void is_ready(int card, int service, int tei) {
    lapd_report report;
    card_pass(card);
    our_link_at(card, service, tei)->is_busy = false;
    note("   ours %d: ready, tei %d", card, tei);
    uint32_t status = lapd_ready(card_at(card), 0, lapd_service(service), (uint8_t)tei, &report);
    card_asked(card, status, &report, "ready");
}

void end_busy(bool all) {
    for (int it = 0; it < card_count * SERVICES * TEIS; it++) {
        int card = it / (SERVICES * TEIS), service = it / TEIS % SERVICES, tei = it % TEIS;
        const our_link *link = our_link_at(card, service, tei);
        if (link->is_busy && (all || now() >= link->ready_at))
            is_ready(card, service, tei);
    }
}
