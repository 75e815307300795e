/*
 * judged.c: cards of lapd.h against the kernel's layer 2, in a virtual machine. In each run both layers 3, which are
 * here, do what its seed says for 33 s, while frames are lost; then 24 s pass without losses, and what is so then is
 * judged, too. l1oip takes layer 1 down 65 s after its first packet, whatever comes, so it is loaded anew for each run.
 *
 *     judged from=SEED to=SEED [NAME=NUMBER..]
 *
 * plan.h has the names; faults.h, what is a fault. A line for each run: `good` or `BAD`, and what was; after BAD come the lines of
 * its log up to the first fault. In the end `N good, M bad`. A seed is the same run in kind, not to the millisecond. For
 * tests/kernel/run alone.
 */
#include <stdio.h>
#include <stdlib.h>
#include <string.h>

#include "acts.h"
#include "cards.h"
#include "chance.h"
#include "faults.h"
#include "kernel.h"
#include "l1oip.h"
#include "machine.h"
#include "plan.h"
#include "streams.h"
#include "wires.h"

enum { ACT_MS = 33000, END_MS = 57000 };

/* ---- What is so in the end ---------------------------------------------------------------------------------------- */

static bool is_up_at_ours(int service, int tei) {
    for (int card = 0; card < card_count; card++)
        if (our_link_at(card, service, tei)->is_up)
            return true;
    return false;
}

static bool is_up_at_kernel(int service, int tei) {
    for (int i = 0; i < kernel_link_count; i++) {
        const kernel_link *it = &kernel_links[i];
        if (it->is_up && !it->is_gone && it->tei == tei && it->service == service)
            return true;
    }
    return false;
}

static void end_of_kernel_link(int number) {
    const kernel_link *link = &kernel_links[number];
    if (plan.side == KERNEL_NT && (link->channel == 0 || link->is_gone))
        return;
    if (link->is_establishing || link->is_releasing)
        fault(FAULT_STUCK, "kernel %d tei %d: %s is not answered", number, link->tei,
              link->is_establishing ? "establish" : "release");
    if (!link->is_up)
        return;
    if (link->tei == GROUP || !is_up_at_ours(link->service, link->tei))
        fault(FAULT_STATES_DIFFER, "kernel %d tei %d is up, ours is not", number, link->tei);
    for (int i = 0; i < number; i++)
        if (kernel_links[i].is_up && kernel_links[i].tei == link->tei && kernel_links[i].service == link->service)
            fault(FAULT_TEI_TWICE, "kernel %d and %d: tei %d", number, i, link->tei);
}

static void end_of_our_link(int card, const lapd_link *at) {
    int service = at->service == LAPD_PACKET;
    const our_link *link = our_link_at(card, service, at->tei);
    if (link->is_establishing || link->is_releasing)
        fault(FAULT_STUCK, "ours %d tei %d: %s is not answered", card, at->tei, link->is_establishing ? "establish" : "release");
    else if ((at->state >= 7) != link->is_up)
        fault(FAULT_OUR_NOTE, "tei %d is in state %d, but was told %s", at->tei, at->state, link->is_up ? "up" : "down");
    if (link->is_up && !is_up_at_kernel(service, at->tei))
        fault(FAULT_STATES_DIFFER, "ours %d tei %d is up, the kernel's is not", card, at->tei);
    uint8_t state = 0;
    for (int other = 0; plan.side == KERNEL_NT && service == CALLS && other < card; other++)
        if (lapd_state(card_at(other), 0, LAPD_CALL, at->tei, &state) == LAPD_OK && state != 0)
            fault(FAULT_TEI_TWICE, "ours %d and %d: tei %d", other, card, at->tei);
}

static stream_counts end_of_all(void) {
    stream_counts counts = streams_end(plan.loss == 0 && !plan.remove && !plan.restart && !plan.layer1);
    for (int i = 0; i < kernel_link_count; i++)
        end_of_kernel_link(i);
    for (int card = 0; card < card_count; card++) {
        uint8_t place = 0;
        for (lapd_link at; lapd_next_link(card_at(card), 0, &place, &at) == LAPD_OK;)
            end_of_our_link(card, &at);
    }
    return counts;
}

/* ---- A run -------------------------------------------------------------------------------------------------------- */

static void print_run(unsigned seed, const stream_counts *it) {
    wire_counts frames = wires_count();
    printf("%s seed=%u ", faults() == 0 ? "good" : "BAD", seed);
    plan_print(stdout);
    printf(": messages %u in %u out %u given up, units %u of %u, frames %u out %u in %u lost, assigned %u removed %u+%u "
           "restarts %u checks %u collisions %u doubled %u/%u refused %u down %u, errors",
           it->in, it->out, it->lost, it->units_got, it->units, frames.sent, frames.heard, frames.lost, our_counts.assigned,
           our_counts.removed, our_counts.removals, our_counts.restarts, our_counts.checks, acts_collisions(), our_counts.doubled,
           kernel_doubled(), our_counts.refusals, kernel_deactivations());
    for (int letter = 'A'; letter <= 'O'; letter++)
        if (our_counts.errors[letter] > 0)
            printf(" %c%u", letter, our_counts.errors[letter]);
    faults_print();
    printf("\n");
    if (plan.log > 0)
        faults_show_log((unsigned)plan.log);
    else if (faults() > 0)
        faults_show_log(0);
}

/* What is due at this moment, and what comes until then. */
static void serve(int patience) {
    cards_serve(patience);
    kernel_read();
    clear_doubts();
}

/* How long it is until something happens again: most often not long. */
static unsigned pause(void) {
    return chance(10) ? chance(60) : chance(10) ? chance(1000) : chance(12000);
}

static void act(void) {
    for (uint64_t next = now(); now() < ACT_MS;) {
        uint64_t time = now();
        serve(next > time ? (int)(next - time) : 0);
        end_busy(false);
        if (now() < next)
            continue;
        if (chance(2))
            kernel_acts();
        else
            ours_acts();
        next = now() + pause();
    }
}

static void settle(void) {
    wires_settle();
    end_busy(true);
    note("settling");
    while (now() < END_MS)
        serve(100);
}

/* The kernel's sockets are there before the first frame of ours comes. */
static void begin(unsigned seed) {
    streams_begin(seed);
    acts_begin();
    faults_begin();
    machine_wait(300);
    wires_open();
    machine_wait(20);
    kernel_open();
    machine_wait(20);
    kernel_read();
    cards_begin();
}

/* Plays the run of a seed; whether it was without a fault. False in *goes_on: there can be no other. */
static bool play(unsigned seed, bool *goes_on) {
    plan_choose(seed);
    *goes_on = l1oip_load((unsigned)plan.devs * (plan.layer1 ? 2 : 1), is_primary(), plan.layer1);
    if (!*goes_on)
        return false;
    begin(seed);
    act();
    settle();
    stream_counts counts = end_of_all();
    print_run(seed, &counts);
    kernel_close();
    cards_free();
    machine_wait(200);
    wires_close();
    *goes_on = l1oip_unload();
    return faults() == 0;
}

int main(int words, char **word) {
    unsigned from = 1, to = 1, good = 0, bad = 0;
    bool goes_on = true;
    setvbuf(stdout, NULL, _IOLBF, 0);
    for (int i = 1; i < words; i++)
        if (strncmp(word[i], "from=", 5) == 0)
            from = (unsigned)atoi(word[i] + 5);
        else if (strncmp(word[i], "to=", 3) == 0)
            to = (unsigned)atoi(word[i] + 3);
        else if (!plan_word(word[i]))
            printf("judged: what is %s?\n", word[i]);
    for (unsigned seed = from; goes_on && seed <= to; seed++)
        *(play(seed, &goes_on) ? &good : &bad) += 1;
    printf("%u good, %u bad\n", good, bad);
    return bad != 0;
}
