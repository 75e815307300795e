/* dearest_scenes.c: see dearest.h. */
#include "dearest.h"

#include <stdio.h>

/* ---- Links ------------------------------------------------------------------------------------------------------------------------ */

static link_scene scenes[LINKS];

static void fill(unsigned link, filling to) {
    const unsigned times = to == EMPTY ? 0 : to == ONE ? 1 : config.queue;
    for (unsigned time = 0; time < times; time++)
        wants(asks_to_send(link) == LAPD_OK, "nothing is to be sent");
    if (to == REFUSED)
        wants(asks_to_send(link) == LAPD_REFUSED_QUEUE_FULL, "a queue has room");
}

/* To state 8: T200 expires, which runs since contents were sent. They are acknowledged if none is wanted. */
static bool recovers(unsigned link) {
    return scenes[link].state == 8;
}

static void empty(unsigned link) {
    if (recovers(link) && scenes[link].filled == EMPTY)
        hears(link, true, 0x01, 2 * ++va[link]);
}

/* From state 7 to another. */
static void turn(unsigned link) {
    const link_scene *to = &scenes[link];
    const uint8_t service = service_of(link), tei = teis[link / 2];
    if (to->state == 4 || (to->state == 5 && !to->is_begun_anew))
        hears(link, true, 0x53, -1);
    if (to->state == 5 && to->is_begun_anew)
        hears(link, false, 0x0F, -1);
    else if (to->state == 5)
        wants(lapd_establish(&card, 0, service, tei, &report) == LAPD_OK, "no establishment");
    if (to->state == 6)
        wants(lapd_release(&card, 0, service, tei, &report) == LAPD_OK, "no release");
}

static void have_flags(unsigned link) {
    const link_scene *to = &scenes[link];
    if (to->state < 7)
        return;
    if (to->rejects)
        hears(link, true, (uint8_t)(2 * ((vr[link] + 1) % 128)), 2 * va[link]);
    if (to->peer_busy)
        hears(link, true, 0x05, 2 * va[link]);
    if (to->own_busy)
        wants(lapd_busy(&card, 0, service_of(link), teis[link / 2], &report) == LAPD_OK, "no busy condition");
}

static void answer(unsigned link) {
    const link_scene *to = &scenes[link];
    for (unsigned time = 0; to->answers_wait && time <= config.control; time++)
        if (to->state < 7)
            hears(link, true, to->state == 6 ? 0x7F : 0x53, -1);
        else
            hears(link, true, to->peer_busy ? 0x05 : 0x01, 2 * va[link] + 1);
}

static link_scene any_link(void) {
    link_scene it = {4 + below(5), below(2) != 0, below(2) != 0, below(2) != 0, below(4) == 0, below(2) != 0, (filling)below(FILLINGS)};
    if (below(4) != 0)
        it.filled = REFUSED;
    return it;
}

static void each_link(void (*what)(unsigned link)) {
    for (unsigned link = 0; link < LINKS; link++)
        what(link);
}

static void fill_first(unsigned link) {
    if (recovers(link))
        fill(link, scenes[link].filled == EMPTY ? ONE : scenes[link].filled);
}

static void fill_others(unsigned link) {
    if (!recovers(link))
        fill(link, scenes[link].filled);
}

static void prepare_links(void) {
    each_link(fill_first);
    drain();
    expire(LAPD_T200, recovers);
    drain();
    each_link(empty);
    each_link(fill_others);
    drain();
    each_link(turn);
    drain();
    each_link(have_flags);
    drain();
    each_link(answer);
}

/* ---- Management of TEIs ------------------------------------------------------------------------------------------------------------ */

/* A timer of the line is asked for once. */
static bool is_first(unsigned link) {
    return link == 0;
}

static void leaves(unsigned place) {
    wants(lapd_remove(&card, 0, teis[place], &report) == LAPD_OK, "no TEI leaves");
}

static void each_says(uint8_t type, unsigned from, unsigned to) {
    for (unsigned place = from; place < to; place++)
        says(type, teis[place]);
}

static void check(unsigned place) {
    wants(lapd_check(&card, 0, teis[place], &report) == LAPD_OK, "no check");
}

static void verify(unsigned place) {
    wants(lapd_verify_tei(&card, 0, teis[place], &report) == LAPD_OK, "no verify");
}

static const char *const at_network[OF_NETWORK] = {
    "", ", the last place free", ", a place free", ", a check", ", a check in its second period", ", a check answered",
    ", a check in its second period, answered there", ", a check answered, all others due", ", a check that settles, others due",
    ", a check of the first, answered, all others due"};

/* What only annex B has. */
enum { DUE = 7, SETTLES, FIRST_DUE };

static void settle(void) {
    check(TEIS - 1);
    each_says(7, 0, TEIS - 1);
    for (unsigned period = 0; period < 2; period++) {
        says(5, teis[TEIS - 1]);
        expire(LAPD_T201, is_first);
    }
}

static void manage_network(unsigned procedure) {
    if (procedure == 1 || procedure == 2)
        leaves(procedure == 1 ? TEIS - 1 : BY_HAND - 1);
    if ((procedure >= 3 && procedure <= DUE) || procedure == FIRST_DUE)
        check(procedure == FIRST_DUE ? 0 : TEIS - 1);
    if (procedure == 4 || procedure == 6)
        expire(LAPD_T201, is_first);
    if (procedure >= 5 && procedure <= DUE)
        says(5, teis[TEIS - 1]);
    if (procedure == DUE)
        each_says(7, 0, TEIS - 1);
    if (procedure == FIRST_DUE) {
        says(5, teis[0]);
        each_says(7, 1, TEIS);
    }
    if (procedure == SETTLES)
        settle();
}

static const char *const at_terminal[OF_TERMINAL] = {
    "", ", the last place free", ", a TEI asked for", ", a TEI to be asked for", ", a verify", ", a verify waits", ", a second verify waits",
    ", all answers but the last wait", ", all answers wait", ", a verify and then all answers but one wait", ", one TEI alone"};
enum { ASKED = 2, TO_ASK = 3, VERIFY = 4, SECOND = 6, MOST_ANSWERS = 7, ALL_ANSWERS = 8, VERIFY_ANSWERS = 9, ALONE = 10 };

static void manage_terminal(unsigned procedure) {
    if (procedure >= 1 && procedure <= TO_ASK)
        leaves(TEIS - 1);
    for (unsigned place = 0; procedure == ALONE && place < TEIS - 1; place++)
        leaves(place);
    if (procedure == ASKED || procedure == TO_ASK)
        wants(lapd_ask_tei(&card, 0, &report) == LAPD_OK, "no TEI is asked for");
    if ((procedure >= VERIFY && procedure <= SECOND) || procedure == VERIFY_ANSWERS)
        verify(TEIS - 1);
    if (procedure == ASKED || procedure == VERIFY || procedure == SECOND)
        drain();
    if (procedure == SECOND)
        expire(LAPD_T202, is_first);
    if (procedure >= MOST_ANSWERS && procedure <= VERIFY_ANSWERS)
        each_says(4, 0, procedure == ALL_ANSWERS ? TEIS : TEIS - 1);
}

/* ---- Scenes -------------------------------------------------------------------------------------------------------------------------- */

bool is_possible(const kind *of, const scene *wanted) {
    const link_scene *links = &wanted->links;
    const bool has_flags = links->own_busy || links->peer_busy || links->rejects;
    if (!wanted->is_by_lot && ((links->state < 7 && has_flags) || (links->is_begun_anew && links->state != 5)))
        return false;
    if (of->side == LAPD_TERMINAL)
        return wanted->procedure < OF_TERMINAL && wanted->messages == 0 && !wanted->is_remembered;
    return wanted->procedure < OF_NETWORK && (wanted->procedure < DUE || of->reading == LAPD_ANNEX_B);
}

void prepare(const kind *of, const scene *wanted) {
    bring_up(wanted->is_old, wanted->is_remembered);
    for (unsigned link = 0; link < LINKS; link++)
        scenes[link] = wanted->is_by_lot ? any_link() : wanted->links;
    prepare_links();
    const bool waits = wanted->links.answers_wait && !wanted->is_by_lot;
    if (of->side == LAPD_TERMINAL)
        manage_terminal(wanted->procedure);
    else
        manage_network(wanted->procedure);
    if (of->side == LAPD_NETWORK && !waits)
        drain();
    for (unsigned at = 0; at < wanted->messages; at++)
        (void)!lapd_disown(&card, 0, (uint8_t)(OTHER_TEI + 1 + at), &report);
    keep();
    if (of->side == LAPD_TERMINAL) { /* which number a request has that waits */
        drain();
        put_back();
    }
}

void tell_scene(const kind *of, const scene *told) {
    static const char *const filled[FILLINGS] = {"queues empty", "one contents sent", "queues full", "each link waits for room"};
    const link_scene *links = &told->links;
    printf("%s, %s timers, ", of->reading == LAPD_PROFILE ? "profile" : "annex B", of->has_timers ? "own" : "the program's");
    if (told->is_by_lot)
        printf("links by lot");
    else
        printf("links in state %u%s, %s%s%s%s%s", links->state, links->is_begun_anew ? " after an error" : "", filled[links->filled],
               links->own_busy ? ", own busy" : "", links->peer_busy ? ", peer busy" : "", links->rejects ? ", REJ sent" : "",
               links->answers_wait ? ", answers wait" : "");
    printf("%s%s%s", told->is_old ? ", used" : "", told->is_remembered ? ", TEIs asked for" : "",
           (of->side == LAPD_TERMINAL ? at_terminal : at_network)[told->procedure]);
    if (told->messages > 0)
        printf(", %u messages wait", told->messages);
}
