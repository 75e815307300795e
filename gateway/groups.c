/* groups.c: groups of lines begin and end. See lines.h. */
#define _GNU_SOURCE

#include <stdlib.h>
#include <string.h>

#include "capture.h"
#include "lines.h"
#include "log.h"
#include "loop.h"
#include "servers.h"
#include "standby.h"
#include "terminals.h"

enum { DISOWNS = 2 }; /* one may be lost */

unsigned group_count;
group *groups[MOST_GROUPS];

static const driver *const drivers[] = {&driver_frames, &driver_misdn, &driver_dahdi};

/* ---- The lines of all groups, in order -------------------------------------------------------------------------------- */

static void list_line(line *own) {
    unsigned at = line_count++;
    for (; at > 0 && lines[at - 1]->identifier > own->identifier; at--)
        lines[at] = lines[at - 1];
    lines[at] = own;
}

static void unlist_lines(const group *own) {
    unsigned left = 0;
    for (unsigned i = 0; i < line_count; i++)
        if (lines[i]->of != own)
            lines[left++] = lines[i];
    line_count = left;
}

/* ---- A group begins --------------------------------------------------------------------------------------------------- */

static bool has_memory(group *own) {
    own->lines = calloc(own->is.count, sizeof *own->lines);
    own->of_cards = calloc(own->is.count, sizeof(line *));
    own->cards = calloc(own->is.count, sizeof(card *));
    if (own->lines == NULL || own->of_cards == NULL || own->cards == NULL)
        return false;
    for (uint32_t i = 0; i < own->is.count; i++) {
        line *it = &own->lines[i];
        it->identifier = own->is.first + i;
        it->of = own;
        it->place = i;
        it->below = drivers[own->is.driver];
        it->wake_at = LOOP_NEVER;
        it->adopted = -1;
        it->timer = loop_timer(line_is_due, it);
        own->of_cards[i] = it;
        if (it->timer == NULL || !links_begin(&it->links, own->is.terminals))
            return false;
    }
    return true;
}

/* Cards for all lines, each with as many as it can have. */
static bool start_cards(group *own, const char **fault) {
    unsigned most = configuration_lines_of_card(&own->is);
    for (uint32_t first = 0; first < own->is.count; first += most) {
        uint32_t count = own->is.count - first < most ? own->is.count - first : most;
        lapd_config config = own->is.config;
        config.lines = (uint16_t)count;
        config.slots = (uint16_t)(config.slots * count);
        config.seed = terminal_seed();
        card *it = card_start(&config, &own->is.lengths, own->of_cards + first, fault);
        if (it == NULL)
            return false;
        own->cards[own->card_count++] = it;
        for (uint32_t i = 0; i < count; i++) {
            own->lines[first + i].card = it;
            own->lines[first + i].at = i;
        }
    }
    return true;
}

bool group_start(const configuration_group *from, const char **fault) {
    group *own = group_count == MOST_GROUPS ? NULL : calloc(1, sizeof *own);
    *fault = "there is no memory";
    if (own == NULL)
        return false;
    own->is = *from;
    if (!has_memory(own) || !start_cards(own, fault)) {
        group_end(own);
        return false;
    }
    groups[group_count++] = own;
    for (uint32_t i = 0; i < own->is.count; i++) {
        list_line(&own->lines[i]);
        own->lines[i].server = server_of(own->lines[i].identifier);
        own->lines[i].capture = capture_of(own->lines[i].identifier);
    }
    return true;
}

/* TEIs that are set by hand come to the line, and the server knows them. Of the others the card knows none yet, while terminals
 * may still use theirs, and give them up. */
static void set_teis(line *own) {
    const configuration_list *teis = &own->of->is.teis;
    for (uint64_t i = 0; i < configuration_count(teis); i++) {
        uint8_t tei = (uint8_t)configuration_number(teis, (uint32_t)i);
        (void)card_ask(own->card, own->at, LAPD_ASSIGN, LAPD_CALL, tei, NULL, 0);
        own->links.told_teis[tei / 64] |= UINT64_C(1) << tei % 64;
        if (own->of->is.establishes)
            links_want(own, tei);
    }
    for (unsigned i = 0; teis->count == 0 && line_side(own) == LAPD_NETWORK && i < DISOWNS; i++)
        (void)card_ask(own->card, own->at, LAPD_DISOWN, LAPD_CALL, LAPD_GROUP_TEI, NULL, 0);
}

bool group_begin(group *own) {
    bool is_good = true;
    for (uint32_t i = 0; i < own->is.count; i++) {
        line *it = &own->lines[i];
        if (!own->is_restored)
            set_teis(it);
        is_good = it->below->open(it) && is_good;
        links_settle(it);
    }
    return is_good;
}

void group_retire(group *own) {
    for (uint32_t i = 0; i < own->is.count; i++)
        links_retire(&own->lines[i]);
}

/* ---- A group ends ----------------------------------------------------------------------------------------------------- */

void group_end(group *own) {
    for (unsigned i = 0; i < group_count; i++)
        if (groups[i] == own) {
            memmove(groups + i, groups + i + 1, (group_count - i - 1) * sizeof *groups);
            group_count--;
            unlist_lines(own);
        }
    for (uint32_t i = 0; own->lines != NULL && i < own->is.count; i++) {
        line *it = &own->lines[i];
        if (it->port != NULL)
            it->below->close(it);
        servers_forget(it);
        standby_forget(it);
        lines_forget(it);
        links_end(&it->links);
        sd_event_source_disable_unref(it->timer);
    }
    for (unsigned i = 0; i < own->card_count; i++)
        card_end(own->cards[i]);
    free(own->cards);
    free(own->of_cards);
    free(own->lines);
    free(own);
}
