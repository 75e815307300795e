/* ends.c: see ends.h. */
#include "ends.h"

#include <stdio.h>
#include <stdlib.h>
#include <string.h>

static uint64_t state;
static lapd_report report;

void chance_begin(uint64_t seed) {
    state = seed * 0x9E3779B97F4A7C15u + 7;
    for (int i = 0; i < 5; i++)
        chance();
}

uint32_t chance(void) {
    uint64_t it = state += 0x9E3779B97F4A7C15u;
    it = (it ^ it >> 30) * 0xBF58476D1CE4E5B9u;
    it = (it ^ it >> 27) * 0x94D049BB133111EBu;
    return (uint32_t)((it ^ it >> 31) >> 8);
}

/* What a card of ours must not say. */
static void want(bool is_so, const char *what, uint32_t status) {
    if (is_so)
        return;
    fprintf(stderr, "pair: %s: %s\n", what, lapd_status_text(status));
    exit(2);
}

static void start_card(end *it) {
    const end_terms *terms = &it->terms;
    lapd_lengths lengths = {terms->t200, terms->t203, 1000, 2000, {0}};
    lapd_config config = LAPD_PRIMARY_RATE;
    config.k = config.k16 = (uint16_t)terms->k;
    config.queue = (uint16_t)(terms->k < 8 ? 8 : terms->k);
    config.control = 16;
    config.slots = 300;
    config.n200 = (uint16_t)terms->n200;
    config.side = terms->is_network ? LAPD_NETWORK : LAPD_USER;
    config.reading = terms->is_annex_b ? LAPD_ANNEX_B : LAPD_PROFILE;
    uint32_t status = terms->has_octets ? lapd_card_start_timed(&it->card, &config, &lengths)
                                        : lapd_card_start_frames_timed(&it->card, &config, &lengths);
    want(status == LAPD_OK, "start", status);
    status = lapd_assign(&it->card, 0, 0, &report);
    want(status == LAPD_OK, "assign", status);
}

void end_start(end *it, const end_terms *terms) {
    memset(it, 0, sizeof *it);
    it->terms = *terms;
    if (terms->is_plain)
        plain_start(&it->plain, terms->is_network, terms->is_annex_b, terms->k, terms->n200, terms->t200, terms->t203,
                    (enum fault)terms->fault);
    else
        start_card(it);
}

void end_restart(end *it) {
    uint64_t now = it->plain.now;
    if (it->terms.is_plain) {
        plain_deactivate(&it->plain);
        return;
    }
    (void)!lapd_card_free(&it->card);
    start_card(it);
    end_time(it, now);
}

void end_time(end *it, uint64_t now) {
    uint32_t status = LAPD_OK;
    if (it->terms.is_plain)
        plain_time(&it->plain, now);
    else
        while ((status = lapd_fall_due(&it->card, now, &report)) == LAPD_OK) {
        }
    want(it->terms.is_plain || status == LAPD_NO_TIMER, "fall due", status);
    it->plain.now = now;
}

void end_hear(end *it, const uint8_t *octets, size_t length) {
    if (it->terms.is_plain) {
        plain_hear(&it->plain, octets, length);
    } else {
        uint32_t status = lapd_frame(&it->card, 0, octets, length, &report);
        want(status == LAPD_OK, "frame", status);
    }
}

void end_octets(end *it, const uint8_t *octets, size_t length) {
    for (size_t i = 0; i < length; i++) {
        uint32_t status = lapd_octet(&it->card, 0, octets[i], &report);
        want(status == LAPD_OK, "octet", status);
    }
}

bool end_next(end *it, uint8_t *octets, size_t *length) {
    bool is_there = it->terms.is_plain ? plain_next(&it->plain, octets, length)
                                       : lapd_next_frame(&it->card, 0, octets, MOST_OCTETS, length, &report) == LAPD_OK;
    if (is_there && *length >= 4 && (octets[2] & 3) != 3)
        memcpy(it->latest, octets, sizeof it->latest);
    return is_there;
}

void end_pull(end *it, uint8_t *octets, size_t length) {
    for (size_t i = 0; i < length; i++) {
        uint32_t status = lapd_pull(&it->card, 0, octets + i, &report);
        want(status == LAPD_OK, "pull", status);
    }
}

int end_state(end *it) {
    uint8_t its = 0;
    if (it->terms.is_plain)
        return it->plain.state;
    (void)!lapd_state(&it->card, 0, LAPD_CALL, 0, &its);
    return its;
}

/* ---- Requests: what the state does not serve is refused ---- */

void end_establish(end *it) {
    if (it->terms.is_plain)
        plain_establish(&it->plain);
    else
        (void)!lapd_establish(&it->card, 0, LAPD_CALL, 0, &report);
}

void end_release(end *it) {
    if (it->terms.is_plain)
        plain_release(&it->plain);
    else
        (void)!lapd_release(&it->card, 0, LAPD_CALL, 0, &report);
}

void end_data(end *it, const uint8_t *octets, size_t length) {
    if (it->terms.is_plain)
        plain_data(&it->plain, octets, length);
    else
        (void)!lapd_data(&it->card, 0, LAPD_CALL, 0, octets, length, &report);
}

void end_unit(end *it) {
    uint8_t octets[10] = {1};
    if (!it->terms.is_plain)
        (void)!lapd_unit(&it->card, 0, LAPD_CALL, 0, octets, sizeof octets, &report);
}

void end_busy(end *it, bool is_busy) {
    if (it->terms.is_plain)
        plain_busy(&it->plain, is_busy);
    else if (is_busy)
        (void)!lapd_busy(&it->card, 0, LAPD_CALL, 0, &report);
    else
        (void)!lapd_ready(&it->card, 0, LAPD_CALL, 0, &report);
}

void end_deactivate(end *it) {
    if (it->terms.is_plain)
        plain_deactivate(&it->plain);
    else
        (void)!lapd_deactivate(&it->card, 0, LAPD_CALL, 0, &report);
}

/* ---- Wrong frames ---- */

size_t wrong_frame(const end *it, uint8_t *o) {
    static const uint8_t unnumbered[] = {0x7F, 0x53, 0x43, 0x6F, 0x0F, 0x1F, 0x63, 0x73, 0x87, 0xAF};
    static const uint8_t numbered[] = {0x01, 0x05, 0x09};
    bool is_command = chance() % 2;
    uint32_t which = chance() % 10;
    uint8_t latest_nr = (uint8_t)(it->latest[3] >> 1);
    uint8_t nr = chance() % 3 ? latest_nr : (uint8_t)(latest_nr + chance() % 5 - 2) & 127;
    o[1] = 1;
    size_t length = 4;
    if (which < 3) { /* U, and FRMR with its five octets */
        o[2] = unnumbered[chance() % sizeof unnumbered];
        bool is_own_command = (o[2] & 0x6F) == 0x6F || (o[2] & 0x6F) == 0x43;
        is_command = chance() % 8 ? is_own_command : is_command;
        length = o[2] == 0x87 && chance() % 4 ? 8 : 3;
        memset(o + 3, 0, 5);
    } else if (which < 7) { /* S, most with P=1 */
        o[2] = numbered[chance() % sizeof numbered];
        o[3] = (uint8_t)(nr << 1 | (chance() % 3 != 0));
        length = chance() % 12 ? 4 : 5;
        o[4] = 0;
    } else if (which < 9) { /* I, one of them too long */
        is_command = true;
        o[2] = (uint8_t)((it->latest[2] & 0xFE) + 2 * (chance() % 4));
        o[3] = (uint8_t)(nr << 1 | (chance() % 2));
        length = chance() % 8 ? 6 : 300;
        memset(o + 4, 0x55, length - 4);
    } else { /* undefined */
        o[2] = (uint8_t)(chance() % 2 ? 0x0D : 0x33);
        o[3] = 0;
    }
    o[0] = (uint8_t)(is_command == it->terms.is_network ? 2 : 0);
    return length;
}
