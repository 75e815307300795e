/* ends.h: an end of the line: a card of the library, of frames or octets, or the plain machine; and numbers at random. */
#ifndef ENDS_H
#define ENDS_H

#include "lapd.h"
#include "plain.h"

enum { MOST_OCTETS = 400 };

typedef struct {
    bool is_network, is_annex_b, has_octets;
    int k, n200;
    uint32_t t200, t203;
    bool is_plain;
    int fault;
} end_terms;

typedef struct {
    end_terms terms;
    lapd_card card;
    plain plain;
    uint8_t latest[4]; /* how its latest numbered frame began */
} end;

void chance_begin(uint64_t seed);
uint32_t chance(void);

void end_start(end *it, const end_terms *terms);
void end_time(end *it, uint64_t now);
void end_hear(end *it, const uint8_t *octets, size_t length);
void end_octets(end *it, const uint8_t *octets, size_t length);
bool end_next(end *it, uint8_t *octets, size_t *length);
void end_pull(end *it, uint8_t *octets, size_t length);
int end_state(end *it);

void end_establish(end *it);
void end_release(end *it);
void end_data(end *it, const uint8_t *octets, size_t length);
void end_unit(end *it);
void end_busy(end *it, bool is_busy);
void end_deactivate(end *it);
void end_restart(end *it); /* it begins as at first */

/* A frame that the tables do not have this end send now, or hardly; returns its length. */
size_t wrong_frame(const end *it, uint8_t *octets);

#endif
