/* streams.c: the judge of messages. See streams.h. */
#include "streams.h"

#include <stdbool.h>
#include <string.h>

#include "chance.h"
#include "faults.h"

enum { LOOKED_BACK = 300 };

typedef struct {
    unsigned next; /* the number of the next that is sent */
    unsigned safe; /* those before it may be lost: its sender was told of the link */
    unsigned want; /* the number of the next that comes */
    unsigned got, lost;
    bool is_unjudged;
} stream;

static stream data[2][SERVICES][TEIS], units[2][SERVICES][TEIS];
static unsigned group_want[RECEIVERS], run_seed;
static bool is_twice;

static const char *way_text(way to) {
    return to == TO_OURS ? "to ours" : "to the kernel";
}

void streams_begin(unsigned seed) {
    memset(data, 0, sizeof data);
    memset(units, 0, sizeof units);
    memset(group_want, 0, sizeof group_want);
    run_seed = seed;
    is_twice = false;
}

/* ---- Messages ----------------------------------------------------------------------------------------------------- */

/* Of what its octets are made. */
static uint64_t state_of(bool is_unit, way to, int service, int tei, unsigned number) {
    return mixed((uint64_t)run_seed << 40 ^ (uint64_t)is_unit << 39 ^ (uint64_t)to << 38 ^ (uint64_t)service << 37
                 ^ (uint64_t)tei << 30 ^ number);
}

/* How many they are: most often few, and at times as many as may be. */
static size_t length_of(uint64_t state) {
    if (state % 8 < 5)
        return 1 + (state >> 8) % 32;
    return state % 8 < 7 ? 1 + (state >> 8) % 260 : state >> 63 ? 260 : 259;
}

static size_t contents_of(bool is_unit, way to, int service, int tei, unsigned number, uint8_t *octets) {
    uint64_t state = state_of(is_unit, to, service, tei, number), eight = 0;
    size_t length = length_of(state);
    for (size_t i = 0; i < length; i++) {
        eight = i % 8 == 0 ? mixed(state + i / 8 + 1) : eight >> 8;
        octets[i] = (uint8_t)eight;
    }
    return length;
}

static bool is_message(bool is_unit, way to, int service, int tei, unsigned number, const uint8_t *octets, size_t length) {
    uint8_t wanted[LONGEST_MESSAGE];
    if (length_of(state_of(is_unit, to, service, tei, number)) != length)
        return false;
    contents_of(is_unit, to, service, tei, number, wanted);
    return memcmp(wanted, octets, length) == 0;
}

size_t data_to_send(way to, int service, int tei, uint8_t octets[LONGEST_MESSAGE]) {
    return contents_of(false, to, service, tei, data[to][service][tei].next++, octets);
}

size_t unit_to_send(way to, int service, int tei, uint8_t octets[LONGEST_MESSAGE]) {
    return contents_of(true, to, service, tei, units[to][service][tei].next++, octets);
}

void data_unsent(way to, int service, int tei) {
    data[to][service][tei].next--;
}

void unit_unsent(way to, int service, int tei) {
    units[to][service][tei].next--;
}

void streams_told(way to, int service, int tei) {
    data[to][service][tei].safe = data[to][service][tei].next;
}

void streams_tei_twice(int tei) {
    is_twice = true;
    for (int to = 0; to < 2; to++)
        for (int service = 0; service < SERVICES; service++)
            data[to][service][tei].is_unjudged = units[to][service][tei].is_unjudged = true;
}

int is_a_tei_twice(void) {
    return is_twice;
}

/* ---- What comes --------------------------------------------------------------------------------------------------- */

/* The number of a message among those that were sent and did not come yet; that of the next to be sent if it is none of them. */
static unsigned among_sent(const stream *it, unsigned from, bool is_unit, way to, int service, int tei, const uint8_t *octets,
                           size_t length) {
    while (from < it->next && !is_message(is_unit, to, service, tei, from, octets, length))
        from++;
    return from;
}

/* It is none that was sent and did not come: it came before, or none sent it. */
static void came_wrongly(const stream *it, way to, int service, int tei, const uint8_t *octets, size_t length) {
    if (it->is_unjudged)
        return;
    for (unsigned back = 1; back <= LOOKED_BACK && back <= it->want; back++)
        if (is_message(false, to, service, tei, it->want - back, octets, length)) {
            fault(FAULT_TWICE, "%s tei %d: %u again, wanted %u", way_text(to), tei, it->want - back, it->want);
            return;
        }
    fault(FAULT_INVENTED, "%s tei %d: %zu octets, %02X.., wanted %u", way_text(to), tei, length, length > 0 ? octets[0] : 0u,
          it->want);
}

void data_came(way to, int service, int tei, const uint8_t *octets, size_t length, void (*read_kernel)(void)) {
    stream *it = &data[to][service][tei];
    unsigned number = among_sent(it, it->want, false, to, service, tei, octets, length);
    if (number == it->next) {
        came_wrongly(it, to, service, tei, octets, length);
        return;
    }
    if (number > it->want && to == TO_OURS)
        read_kernel();
    if (number > it->want && number > it->safe && !it->is_unjudged)
        fault(FAULT_GAP, "%s tei %d: %u to %u are missing before %u; those before %u may be", way_text(to), tei, it->want,
              number - 1, number, it->safe);
    it->lost += number - it->want;
    it->want = number + 1;
    it->got++;
}

/* Unit data are the next of a stream, or one of those after it, from *want on. */
static bool is_next_unit(stream *it, unsigned *want, way to, int service, int tei, const uint8_t *octets, size_t length) {
    unsigned number = among_sent(it, *want, true, to, service, tei, octets, length);
    if (number == it->next)
        return false;
    *want = number + 1;
    it->got++;
    return true;
}

static void want_unit(stream *it, unsigned *want, way to, int service, int tei, const uint8_t *octets, size_t length) {
    if (!is_next_unit(it, want, to, service, tei, octets, length) && !it->is_unjudged && !is_twice)
        fault(FAULT_UNIT, "%s tei %d: %zu octets, wanted %u of %u", way_text(to), tei, length, *want, it->next);
}

void unit_came(way to, int service, int tei, const uint8_t *octets, size_t length) {
    stream *it = &units[to][service][tei];
    want_unit(it, &it->want, to, service, tei, octets, length);
}

void group_unit_came(way to, int service, int receiver, const uint8_t *octets, size_t length) {
    want_unit(&units[to][service][GROUP], &group_want[receiver], to, service, GROUP, octets, length);
}

int is_unit_of(way to, int service, int tei, const uint8_t *octets, size_t length) {
    stream *it = &units[to][service][tei];
    return is_next_unit(it, &it->want, to, service, tei, octets, length);
}

/* ---- The end ------------------------------------------------------------------------------------------------------ */

static void end_of_data(way to, int service, int tei) {
    const stream *it = &data[to][service][tei];
    unsigned from = it->want > it->safe ? it->want : it->safe;
    if (from < it->next && !it->is_unjudged)
        fault(FAULT_MISSING, "%s tei %d: %u to %u never came", way_text(to), tei, from, it->next - 1);
}

static void end_of_units(way to, int service, int tei) {
    const stream *it = &units[to][service][tei];
    if (tei != GROUP && it->want < it->next)
        fault(FAULT_UNIT, "%s tei %d: %u of %u came", way_text(to), tei, it->want, it->next);
}

stream_counts streams_end(int all_units) {
    stream_counts sum = {0};
    for (int it = 0; it < 2 * SERVICES * TEIS; it++) {
        way to = it % 2 ? TO_OURS : TO_KERNEL;
        int service = it / 2 % SERVICES, tei = it / (2 * SERVICES);
        end_of_data(to, service, tei);
        if (all_units)
            end_of_units(to, service, tei);
        *(to == TO_OURS ? &sum.in : &sum.out) += data[to][service][tei].got;
        sum.lost += data[to][service][tei].lost;
        sum.units += units[to][service][tei].next;
        sum.units_got += units[to][service][tei].got;
    }
    return sum;
}
