/*
 * changed_images.c: images that were changed. To cards of each kind and side, of many configurations, things happen at random, and
 * they are saved; so are clocks. Of these images bits are flipped, octets changed, also to the least and the greatest, cut off, put
 * in or taken out, and two are spliced; and octets are made at random, which begin as images do. A restore of each refuses it, or
 * gives a card or a clock whose image is just this one. Then anything may happen to it: it keeps its promises. For tests alone.
 *
 *     changed_images SEED COUNT
 *
 * So many images of cards are changed, and an eighth as many of clocks.
 */
#include <stdbool.h>
#include <stdio.h>
#include <stdlib.h>
#include <string.h>

#include "lapd.h"

enum { KEPT = 96, MOST_IMAGE = 1 << 14, TURNS = 400, AFTER = 12 };

typedef struct {
    size_t length;
    uint8_t octets[MOST_IMAGE];
} image;

/* How many images were restored, and how many were not. */
typedef struct {
    unsigned long taken, refused;
} tally;

static image images[KEPT], clocks[KEPT], changed;
static uint64_t seed;
static tally of_cards, of_clocks;

static void wants(bool is, const char *what) {
    if (is)
        return;
    fprintf(stderr, "changed_images: after %lu of cards and %lu of clocks that were taken, and %lu and %lu that were not: %s\n", of_cards.taken,
            of_clocks.taken, of_cards.refused, of_clocks.refused, what);
    exit(1);
}

static unsigned below(unsigned most) {
    seed = seed * 6364136223846793005u + 1442695040888963407u;
    return (unsigned)((seed >> 33) % most);
}

/* ---- Cards ------------------------------------------------------------------------------------------------------------ */

static uint8_t tei(void) {
    static const uint8_t some[] = {64, 64, 64, 65, 66, 126, 127};
    return some[below(sizeof some)];
}

static void frame_comes(lapd_card *card, uint32_t line) {
    uint8_t address = (uint8_t)(tei() << 1 | 1), first = (uint8_t)(2 * below(2) | (below(4) ? 0x00 : 0x40)), nr = (uint8_t)(2 * below(4));
    const uint8_t from[][8] = {{first, address, 0x7F}, {first, address, 0x53}, {first, address, 0x73}, {first, address, (uint8_t)(2 * below(4)), nr, 7},
                               {first, address, 0x01, (uint8_t)(nr | below(2))}, {first, address, 0x09, nr}, {first, address, 0x05, nr},
                               {0xFC, 0xFF, 0x03, 0x0F, 1, (uint8_t)below(3), 0x01, 0xFF}, {0xFE, 0xFF, 0x03, 0x0F, 1, 2, (uint8_t)below(8), address}};
    static const size_t octets[] = {3, 3, 3, 5, 4, 4, 4, 8, 8};
    unsigned which = below(sizeof octets / sizeof *octets);
    lapd_report report;
    uint32_t is = lapd_frame(card, line, from[which], octets[which], &report);
    wants(is == LAPD_OK || is == LAPD_WRONG_CARD, "a frame");
}

static void is_asked(lapd_card *card, uint32_t line) {
    static const uint8_t contents[] = {1, 2, 3};
    uint8_t request = (uint8_t)(below(3) ? LAPD_DATA : 1 + below(14));
    bool has_contents = request == LAPD_DATA || request == LAPD_UNIT;
    lapd_report report;
    (void)!lapd_request(card, line, request, below(3) ? LAPD_CALL : LAPD_PACKET, tei(), contents, has_contents ? below(4) : 0, &report);
}

/* What falls due, at a card with its own timers; at another a timer expires that may run. */
static void time_goes_on(lapd_card *card, uint32_t line) {
    const lapd_timer timer = {(uint8_t)(1 + below(4)), below(3) ? LAPD_CALL : LAPD_PACKET, (uint8_t)(tei() % LAPD_GROUP_TEI)};
    lapd_report report;
    uint64_t moment = 0;
    uint32_t is = lapd_next_moment(card, &moment);
    wants(is == LAPD_OK || is == LAPD_NO_TIMER || is == LAPD_WRONG_CARD, "a next moment");
    is = is == LAPD_OK ? lapd_fall_due(card, moment, &report) : lapd_expire(card, line, &timer, &report);
    wants(is == LAPD_OK || is == LAPD_NO_TIMER || is == LAPD_WRONG_TIME || is == LAPD_WRONG_CARD, "what falls due");
}

static void goes(lapd_card *card, uint32_t line) {
    uint8_t out[LAPD_MOST_FRAME], octet;
    size_t length;
    lapd_report report;
    uint32_t is = lapd_next_frame(card, line, out, sizeof out, &length, &report);
    wants(is == LAPD_OK || is == LAPD_NO_FRAME || is == LAPD_WRONG_CARD, "a frame that goes");
    is = lapd_pull(card, line, &octet, &report);
    wants(is == LAPD_OK || is == LAPD_WRONG_CARD, "an octet that goes");
}

static void happens(lapd_card *card, uint32_t lines) {
    uint32_t line = below(lines), stored, limit;
    switch (below(5)) {
    case 0: frame_comes(card, line); break;
    case 1: time_goes_on(card, line); break;
    case 2: goes(card, line); break;
    default: is_asked(card, line);
    }
    wants(lapd_stored(card, &stored) == LAPD_OK && lapd_limit(card, &limit) == LAPD_OK && stored <= limit, "more is stored than may be");
}

/* A card of any kind, of a small configuration. */
static uint32_t starts(lapd_card *card, lapd_config *config) {
    const lapd_lengths lengths = {1 + below(100), 1 + below(1000), 1 + below(100), 1 + below(100), {0}};
    uint16_t k = (uint16_t)(1 + below(3)), k16 = (uint16_t)(1 + below(3)), queue = (uint16_t)((k > k16 ? k : k16) + below(3));
    lapd_config it = {.lines = (uint16_t)(1 + below(3)), .terminals = (uint16_t)(1 + below(4)), .k = k, .k16 = k16, .queue = queue,
                      .unit_queue = (uint16_t)(1 + below(3)), .control = (uint16_t)(2 + below(3)), .slots = (uint16_t)(4 + below(20)),
                      .n201 = (uint16_t)(8 + below(20)), .n200 = (uint16_t)below(4), .side = (uint16_t)below(3),
                      .seed = (uint16_t)below(65536), .sapi = (uint16_t)(below(2) ? 0 : 16 + below(40)), .reading = (uint16_t)below(2)};
    *config = it;
    switch (below(4)) {
    case 0: return lapd_card_start(card, config);
    case 1: return lapd_card_start_frames(card, config);
    case 2: return lapd_card_start_timed(card, config, &lengths);
    default: return lapd_card_start_frames_timed(card, config, &lengths);
    }
}

static void makes(image *of) {
    lapd_card card = LAPD_CARD_NONE;
    lapd_config config;
    lapd_report report;
    wants(starts(&card, &config) == LAPD_OK && lapd_image_octets(&config) <= MOST_IMAGE, "no start");
    for (uint32_t line = 0; line < config.lines; line++)
        for (uint8_t at = 64; at < 66; at++)
            if (lapd_assign(&card, line, at, &report) == LAPD_OK)
                (void)!lapd_establish(&card, line, LAPD_CALL, at, &report);
    for (unsigned turn = below(TURNS); turn > 0; turn--)
        happens(&card, config.lines);
    wants(lapd_card_save(&card, of->octets, lapd_image_octets(&config), &of->length) == LAPD_OK && lapd_card_free(&card) == LAPD_OK, "no save");
}

/* ---- Clocks ----------------------------------------------------------------------------------------------------------- */

static void ticks(lapd_clock *clock, uint32_t lines) {
    const uint64_t moments[] = {0, below(1000), 5000 + below(1000), LAPD_LATEST - 1, LAPD_LATEST};
    const lapd_order order = {(uint8_t)(below(4) ? LAPD_START : LAPD_STOP), {(uint8_t)(1 + below(4)), below(3) ? LAPD_CALL : LAPD_PACKET, (uint8_t)(tei() % LAPD_GROUP_TEI)}};
    lapd_due due;
    uint64_t moment = 0;
    uint32_t is = lapd_clock_apply(clock, below(lines), &order, moments[below(5)]);
    wants(is == LAPD_OK || is == LAPD_NO_PLACE, "an order");
    is = lapd_clock_next(clock, &moment);
    wants(is == LAPD_OK || is == LAPD_NO_TIMER, "a next timer");
    is = is == LAPD_OK && below(4) == 0 ? lapd_clock_due(clock, moment, &due) : LAPD_OK;
    wants(is == LAPD_OK && lapd_clock_set_lengths(clock, 1 + below(3600000), 1 + below(3600000), 1 + below(3600000), 1 + below(3600000)) == LAPD_OK,
          "a timer that is due, or lengths");
}

static void makes_clock(image *of) {
    lapd_clock clock = LAPD_CLOCK_NONE;
    lapd_config config = LAPD_BASIC_ACCESS;
    config.lines = (uint16_t)(1 + below(3));
    config.terminals = (uint16_t)(1 + below(4));
    wants(lapd_clock_start(&clock, &config) == LAPD_OK, "no clock");
    for (unsigned turn = below(TURNS); turn > 0; turn--)
        ticks(&clock, config.lines);
    wants(lapd_clock_save(&clock, of->octets, lapd_image_octets(&config), &of->length) == LAPD_OK && lapd_clock_free(&clock) == LAPD_OK, "no save of a clock");
}

/* ---- Changes ---------------------------------------------------------------------------------------------------------- */

/* A place: half of them lie in the first octets, since those after them are mostly counters. */
static size_t place(void) {
    size_t most = changed.length < 100 || below(2) ? changed.length : 100;
    return below((unsigned)most);
}

static void flips(void) {
    for (unsigned bits = 1 + below(3); bits > 0; bits--)
        changed.octets[place()] ^= (uint8_t)(1u << below(8));
}

/* Up to eight octets are the least, the greatest, or just beside them. */
static void extremes(size_t at) {
    static const uint8_t octets[] = {0x00, 0xFF, 0x7F, 0x80, 0x01, 0xFE};
    uint8_t octet = octets[below(sizeof octets)];
    for (size_t end = at + (1u << below(4)); at < end && at < changed.length; at++)
        changed.octets[at] = octet;
}

/* Octets at random, which mostly begin as an image that is there, up to some place. */
static void random_octets(void) {
    size_t at = below(4) ? place() : 0, length = below(300);
    changed.length = at < MOST_IMAGE - length ? at + length : MOST_IMAGE;
    for (; at < changed.length; at++)
        changed.octets[at] = (uint8_t)(below(3) ? below(256) : below(5));
}

/* Octets are put in at a place, or taken out there. */
static void shifts(size_t at, size_t count) {
    if (below(2) && changed.length + count <= MOST_IMAGE) {
        memmove(changed.octets + at + count, changed.octets + at, changed.length - at);
        changed.length += count;
    } else if (at + count <= changed.length) {
        memmove(changed.octets + at, changed.octets + at + count, changed.length - at - count);
        changed.length -= count;
    }
}

/* The front up to a place, and the end of another image: mostly from the same place on. */
static void splices(size_t at, const image *other) {
    size_t from = below(3) && at < other->length ? at : below((unsigned)other->length), count = other->length - from;
    count = count < MOST_IMAGE - at ? count : MOST_IMAGE - at;
    memcpy(changed.octets + at, other->octets + from, count);
    changed.length = at + count;
}

static void change(const image *of) {
    memcpy(&changed, &of[below(KEPT)], sizeof changed);
    size_t at = place();
    switch (below(12)) {
    case 0: case 1: case 2: flips(); break;
    case 3: changed.octets[at] = (uint8_t)below(256); break;
    case 4: changed.length = at; break;
    case 5: shifts(at, 1 + below(3)); break;
    case 6: splices(at, &of[below(KEPT)]); break;
    case 7: case 8: extremes(at); break;
    case 9: random_octets(); break;
    case 10:
        extremes(at);
        extremes(place());
        break;
    default:
        flips();
        splices(at, &of[below(KEPT)]);
    }
}

/* Whether an image was taken; and that what came of it says the same. */
static bool is_taken(uint32_t status, bool is_there, tally *of) {
    wants(status == LAPD_OK ? is_there : status == LAPD_BAD_IMAGE && !is_there, "a restore");
    *(status == LAPD_OK ? &of->taken : &of->refused) += 1;
    return status == LAPD_OK;
}

static struct {
    size_t length;
    uint8_t octets[1 << 22];
} again;

/* It was saved once more. */
static void is_as_it_was(uint32_t status) {
    wants(status == LAPD_OK && again.length == changed.length && memcmp(again.octets, changed.octets, again.length) == 0, "an image has a second spelling");
}

static void restores(void) {
    lapd_card card = LAPD_CARD_NONE;
    uint32_t lines = 0, status = lapd_card_restore(&card, changed.octets, changed.length);
    if (!is_taken(status, card.started, &of_cards))
        return;
    is_as_it_was(lapd_card_save(&card, again.octets, sizeof again.octets, &again.length));
    wants(lapd_lines(&card, &lines) == LAPD_OK && 0 < lines && lines <= LAPD_MOST_LINES, "lines");
    for (unsigned turn = 0; turn < AFTER; turn++)
        happens(&card, lines);
    wants(lapd_card_free(&card) == LAPD_OK, "no end");
}

static void restores_clock(void) {
    lapd_clock clock = LAPD_CLOCK_NONE;
    uint32_t status = lapd_clock_restore(&clock, changed.octets, changed.length);
    if (!is_taken(status, clock.started, &of_clocks))
        return;
    is_as_it_was(lapd_clock_save(&clock, again.octets, sizeof again.octets, &again.length));
    for (unsigned turn = 0; turn < AFTER; turn++)
        ticks(&clock, 1);
    wants(lapd_clock_free(&clock) == LAPD_OK, "no end of a clock");
}

int main(int words, char **word) {
    seed = words > 1 ? strtoul(word[1], NULL, 10) : 1;
    unsigned long count = words > 2 ? strtoul(word[2], NULL, 10) : 1000;
    for (unsigned i = 0; i < KEPT; i++) {
        makes(&images[i]);
        memcpy(&changed, &images[i], sizeof changed);
        restores();
        makes_clock(&clocks[i]);
        memcpy(&changed, &clocks[i], sizeof changed);
        restores_clock();
        wants(of_cards.taken == i + 1 && of_clocks.taken == i + 1, "an image is refused that was not changed");
    }
    for (unsigned long turn = 0; turn < count; turn++) {
        change(images);
        restores();
        if (turn % 8 == 0) {
            change(clocks);
            restores_clock();
        }
    }
    printf("%lu images of cards were taken, and %lu refused; of clocks %lu and %lu\n", of_cards.taken, of_cards.refused, of_clocks.taken, of_clocks.refused);
    wants(count < 1000 || (of_cards.refused > count / 4 && of_cards.taken > count / 50 && of_clocks.refused > count / 32 && of_clocks.taken > count / 64),
          "too many are taken, or refused");
    return 0;
}
