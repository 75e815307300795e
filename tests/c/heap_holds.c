/*
 * heap_holds.c: a card of each kind and a clock fit into the octets that lapd_card_octets, lapd_card_octets_frames,
 * lapd_card_octets_timed, lapd_card_octets_frames_timed and lapd_clock_octets say, over c/heap.c, and so do those that are restored
 * from their images; where there are fewer and fewer, a start or a restore is refused memory at last, and what it had taken is given
 * back; and what they give back can be taken again. The heap is compiled with room for the largest of these configurations.
 */
#include <stdbool.h>
#include <stdint.h>
#include <stdio.h>

#include "lapd.h"

enum { MOST_IMAGE = 1 << 20 };

/* What each start takes besides, as a machine of lapd.c does, which has room for an image, too. */
#ifndef EACH
#define EACH 0
#endif
#define BESIDES(config) (EACH == 0 ? 0 : EACH + (uint64_t)(lapd_image_octets(config) + 15) / 16 * 16)

static const lapd_config configs[] = {
    {.lines = 1, .terminals = 1, .k = 1, .k16 = 1, .queue = 1, .unit_queue = 1, .control = 2, .slots = 1, .n201 = 8, .n200 = 0},
    {.lines = 1, .terminals = 8, .k = 7, .k16 = 7, .queue = 8, .unit_queue = 4, .control = 4, .slots = 64, .n201 = 260, .n200 = 3},
    {.lines = 4, .terminals = 4, .k = 7, .k16 = 3, .queue = 16, .unit_queue = 8, .control = 8, .slots = 300, .n201 = 128, .n200 = 3,
     .side = LAPD_USER},
    {.lines = 64, .terminals = 1, .k = 1, .k16 = 1, .queue = 1, .unit_queue = 1, .control = 2, .slots = 1, .n201 = 8, .n200 = 0,
     .side = LAPD_TERMINAL},
    {.lines = 64, .terminals = 8, .k = 7, .k16 = 7, .queue = 8, .unit_queue = 4, .control = 4, .slots = 1024, .n201 = 260, .n200 = 3,
     .side = LAPD_TERMINAL},
    {.lines = 64, .terminals = 8, .k = 7, .k16 = 7, .queue = 8, .unit_queue = 4, .control = 4, .slots = 1024, .n201 = 260, .n200 = 3},
    {.lines = 64, .terminals = 1, .k = 1, .k16 = 1, .queue = 1, .unit_queue = 1, .control = 2, .slots = 1, .n201 = 8, .n200 = 0},
};

/* So many octets that lie together are free; each is written and read. */
typedef struct {
    bool there;
    void *at;
} rattle_tried;

rattle_tried rattle_alloc(size_t octets, size_t alignment);
void rattle_dealloc(void *at);

/* Takes all of an empty heap but so many octets, a multiple of 16: a start has these and no more. The block's own header
 * takes 16. NULL where there is no such block: the heap is not empty. */
static void *all_but(uint64_t octets) {
    rattle_tried tried = rattle_alloc((size_t)(LAPD_HEAP_OCTETS - octets - 16), 8);
    return tried.there ? tried.at : NULL;
}

/* A kind of card: its start, and how many octets are enough. */
typedef struct {
    uint32_t (*start)(lapd_card *card, const lapd_config *config);
    uint64_t (*octets)(const lapd_config *config);
} kind;

static const lapd_lengths lengths = {.t200 = 1000, .t203 = 10000, .t201 = 1000, .t202 = 2000};

static uint32_t start_timed(lapd_card *card, const lapd_config *config) {
    return lapd_card_start_timed(card, config, &lengths);
}

static uint32_t start_frames_timed(lapd_card *card, const lapd_config *config) {
    return lapd_card_start_frames_timed(card, config, &lengths);
}

static const kind kinds[] = {{lapd_card_start, lapd_card_octets},
                             {lapd_card_start_frames, lapd_card_octets_frames},
                             {start_timed, lapd_card_octets_timed},
                             {start_frames_timed, lapd_card_octets_frames_timed}};
enum { KINDS = sizeof kinds / sizeof *kinds };

/* An image of a card and one of a clock. */
static struct {
    size_t card, clock;
    uint8_t of_card[MOST_IMAGE], of_clock[MOST_IMAGE];
} image;

/* Both are saved, end, and are restored. */
static int resumes(lapd_card *card, lapd_clock *clock) {
    uint32_t one = lapd_card_save(card, image.of_card, sizeof image.of_card, &image.card);
    uint32_t other = lapd_clock_save(clock, image.of_clock, sizeof image.of_clock, &image.clock);
    if (one != LAPD_OK || other != LAPD_OK || lapd_card_free(card) != LAPD_OK || lapd_clock_free(clock) != LAPD_OK)
        return 0;
    one = lapd_card_restore(card, image.of_card, image.card);
    other = lapd_clock_restore(clock, image.of_clock, image.clock);
    if (one != LAPD_OK || other != LAPD_OK)
        fprintf(stderr, "no restore: %s, %s\n", lapd_status_text(one), lapd_status_text(other));
    return one == LAPD_OK && other == LAPD_OK;
}

static int holds(const lapd_config *config, const kind *of) {
    lapd_card card = LAPD_CARD_NONE;
    lapd_clock clock = LAPD_CLOCK_NONE;
    uint64_t octets = of->octets(config) + lapd_clock_octets(config) + 2 * BESIDES(config);
    void *rest = all_but(octets);
    if (rest == NULL) {
        fprintf(stderr, "%u lines: what the heap held before was not given back\n", config->lines);
        return 0;
    }
    uint32_t one = of->start(&card, config), other = lapd_clock_start(&clock, config);
    if (one != LAPD_OK || other != LAPD_OK)
        fprintf(stderr, "%u lines in %llu octets: %s, %s\n", config->lines, (unsigned long long)octets,
                lapd_status_text(one), lapd_status_text(other));
    int good = one == LAPD_OK && other == LAPD_OK && resumes(&card, &clock);
    if (card.started)
        one = lapd_card_free(&card);
    if (clock.started)
        other = lapd_clock_free(&clock);
    rattle_dealloc(rest);
    return good && one == LAPD_OK && other == LAPD_OK;
}

/* A start or a restore with too little: in so many octets, and in every eighth less, down to none. */
static int refuses(const lapd_config *config, const kind *of, int is_restored) {
    lapd_card card = LAPD_CARD_NONE;
    unsigned refused = 0;
    for (uint64_t octets = of->octets(config) + BESIDES(config); octets > 16; octets -= (octets / 8 + 15) / 16 * 16) {
        void *rest = all_but(octets);
        if (rest == NULL) {
            fprintf(stderr, "%u lines: what a start had taken was not given back\n", config->lines);
            return 0;
        }
        uint32_t status = is_restored ? lapd_card_restore(&card, image.of_card, image.card) : of->start(&card, config);
        refused += status == LAPD_NO_MEMORY;
        if (status == LAPD_OK && lapd_card_free(&card) != LAPD_OK)
            return 0;
        rattle_dealloc(rest);
    }
    if (refused < 5)
        fprintf(stderr, "%u lines: only %u starts were refused memory\n", config->lines, refused);
    return refused >= 5;
}

int main(void) {
    int good = 1;
    for (int round = 0; round < 3; round++)
        for (size_t i = 0; i < KINDS * (sizeof configs / sizeof *configs); i++)
            for (int is_restored = 0; is_restored < 2; is_restored++)
                good &= holds(&configs[i / KINDS], &kinds[i % KINDS]) & refuses(&configs[i / KINDS], &kinds[i % KINDS], is_restored);
    return !good;
}
