/*
 * dearest.c: which frame takes the most instructions of lapd_frame. Frames with each address, control field and message of TEI
 * management that the tables tell apart, with 0, 1, 5, N201 and N201 + 1 octets of information, come to a card of eight TEIs in each
 * scene (dearest.h): by each reading, with own timers and with the program's. For tests alone, on x86-64.
 *
 *     dearest network|terminal LOTS [wide] [only FRAME..]
 *
 * It is linked with lapd.S of which each block counts its instructions (counted_blocks.py), or, compiled with -DSTEPPED, with lapd.S as
 * it is and steps.c. That way it looks at the frames that are named alone, by their numbers. Besides the scenes where all links are
 * alike there are LOTS where each is as if by lot. With `wide` the windows and the queues of links have 127 places.
 *
 * The blocks count no instruction of the C library, which lapd_frame calls for copies: at most MOST_OF_COPY for each. So what is printed
 * is, for each kind of frame, every one that may be the dearest: instructions, copies, number, kind, octets, and scene.
 * Status 1 if a call fails.
 */
#include <stdio.h>
#include <stdlib.h>
#include <string.h>

#include "dearest.h"

#ifdef STEPPED
#include "steps.h"
#else
extern uint64_t lapd_steps; /* the copies from bit 24 on */
#endif

enum { MOST_OF_COPY = 64, MOST_OF_LIST = 1024 };

/* ---- The frame that comes ------------------------------------------------------------------------------------------------------- */

static uint8_t frame[HEAD + N201 + 2];
static size_t length;
static uint32_t status;

static const kind *of;
static const scene *at;

typedef enum { OF_LINK, OF_MANAGEMENT, OF_NO_LINK, TOO_SHORT, KINDS } frame_kind;
static const char *const kinds[KINDS] = {"link", "message", "no link", "short"};

/* ---- What is found -------------------------------------------------------------------------------------------------------------- */

typedef struct {
    unsigned long steps, copies, number;
    uint8_t head[12];
    size_t length;
    kind of;
    scene at;
} found;

static unsigned long frames, most[KINDS];
static struct {
    found of[MOST_OF_LIST];
    size_t count;
} lists[KINDS];

/* Those that are named, in order. */
static unsigned long only[MOST_OF_LIST];
static size_t only_count, only_at;

/* Where frames are only counted, or the frames of a scene are looked at. */
static bool is_dry;

static bool may_be(const found *it, unsigned long dearest) {
    return it->steps + it->copies * MOST_OF_COPY > dearest || (it->steps == dearest && it->copies == 0);
}

/* Whether an earlier one takes the same: a copy takes the same for the same length. */
static bool is_there(frame_kind which, size_t before, const found *it) {
    for (size_t each = 0; each < before; each++) {
        const found *other = &lists[which].of[each];
        if (other->steps == it->steps && other->copies == it->copies && (it->copies == 0 || other->length == it->length))
            return true;
    }
    return false;
}

/* Leaves out those that are not the dearest any more. */
static void sift(frame_kind which) {
    size_t kept = 0;
    for (size_t each = 0; each < lists[which].count; each++)
        if (may_be(&lists[which].of[each], most[which]))
            lists[which].of[kept++] = lists[which].of[each];
    lists[which].count = kept;
}

static void note(frame_kind which, unsigned long steps, unsigned long copies) {
    found it = {.steps = steps, .copies = copies, .number = frames, .length = length, .of = *of, .at = *at};
    if (!may_be(&it, most[which]) || is_there(which, lists[which].count, &it))
        return;
    memcpy(it.head, frame, sizeof it.head);
    most[which] = steps > most[which] ? steps : most[which];
    if (lists[which].count == MOST_OF_LIST)
        sift(which);
    wants(lists[which].count < MOST_OF_LIST, "too many may be the dearest");
    lists[which].of[lists[which].count++] = it;
}

#ifdef STEPPED
/* The call is stepped through, and what is around it once without it. */
static uint32_t (*volatile called)(lapd_card *, uint32_t, const uint8_t *, size_t, lapd_report *);

static void call(void) {
    status = called(&card, 0, frame, length, &report);
}

static void measure(frame_kind which) {
    static unsigned long around;
    called = lapd_frame;
    if (around == 0) {
        called = (uint32_t(*)(lapd_card *, uint32_t, const uint8_t *, size_t, lapd_report *))steps_return;
        around = steps_of(call) - 1;
        called = lapd_frame;
    }
    note(which, steps_of(call) - around, 0);
}

/* Copies of what a frame can have. */
static uint8_t copied_to[N201 + HEAD], copied_from[N201 + HEAD];
static void copies(void) { memcpy(copied_to, copied_from, length); }
static void moves(void) { memmove(copied_to, copied_from, length); }
static void clears(void) { memset(copied_to, 0, length); }

static void test_copies(void) {
    for (length = 0; length <= sizeof copied_to; length++)
        wants(steps_of(copies) <= MOST_OF_COPY && steps_of(moves) <= MOST_OF_COPY && steps_of(clears) <= MOST_OF_COPY, "a copy takes long");
}
#else
static void test_copies(void) {}

static void measure(frame_kind which) {
    lapd_steps = 0;
    status = lapd_frame(&card, 0, frame, length, &report);
    note(which, (unsigned long)(lapd_steps & 0xFFFFFF), (unsigned long)(lapd_steps >> 24));
}
#endif

/* The frame comes to the card of the scene. */
static void come(frame_kind which) {
    frames++;
    if (is_dry || (only_count > 0 && (only_at == only_count || frames != only[only_at])))
        return;
    only_at += only_count > 0;
    put_back();
    measure(which);
    wants(status == LAPD_OK, "a frame is not taken");
}

/* ---- Frames with each control field ----------------------------------------------------------------------------------------------- */

static const size_t sizes[] = {0, 1, 5, N201, N201 + 1};
enum { SIZES = sizeof sizes / sizeof sizes[0] };

/* What comes with an address: a control field of one octet, or of two if the second is not negative; each size of information. */
static void with_control(frame_kind which, uint8_t first, int second) {
    const size_t size = second < 0 ? 3 : 4;
    memset(frame + 2, 0, sizeof frame - 2);
    frame[2] = first;
    frame[3] = second < 0 ? 0 : (uint8_t)second;
    for (size_t each = 0; each < SIZES; each++) {
        length = size + sizes[each];
        come(which);
    }
}

/* Those of table 5, with P/F, one that is undefined, and supervisory ones with a reserved bit. */
static void with_unnumbered(frame_kind which) {
    static const uint8_t controls[] = {0x6F, 0x43, 0x63, 0x0F, 0x87, 0x03, 0xAF, 0x0B};
    for (size_t each = 0; each < sizeof controls; each++)
        for (unsigned poll = 0; poll <= 0x10; poll += 0x10)
            with_control(which, (uint8_t)(controls[each] | poll), -1);
    with_control(which, 0x0D, 0);
    with_control(which, 0x11, 0);
}

/* I-frames in order and not, and supervisory frames. N(R) acknowledges none to three, seven, or all of a window, or is invalid. */
static void with_numbers(unsigned link) {
    const unsigned acknowledged[] = {0, 1, 2, 3, 7, config.k16 > 7 ? config.k16 : 64, 127};
    const uint8_t controls[] = {(uint8_t)(2 * vr[link]), (uint8_t)(2 * ((vr[link] + 1) % 128)), 0x01, 0x05, 0x09};
    for (size_t each = 0; each < sizeof controls; each++)
        for (size_t number = 0; number < sizeof acknowledged / sizeof acknowledged[0]; number++)
            for (unsigned poll = 0; poll < 2; poll++)
                with_control(OF_LINK, controls[each], (int)(2 * ((va[link] + acknowledged[number]) % 128) + poll));
}

static void of_links(void) {
    static const unsigned those[] = {0, 1, LINKS - 2, LINKS - 1};
    for (size_t each = 0; each < sizeof those / sizeof those[0]; each++)
        for (unsigned is_command = 0; is_command < 2; is_command++) {
            frame[0] = first_octet(those[each] % 2 == 0 ? 0 : 16, is_command != 0);
            frame[1] = (uint8_t)(2 * teis[those[each] / 2] + 1);
            with_unnumbered(OF_LINK);
            with_numbers(those[each]);
        }
}

static void with_address(uint8_t first, uint8_t second) {
    frame[0] = first;
    frame[1] = second;
    with_unnumbered(OF_NO_LINK);
    for (unsigned control = 0; control <= 9; control += control == 0 ? 1 : 4)
        with_control(OF_NO_LINK, (uint8_t)control, 1);
}

/* Addresses of no link: TEIs that are not on the line, the group, other SAPIs; and those of wrong extension bits. */
static void of_no_link(void) {
    const uint8_t last = teis[TEIS - 1], others[][2] = {{0, OTHER_TEI}, {16, OTHER_TEI}, {0, 127}, {16, 127}, {63, 127}, {63, last}, {1, last}, {62, 127}};
    for (size_t each = 0; each < sizeof others / sizeof others[0]; each++)
        for (unsigned is_command = 0; is_command < 2; is_command++)
            with_address(first_octet(others[each][0], is_command != 0), (uint8_t)(2 * others[each][1] + 1));
    for (unsigned wrong = 1; wrong < 4; wrong++)
        with_address(first_octet(0, true) | (wrong & 1), (uint8_t)(2 * last + (wrong < 2)));
    memset(frame, 0xFF, sizeof frame);
    for (length = 0; length < HEAD; length++)
        come(TOO_SHORT);
}

/* ---- TEI management ----------------------------------------------------------------------------------------------------------------- */

static void come_message(uint8_t type, const uint8_t *number, const uint8_t *ai, size_t count) {
    length = message(frame, type, number, ai, count);
    come(OF_MANAGEMENT);
}

/* So many Ai, of which the one that is meant stands first, last or nowhere. */
static void come_several(uint8_t type, const uint8_t *number, size_t count) {
    uint8_t ai[N201];
    memset(ai, 2 * OTHER_TEI, sizeof ai);
    ai[count - 1] |= 1;
    come_message(type, number, ai, count);
    for (unsigned place = 0; place < TEIS; place += TEIS - 1) {
        memset(ai, 2 * OTHER_TEI, sizeof ai);
        ai[place == 0 ? 0 : count - 1] = (uint8_t)(2 * teis[place]);
        ai[count - 1] |= 1;
        come_message(type, number, ai, count);
    }
}

/* Each type of message and two of none, with the Ai of TEIs of the line, of others, of all; with none, and with several. */
static void with_number(const uint8_t *number) {
    static const uint8_t others[] = {2 * OTHER_TEI + 1, 2 * 5 + 1, 0xFF, 0xFE, 2 * OTHER_TEI};
    static const size_t counts[] = {2, 8, 63, 64, 65, 256};
    for (uint8_t type = 0; type <= 8; type++) {
        for (unsigned place = 0; place < TEIS; place += place == 0 ? BY_HAND - 1 : BY_HAND) {
            const uint8_t ai = (uint8_t)(2 * teis[place] + 1);
            come_message(type, number, &ai, 1);
        }
        for (size_t each = 0; each < sizeof others; each++)
            come_message(type, number, &others[each], 1);
        come_message(type, number, others, 0);
        for (size_t each = 0; each < sizeof counts / sizeof counts[0]; each++)
            come_several(type, number, counts[each]);
    }
}

/* A number that nobody knows; that of a terminal's request, or those of the first and the last TEI that was asked for. */
static void of_management(void) {
    const uint8_t numbers[][2] = {{0xAB, 0xCD}, {reference[0], reference[1]}, {0x10, BY_HAND}, {0x10, TEIS - 1}};
    with_number(numbers[0]);
    if (of->side == LAPD_TERMINAL)
        with_number(numbers[1]);
    for (size_t each = 2; of->side == LAPD_NETWORK && each < 4; each++)
        with_number(numbers[each]);
}

/* ---- All scenes --------------------------------------------------------------------------------------------------------------------- */

static void come_all(void) {
    const link_scene *links = &at->links;
    if (at->procedure == 0 || at->is_by_lot)
        of_links();
    if (at->is_by_lot || (at->procedure == 0 && !links->own_busy && !links->peer_busy && !links->rejects))
        of_no_link();
    if (at->procedure > 0 || at->is_by_lot || at->messages > 0 || !links->answers_wait)
        of_management();
}

static bool is_named(unsigned long from, unsigned long to) {
    return only_count == 0 || (only_at < only_count && only[only_at] > from && only[only_at] <= to);
}

static unsigned long scene_count;

static void look(const scene *it) {
    const unsigned long before = frames;
    at = it;
    scene_count++;
    is_dry = true;
    come_all();
    is_dry = false;
    if (!is_named(before, frames))
        return;
    frames = before;
    draw((uint32_t)scene_count);
    prepare(of, it);
    come_all();
    wants(is_kept(), "a frame writes over contents that wait");
}

static void look_if_possible(const scene *it) {
    if (is_possible(of, it))
        look(it);
}

/* The flags of links are the bits of a number. */
static link_scene links_of(unsigned state, unsigned flags, unsigned filled) {
    link_scene it = {state, flags & 1, flags & 2, flags & 4, flags & 8, flags & 16, (filling)filled};
    return it;
}

static void look_at_links(void) {
    for (unsigned state = 4; state <= 8; state++)
        for (unsigned flags = 0; flags < 32; flags++)
            for (unsigned filled = 0; filled < FILLINGS; filled++)
                for (unsigned is_old = 0; is_old < 2; is_old++) {
                    const scene it = {.links = links_of(state, flags, filled), .is_old = is_old};
                    look_if_possible(&it);
                }
}

static void look_at_procedures(void) {
    static const unsigned flags[] = {0, 1, 8, 16};
    const unsigned procedures = of->side == LAPD_TERMINAL ? OF_TERMINAL : OF_NETWORK;
    for (unsigned procedure = 0; procedure < procedures; procedure++)
        for (unsigned state = 4; state <= 8; state++)
            for (unsigned each = 0; each < 4 * 2 * 2 * 3; each++) {
                const filling filled = each & 4 ? REFUSED : EMPTY;
                const scene it = {.links = links_of(state, flags[each & 3], filled), .is_remembered = each & 8, .procedure = procedure,
                                  .messages = each >> 4 == 0 ? 0 : (each >> 4) + 2, .is_old = filled == REFUSED};
                if (procedure > 0 || it.messages > 0 || it.is_remembered)
                    look_if_possible(&it);
            }
}

static void look_at_lots(unsigned long lots) {
    const bool is_network = of->side == LAPD_NETWORK;
    for (unsigned long lot = 0; lot < lots; lot++) {
        draw((uint32_t)(lot * 7919 + 1));
        const scene it = {.is_by_lot = true, .is_old = below(2) != 0, .is_remembered = is_network && below(2) != 0,
                          .procedure = below(is_network ? OF_NETWORK : OF_TERMINAL), .messages = is_network && below(2) ? below(5) : 0};
        look_if_possible(&it);
    }
}

/* ---- What is told ------------------------------------------------------------------------------------------------------------------- */

static void tell(frame_kind which) {
    sift(which);
    for (size_t each = 0; each < lists[which].count; each++) {
        const found *it = &lists[which].of[each];
        printf("%lu %lu %lu %s: %zu octets", it->steps, it->copies, it->number, kinds[which], it->length);
        for (size_t octet = 0; octet < sizeof it->head && octet < it->length; octet++)
            printf(" %02X", it->head[octet]);
        printf("%s; ", it->length > sizeof it->head ? " .." : "");
        tell_scene(&it->of, &it->at);
        printf("\n");
    }
}

static int usage(void) {
    fprintf(stderr, "usage: dearest network|terminal LOTS [wide] [only FRAME..]\n");
    return 2;
}

int main(int words, char **word) {
    int next = 3;
    if (words < 3 || (strcmp(word[1], "network") != 0 && strcmp(word[1], "terminal") != 0))
        return usage();
    const bool is_wide = next < words && strcmp(word[next], "wide") == 0;
    next += is_wide;
    if (next < words && strcmp(word[next++], "only") != 0)
        return usage();
    for (; next < words && only_count < MOST_OF_LIST; next++)
        only[only_count++] = strtoul(word[next], NULL, 10);
    test_copies();
    for (unsigned each = 0; each < 4; each++) {
        const kind it = {word[1][0] == 'n' ? LAPD_NETWORK : LAPD_TERMINAL, each & 1 ? LAPD_ANNEX_B : LAPD_PROFILE, each & 2, is_wide};
        of = &it;
        begin(of);
        look_at_links();
        look_at_procedures();
        look_at_lots(strtoul(word[2], NULL, 10));
    }
    for (frame_kind which = OF_LINK; which < KINDS; which++)
        tell(which);
    printf("%lu frames in %lu scenes\n", frames, scene_count);
    return 0;
}
