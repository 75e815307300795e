/*
 * handed.c: what lapd.c's own parts decide of a call is what its machine decides. For tests alone; it has lapd.c in it, so
 * that it can ask the machine itself.
 *
 * - Configurations: fault_of finds the field, or the reserved place, that the machine's start finds, at each edge and at random, and lapd_image_octets is
 *   what the machine answers.
 * - Octets: a frame or contents of more octets than a call hands over are answered as their first ones are.
 * - Stack: it is as large as the deepest call takes, and AHEAD octets more. None of that, nor the start of a large card of octets,
 *   comes to these, which are filled and looked at afterwards.
 */
#include "lapd.c"

#include <stdio.h>

static u64 seed = 1;

static u32 below(u32 most) {
    seed = seed * 6364136223846793005u + 1442695040888963407u;
    return (u32)(seed >> 33) % most;
}

static void fail(const char *what, u32 one, u32 other) {
    fprintf(stderr, "%s: %u, and %u by the machine\n", what, (unsigned)one, (unsigned)other);
    exit(1);
}

/* The stack begins at STACK, which lapd.c has, and goes down to 0; its last AHEAD octets are filled. */
enum { FILL = 0xA5 };

static machine *filled(u64 heap) {
    machine *instance = new_machine(heap, 0);
    memset(instance, FILL, AHEAD);
    return instance;
}

static void end(machine *instance) {
    for (u32 i = 0; i < AHEAD; i++)
        if (instance[i] != FILL)
            fail("octets of stack", STACK - i, STACK - AHEAD);
    rattle_dealloc(OWN(instance));
}

/* ---- Configurations ----------------------------------------------------------------------------------------------- */

static unsigned good, bad;

/* A machine with no heap: a start on it finds a fault, or no memory. */
static void compare(const lapd_config *config) {
    machine *instance = filled(0);
    starts *const calls[] = {w2c_lapd_card_start, w2c_lapd_card_start_frames, w2c_lapd_clock_start};
    u32 fault = fault_of(config);
    put_lapd_config(instance, OTHER, config);
    for (int i = 0; i < 3; i++) {
        u32 status = calls[i](instance, HANDLE, OTHER);
        if (status != (fault != LAPD_OK ? fault : LAPD_NO_MEMORY))
            fail("a configuration", fault, status);
    }
    u32 octets = w2c_lapd_image_octets(instance, OTHER);
    if (octets != lapd_image_octets(config))
        fail("octets of an image", lapd_image_octets(config), octets);
    *(fault == LAPD_OK ? &good : &bad) += 1;
    end(instance);
}

static void configurations(void) {
    static const uint16_t edges[] = {0, 1, 2, 7, 8, 9, 10, 11, 16, 17, 64, 65, 126, 127, 128, 259, 260, 261, 8192, 8193, 65535};
    static const lapd_config usual = {.lines = 4, .terminals = 8, .k = 7, .k16 = 3, .queue = 8, .unit_queue = 4, .control = 4, .slots = 64,
                                      .n201 = 260, .n200 = 3};
    enum { FIELDS = sizeof(lapd_config) / sizeof(uint16_t), EDGES = sizeof edges / sizeof *edges };
    for (u32 round = 0; round < 20000; round++) {
        uint16_t fields[FIELDS];
        lapd_config config;
        memcpy(fields, &usual, sizeof fields);
        for (u32 i = below(4); i < 4; i++)
            fields[below(FIELDS)] = edges[below(EDGES)];
        memcpy(&config, fields, sizeof config);
        compare(&config);
    }
    if (good < 500 || bad < 500)
        fail("configurations in range and out of it", good, bad);
}

/* ---- Octets -------------------------------------------------------------------------------------------------------- */

enum { LONGEST = 2000 };

/* A machine with a card of frames, a link that is up, and room at its end for octets. */
static machine *with_link(const lapd_config *config) {
    static const u8 sabme[] = {0x00, 0x81, 0x7F};
    machine *instance = filled(lapd_card_octets(config) + LONGEST);
    put_lapd_config(instance, OTHER, config);
    u32 status = w2c_lapd_card_start_frames(instance, HANDLE, OTHER);
    status |= w2c_lapd_request(instance, HANDLE, 0, LAPD_ASSIGN, LAPD_CALL, 64, OTHER, 0, REPORT);
    memcpy(instance + OTHER, sabme, sizeof sabme);
    status |= w2c_lapd_frame(instance, HANDLE, 0, OTHER, sizeof sabme, REPORT);
    if (status != LAPD_OK)
        fail("a link", LAPD_OK, status);
    return instance;
}

/* Whether two machines have the same to say, and the same memory but for the octets that were handed over. */
static void are_same(const char *what, machine *one, machine *other, u32 a, u32 b) {
    lapd_report reports[2] = {{0}};
    get_lapd_report(one, REPORT, &reports[0]);
    get_lapd_report(other, REPORT, &reports[1]);
    struct lapd_counters counters[2];
    w2c_lapd_counters(one, HANDLE, 0, OTHER);
    w2c_lapd_counters(other, HANDLE, 0, OTHER);
    get_lapd_counters(one, OTHER, &counters[0]);
    get_lapd_counters(other, OTHER, &counters[1]);
    if (a != b || memcmp(&reports[0], &reports[1], sizeof reports[0]) != 0
        || memcmp(&counters[0], &counters[1], sizeof counters[0]) != 0)
        fail(what, a, b);
}

static void octets(void) {
    static const u8 heads[][4] = {{0x00, 0x81, 0x00, 0x00}, {0x00, 0x81, 0x03, 0x08}, {0x02, 0x81, 0x01, 0x01}, {0xFC, 0xFF, 0x03, 0x0F}};
    for (u32 round = 0; round < 3000; round++) {
        const lapd_config config = {.lines = 1, .terminals = 8, .k = 7, .k16 = 7, .queue = 8, .unit_queue = 4, .control = 4, .slots = 8,
                                    .n201 = (uint16_t)(round % 2 ? 260 : 8 + below(253)), .n200 = 3};
        machine *one = with_link(&config), *other = with_link(&config);
        u32 length = 266 + below(LONGEST - 266), at = OWN(one)->octets - LONGEST;
        for (u32 i = 0; i < length; i++)
            one[at + i] = (u8)below(256);
        memcpy(one + at, heads[below(4)], 4);
        memcpy(other + at, one + at, length);
        u32 cut = LAPD_MOST_FRAME + 1;
        are_same("a frame", one, other, w2c_lapd_frame(one, HANDLE, 0, at, cut, REPORT), w2c_lapd_frame(other, HANDLE, 0, at, length, REPORT));
        u8 request = (u8)(round % 5 ? LAPD_DATA : below(15)), service = (u8)(round % 7 ? LAPD_CALL : below(20));
        u32 line = round % 11 == 0, a, b;
        cut = LAPD_MOST_OCTETS + 1;
        a = w2c_lapd_request(one, HANDLE, line, request, service, 64, at, cut, REPORT);
        b = w2c_lapd_request(other, HANDLE, line, request, service, 64, at, length, REPORT);
        are_same("contents", one, other, a, b);
        end(one);
        end(other);
    }
}

/* ---- A start for octets, which takes the most stack ---------------------------------------------------------------- */

static void start_of_octets(void) {
    static const lapd_config most = {.lines = 64, .terminals = 8, .k = 127, .k16 = 127, .queue = 127, .unit_queue = 16, .control = 16,
                                     .slots = 8192, .n201 = 260, .n200 = 10};
    machine *instance = filled(lapd_card_octets(&most));
    put_lapd_config(instance, OTHER, &most);
    u32 status = w2c_lapd_card_start(instance, HANDLE, OTHER);
    if (status != LAPD_OK)
        fail("a card for octets", LAPD_OK, status);
    status = w2c_lapd_card_free(instance, HANDLE);
    if (status != LAPD_OK)
        fail("its end", LAPD_OK, status);
    end(instance);
}

int main(void) {
    configurations();
    octets();
    start_of_octets();
    return 0;
}
