/*
 * counts.c: what is counted of lines to which things happen at random: frames of every kind, whole, too long, too short,
 * and with a wrong check; timers, requests and pulls. Each counter is counted here again (counting.c), from what was sent to the
 * card, from what its reports tell, and from which frames began or were given. What began is pulled to its end, as the head of a
 * frame has no message. The card is one of octets, or of frames. For tests alone.
 *
 *     counts SEED KIND [user]   status 1 where a counter is another, or where hardly any name has something; KIND is octets
 *                               or frames; user where the card is the user's side
 */
#include <stdio.h>
#include <stdlib.h>
#include <string.h>

#include "counting.h"
#include "hdlc.h"
#include "lapd.h"

enum { LINES = 3, N201 = 16, TURNS = 4000, MOST_PULLS = 4000 };

static lapd_config config = {.lines = LINES, .terminals = 8, .k = 7, .k16 = 7, .queue = 8, .unit_queue = 4, .control = 2, .slots = 40,
                             .n201 = N201, .n200 = 3};
static lapd_card card;
static bool for_frames;
static lapd_report report;
static hdlc_sender senders[LINES];
static uint8_t asked[2]; /* the reference number of the latest message that went */
static hdlc_listener listeners[LINES];
static counting counted[LINES];
static uint32_t seed;

static unsigned below(unsigned most) {
    seed = seed * 1664525 + 1013904223;
    return (seed >> 8) % most;
}

static void pull(uint32_t line) {
    uint8_t octet;
    lapd_head head;
    (void)!lapd_pull(&card, line, &octet, &report);
    count_told(&counted[line], &report);
    if (report.begun && lapd_begun(&card, line, &head) == LAPD_OK)
        count_head(&counted[line], true, head.octets, head.length);
    if (!hdlc_hear(&listeners[line], octet))
        return;
    count_message(&counted[line], true, listeners[line].frame, listeners[line].length);
    if (listeners[line].frame[0] >> 2 == 63)
        memcpy(asked, listeners[line].frame + 4, sizeof asked);
}

/* At a card of frames. */
static void take_next(uint32_t line) {
    uint8_t octets[LAPD_MOST_FRAME];
    size_t length;
    if (lapd_next_frame(&card, line, octets, sizeof octets, &length, &report) != LAPD_OK)
        return;
    count_told(&counted[line], &report);
    count_given(&counted[line], octets, length);
    if (octets[0] >> 2 == 63)
        memcpy(asked, octets + 4, sizeof asked);
}

static void octet_comes(uint32_t line, uint8_t octet) {
    (void)!lapd_octet(&card, line, octet, &report);
    count_told(&counted[line], &report);
}

/* A frame of any kind: rarely one that makes sense. */
static size_t any_frame(uint8_t *octets) {
    static const uint8_t sapis[] = {0, 0, 0, 16, 63, 5};
    static const uint8_t controls[] = {0x01, 0x05, 0x09, 0x7F, 0x53, 0x03, 0x13, 0x73, 0x1F, 0x97, 0xAF, 0x0D, 0x11};
    unsigned tei = below(10) ? 64 + below(4) : 127;
    octets[0] = (uint8_t)(4 * sapis[below(sizeof sapis)] + 2 * below(2) + (below(40) == 0));
    octets[1] = (uint8_t)(2 * tei + 1);
    octets[2] = (uint8_t)(below(3) ? controls[below(sizeof controls)] : below(256));
    octets[3] = (uint8_t)below(8);
    for (unsigned i = 4; i < 30; i++)
        octets[i] = (uint8_t)below(256);
    return below(30) == 0 ? 1 + below(3) : below(2) ? 3u + (octets[2] % 4 != 3) : 4 + below(26);
}

/* One of TEI management: mostly what the other side sends. */
static size_t message(uint8_t *octets) {
    bool is_terminal = config.side == LAPD_TERMINAL, is_answer = is_terminal && below(2);
    const uint8_t of[] = {(uint8_t)((below(4) != 0) == is_terminal ? 0xFE : 0xFC), (uint8_t)(below(8) ? 0xFF : 0xFD),
                          below(8) ? 0x03 : 0x13, (uint8_t)(below(8) ? 0x0F : 0x0E), is_answer ? asked[0] : (uint8_t)below(3),
                          is_answer ? asked[1] : (uint8_t)below(4), (uint8_t)(below(3) ? 5u - is_terminal : below(2) ? 1 : below(10)), 0xFF};
    memcpy(octets, of, sizeof of);
    if (is_answer)
        octets[6] = (uint8_t)(below(4) ? 2 : 3);
    if (octets[6] == 5 || octets[6] == 6 || (is_terminal && octets[6] != 3 && below(4)))
        octets[7] = (uint8_t)(2 * (64 + below(4)) + 1);
    return sizeof of;
}

/* One that is likely to be served: of TEI management, or for a link that has a TEI. */
static size_t likely_frame(uint8_t *octets) {
    static const uint8_t controls[] = {0x7F, 0x7F, 0x73, 0x73, 0x01, 0x01, 0x01, 0x01, 0x09, 0x05};
    unsigned what = below(16);
    if (what == 0 || (what < 4 && config.side == LAPD_TERMINAL))
        return message(octets);
    octets[0] = below(4) ? 0 : 64;
    octets[1] = (uint8_t)(2 * (64 + below(3)) + 1);
    octets[2] = (uint8_t)(what < 6 ? 2 * below(3) : controls[what - 6]);
    octets[3] = (uint8_t)below(6);
    if (octets[2] % 2 == 0)
        return 4 + below(8);
    if (octets[2] == 0x73 || (octets[2] % 4 == 1 && below(2)))
        octets[0] |= 2;
    if (config.side != LAPD_NETWORK)
        octets[0] ^= 2;
    return octets[2] % 4 == 3 ? 3 : 4;
}

/* What is no frame: seven 1s give it up, its check is wrong, or its closing flag comes three bits late. */
static void noise_comes(uint32_t line) {
    static const uint8_t noises[][8] = {{0x7E, 0x00, 0x81, 0x55, 0xFF, 0x7E, 0x7E, 0x7E},
        {0x7E, 0x00, 0x81, 0x55, 0x12, 0x34, 0x56, 0x7E}, {0x7E, 0x00, 0x81, 0x55, 0x12, 0x34, 0xF0, 0x03}};
    static const uint8_t causes[] = {LAPD_ABORT, LAPD_RAGGED, LAPD_SHORT, LAPD_FCS};
    const uint8_t *noise = noises[below(3)];
    if (for_frames) {
        (void)!lapd_frame_failed(&card, line, causes[below(sizeof causes)], &report);
        count_told(&counted[line], &report);
        return;
    }
    for (unsigned i = 0; i < sizeof *noises; i++)
        octet_comes(line, noise[i]);
    hdlc_begin(&senders[line]);
}

static void frame_comes(uint32_t line) {
    uint8_t octets[32];
    size_t length = below(3) ? likely_frame(octets) : any_frame(octets);
    if (below(20) == 0)
        noise_comes(line);
    count_heard(&counted[line], octets, length);
    if (for_frames) {
        (void)!lapd_frame(&card, line, octets, length, &report);
        count_told(&counted[line], &report);
        return;
    }
    hdlc_load(&senders[line], octets, length);
    while (hdlc_busy(&senders[line]))
        octet_comes(line, hdlc_octet(&senders[line]));
    for (unsigned i = 0; i < 2; i++)
        octet_comes(line, hdlc_octet(&senders[line]));
}

static void asks(uint32_t line) {
    static const uint8_t requests[] = {LAPD_ESTABLISH, LAPD_RELEASE, LAPD_DATA, LAPD_DATA, LAPD_DATA, LAPD_UNIT,
        LAPD_ASSIGN, LAPD_REMOVE, LAPD_CHECK, LAPD_DISOWN, LAPD_BUSY, LAPD_READY, LAPD_READY, LAPD_DEACTIVATE, LAPD_DOWN, LAPD_ASK_TEI, LAPD_VERIFY_TEI};
    uint8_t request = requests[below(sizeof requests)], contents[N201 + 4] = {1, 2, 3};
    size_t length = request == LAPD_DATA || request == LAPD_UNIT ? below(sizeof contents) : 0;
    uint8_t service = below(2) ? LAPD_CALL : LAPD_PACKET;
    uint32_t status = lapd_request(&card, line, request, service, (uint8_t)(64 + below(4)), contents, length, &report);
    if (status == LAPD_OK)
        count_told(&counted[line], &report);
}

static void expires(uint32_t line) {
    lapd_timer timer = {(uint8_t)(LAPD_T200 + below(4)), below(2) ? LAPD_CALL : LAPD_PACKET, (uint8_t)(64 + below(4))};
    (void)!lapd_expire(&card, line, &timer, &report);
    count_told(&counted[line], &report);
}

static void happens(uint32_t line) {
    unsigned what = below(8);
    if (what == 0)
        asks(line);
    else if (what == 1)
        expires(line);
    else if (what == 2 && for_frames)
        for (unsigned i = 0; i < 8; i++)
            take_next(line);
    else if (what == 2)
        for (unsigned i = 0; i < 200; i++)
            pull(line);
    else
        frame_comes(line);
}

/* How many names have something on some line. */
static unsigned names(void) {
    unsigned many = 0;
    for (unsigned i = 0; i < LAPD_COUNTERS; i++)
        many += counted[0].values[i] + counted[1].values[i] + counted[2].values[i] > 0;
    return many;
}

int main(int count, char **words) {
    int failed = 0;
    if (count < 3)
        return 2;
    seed = (uint32_t)strtoul(words[1], NULL, 10);
    for_frames = strcmp(words[2], "frames") == 0;
    if (count > 3)
        config.side = strcmp(words[3], "terminal") == 0 ? LAPD_TERMINAL : LAPD_USER;
    if ((for_frames ? lapd_card_start_frames(&card, &config) : lapd_card_start(&card, &config)) != LAPD_OK)
        return 1;
    for (uint32_t line = 0; line < LINES; line++) {
        hdlc_begin(&senders[line]);
        hdlc_listen(&listeners[line]);
        counted[line].side = config.side;
        counted[line].n201 = config.n201;
        for (uint8_t tei = 64; tei < 67; tei++)
            failed |= lapd_assign(&card, line, tei, &report) != LAPD_OK;
    }
    for (unsigned i = 0; i < TURNS; i++)
        happens(below(LINES));
    for (unsigned i = 0; i < LINES * MOST_PULLS && !for_frames; i++)
        pull(i % LINES);
    for (uint32_t line = 0; line < LINES; line++)
        failed |= !counts_the_same(&counted[line], &card, line, "counts");
    printf("counts: %u of %d names\n", names(), LAPD_COUNTERS);
    failed |= lapd_card_free(&card) != LAPD_OK;
    return failed || names() < (config.side == LAPD_USER ? 46 : 52);
}
