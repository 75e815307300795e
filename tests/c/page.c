/*
 * page.c: a loop of docs/EMBEDDING.md as a program. tests/c/run puts what the page shows into the file PAGE. Standard
 * input is the line. At a card of octets it is an octet every ten milliseconds: each note and each drop is printed at once,
 * and the octets that go out are printed at the end. At a card of frames (FRAMES) it is the octets of a frame after their
 * number, or 0, ten milliseconds in which none comes: each frame that goes out is printed at once, too.
 */
#include <stdio.h>
#include <stdlib.h>

#include "lapd.h"

static uint64_t time_now;

static int fail(const char *text) {
    fprintf(stderr, "%s\n", text);
    return 1;
}

#ifdef FRAMES
/* Where none comes in ten milliseconds, it waits no longer than asked for. */
static size_t frame_that_came(uint8_t *frame, size_t room, uint64_t until) {
    int length = getchar();
    if (length == EOF)
        exit(0);
    if (until <= time_now)
        exit(3); /* nothing that is due was left */
    if (length == 0)
        time_now += until - time_now < 10 ? until - time_now : 10;
    return (size_t)length <= room ? fread(frame, 1, (size_t)length, stdin) : 0;
}

static bool has_room(uint32_t line) {
    (void)line;
    return true;
}

static void frame_to_send(uint32_t line, const uint8_t *frame, size_t length) {
    printf("%u frame ", line);
    for (size_t i = 0; i < length; i++)
        printf("%02X", frame[i]);
    printf("\n");
}
#else
static char sent[1u << 16];
static size_t sent_length;

static uint8_t octet_that_came(void) {
    int octet = getchar();
    if (octet == EOF) {
        printf("0 tx %s\n", sent);
        exit(0);
    }
    return (uint8_t)octet;
}

static void octet_to_send(uint8_t octet) {
    if (sent_length + 3 <= sizeof sent)
        sent_length += (size_t)snprintf(sent + sent_length, 3, "%02X", octet);
    time_now += 10;
}
#endif

static uint64_t now(void) {
    return time_now;
}

static void layer_3(const lapd_report *of) {
    for (int i = 0; i < of->note_count; i++) {
        const lapd_note *note = &of->notes[i];
        printf("%u %s %u", of->line, lapd_note_text(note), note->tei);
        if (note->note == LAPD_ERROR_INDICATION)
            printf(" %c", note->error);
        printf("\n");
    }
    if (of->cause)
        printf("%u dropped %s\n", of->line, lapd_cause_text(of->cause));
}

static const lapd_config basic = LAPD_BASIC_ACCESS, primary = LAPD_PRIMARY_RATE;
static const lapd_lengths lengths = LAPD_DEFAULT_LENGTHS;
static lapd_card card = LAPD_CARD_NONE;
static lapd_report report;

static uint32_t told(uint32_t status) {
    if (status == LAPD_OK)
        layer_3(&report);                    /* notes, contents, room, of report.line */
    return status;
}

static uint32_t time_is(uint64_t moment) {   /* all that is due expires */
    uint32_t status;
    while ((status = told(lapd_fall_due(&card, moment, &report))) == LAPD_OK)
        ;
    return status == LAPD_NO_TIMER ? LAPD_OK : status;
}

/* What the page says of its two configurations: that the other one starts, too, and how many octets each takes. */
static bool is_as_said(void) {
    lapd_card other = LAPD_CARD_NONE;
    return lapd_card_start_frames_timed(&other, &primary, &lengths) == LAPD_OK && lapd_card_free(&other) == LAPD_OK
           && lapd_card_octets_timed(&basic) == 42064 && lapd_card_octets_frames_timed(&basic) == 41232
           && lapd_card_octets_timed(&primary) == 8464 && lapd_card_octets_frames_timed(&primary) == 7632;
}

static uint16_t random_number(void) {
    return 0x1234;
}

/* As the page has it. */
static uint32_t terminal_starts(void) {
    lapd_config phone = basic;
    phone.terminals = 1;
    phone.side = LAPD_TERMINAL;
    phone.seed = random_number();            /* of a source of random numbers */
    uint32_t status = lapd_card_start_frames_timed(&card, &phone, &lengths);
    if (status == LAPD_OK)
        status = time_is(now());             /* T202 runs from then on */
    if (status == LAPD_OK)
        status = told(lapd_ask_tei(&card, 0, &report));
    return status;
}

/* A terminal that starts so has its request to send, and T202 runs from its first moment on. */
static bool terminal_asks(void) {
    uint64_t moment = 0;
    uint32_t line;
    time_now = 5000;
    bool is_started = terminal_starts() == LAPD_OK && lapd_next_moment(&card, &moment) == LAPD_OK && moment == now() + lengths.t202
                      && lapd_next_waiting(&card, 0, &line) == LAPD_OK && lapd_card_free(&card) == LAPD_OK;
    time_now = 0;
    return is_started;
}

#ifdef FRAMES
/* Between its start and its loop the page has an exchange tell all terminals to give up their TEIs. */
static uint32_t exchange_starts(void) {
    uint32_t status = lapd_card_start_frames_timed(&card, &basic, &lengths);
    for (uint32_t line = 0; line < basic.lines; line++)
        for (int times = 0; status == LAPD_OK && times < 2; times++)
            status = told(lapd_disown(&card, line, LAPD_GROUP_TEI, &report));
    return status;
}
#undef lapd_card_start_frames_timed
#define lapd_card_start_frames_timed(of, config, each) exchange_starts()
#endif

int main(void) {
    if (!is_as_said())
        return fail("docs/EMBEDDING.md says otherwise of its configurations");
    if (!terminal_asks())
        return fail("a terminal does not start as docs/EMBEDDING.md shows");
#include PAGE
}
