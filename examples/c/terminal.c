/*
 * terminal.c: a small terminal in C, whose TEI the network assigns. Its D-channel is standard output and input, at 16 kbit/s:
 * it sends some octets, and takes as many. It asks for a TEI and establishes its link. Then it sends two messages, one after
 * the other, which have to come back as they are. At last it releases the link and ends. Meanwhile its card answers each
 * check of the TEI. If the network removes the TEI, it asks for another and begins anew.
 *
 *     cc -O2 -I ../../dist -o terminal terminal.c linecard.c trace.c ../../dist/lapd.c
 *     terminal [--trace] [--seed NUMBER] [RECORD] < OCTETS > OCTETS
 *
 * Standard error tells what layer 3 is told. With --trace it has a log of how each frame begins, and of each note, expiry and
 * state as well (trace.c). With RECORD, all that happens is written there as a script of docs/FORMAT.md: `lapdsim run <
 * RECORD` then shows the same. Its first reference number is of /dev/urandom, or this NUMBER.
 * examples/c/exchange.c is the other side; a pipe joins both: mkfifo line && ./exchange < line | ./terminal > line
 */
#define _POSIX_C_SOURCE 200809L

#include <errno.h>
#include <stdlib.h>
#include <string.h>
#include <unistd.h>

#include "linecard.h"

enum { AT_A_TIME = 16, MS_OF_THEM = 8, MESSAGES = 2 };

static const char usage[] = "usage: terminal [--trace] [--seed NUMBER] [RECORD] < OCTETS > OCTETS\n";
static const char help[] =
    "\n"
    "A terminal with one D-channel: it sends octets, and takes as many. It asks for a TEI, establishes its link, sends two\n"
    "messages, which have to come back, and releases the link. Standard error tells what layer 3 is told.\n"
    "\n"
    "  --trace  a log of how frames begin, and of notes, expiries and states, on standard error\n"
    "  --seed   its first reference number, 0 to 65535; else it is of /dev/urandom\n"
    "  RECORD   a file for all that happens, as a script: lapdsim run < RECORD shows the same\n";

static lapd_config config = LAPD_BASIC_ACCESS; /* but for what run changes, which the numbers have */
#define TERMINAL_NUMBERS "1 1 1 8 4 4 132 260 3 3"

static const uint8_t messages[MESSAGES][3] = {{0x08, 0x01, 0x01}, {0x08, 0x01, 0x02}};
static unsigned returned; /* messages that came back */
static bool is_done, has_failed;

/* ---- Layer 3 ------------------------------------------------------------------------------------------------------ */

static bool fails(const char *why) {
    fprintf(stderr, "terminal: %s\n", why);
    has_failed = true;
    return true;
}

static bool changed(linecard *own, const lapd_note *note) {
    uint8_t state = 0;
    switch (note->note) {
    case LAPD_ASSIGNED: return linecard_ask(own, "establish", LAPD_ESTABLISH, note->tei);
    case LAPD_REMOVED: returned = 0; return linecard_ask(own, "ask", LAPD_ASK_TEI, LAPD_GROUP_TEI);
    case LAPD_UNASSIGNED: return fails("the network assigns no TEI");
    case LAPD_ESTABLISH_CONFIRM: return linecard_send(own, note, messages[returned], sizeof *messages);
    case LAPD_RELEASE_CONFIRM: is_done = true; return true;
    case LAPD_RELEASE_INDICATION: /* where the TEI has left, another is asked for */
        if (!linecard_is_ok(own, lapd_state(&own->card, 0, LAPD_CALL, note->tei, &state), "state"))
            return false;
        return state == 0 || fails("the link is down");
    default: return true; /* where it is denied a TEI, its card goes on asking */
    }
}

/* A message came back: the next one goes, or the link is released. */
static bool message_came(linecard *own, const lapd_note *note, const uint8_t *contents, size_t length) {
    if (returned == MESSAGES || length != sizeof *messages || memcmp(contents, messages[returned], length) != 0)
        return fails("another message came back");
    if (++returned < MESSAGES)
        return linecard_send(own, note, messages[returned], sizeof *messages);
    return linecard_ask(own, "release", LAPD_RELEASE, note->tei);
}

static linecard own = {.program = "terminal", .message_came = message_came, .changed = changed, .side = LAPD_TERMINAL,
                       .card = LAPD_CARD_NONE};

/* ---- The line ----------------------------------------------------------------------------------------------------- */

/* The octets that go next. */
static bool pull(uint8_t *octets) {
    static lapd_report report;
    for (unsigned i = 0; i < AT_A_TIME; i++) {
        if (own.record != NULL)
            fprintf(own.record, "pull 0 1\n");
        if (!linecard_is_ok(&own, lapd_pull(&own.card, 0, &octets[i], &report), "pull") || !linecard_tell(&own, &report))
            return false;
    }
    return true;
}

/* These octets came. */
static bool take(const uint8_t *octets) {
    static lapd_report report;
    for (unsigned i = 0; i < AT_A_TIME; i++) {
        if (own.record != NULL)
            fprintf(own.record, "rx 0 %02X\n", octets[i]);
        if (!linecard_is_ok(&own, lapd_octet(&own.card, 0, octets[i], &report), "octet") || !linecard_tell(&own, &report))
            return false;
    }
    return true;
}

/* All octets go, or as many come; not if the other side has ended. */
static bool whole(bool is_sent, uint8_t *octets) {
    for (size_t done = 0; done < AT_A_TIME;) {
        ssize_t count = is_sent ? write(STDOUT_FILENO, octets + done, AT_A_TIME - done)
                                : read(STDIN_FILENO, octets + done, AT_A_TIME - done);
        if (count == 0 || (count < 0 && errno != EINTR)) {
            fprintf(stderr, "terminal: the line has ended\n");
            return false;
        }
        done += count > 0 ? (size_t)count : 0;
    }
    return true;
}

/* At the line's pace, until layer 3 has done all, or can't. */
static bool serve(void) {
    uint8_t octets[AT_A_TIME];
    bool good = linecard_ask(&own, "ask", LAPD_ASK_TEI, LAPD_GROUP_TEI);
    while (good && !is_done && !has_failed)
        good = linecard_wait(&own, NULL, MS_OF_THEM) && pull(octets) && whole(true, octets) && whole(false, octets)
               && take(octets);
    return good && !has_failed;
}

/* ---- Its start ---------------------------------------------------------------------------------------------------- */

/* Two octets of the system's source of random numbers. */
static bool is_random(uint16_t *seed) {
    FILE *file = fopen("/dev/urandom", "rb");
    bool is_read = file != NULL && fread(seed, sizeof *seed, 1, file) == 1;
    if (file != NULL)
        fclose(file);
    if (!is_read)
        fprintf(stderr, "terminal: there is no /dev/urandom: give it a --seed\n");
    return is_read;
}

static bool is_number(const char *word, uint16_t *seed) {
    char *end;
    unsigned long number = strtoul(word, &end, 10);
    *seed = (uint16_t)number;
    return strchr("0123456789", word[0]) != NULL && word[0] != 0 && *end == 0 && number <= 65535;
}

static bool run(void) {
    config.terminals = 1;
    config.side = LAPD_TERMINAL;
    if (own.record != NULL)
        fprintf(own.record, "card " TERMINAL_NUMBERS " user %u annex-b\n", config.seed);
    bool is_good = linecard_begin(&own, lapd_card_start_timed(&own.card, &config, &linecard_lengths)) && serve();
    return linecard_end(&own) && is_good;
}

int main(int words, char **word) {
    if (words == 2 && strcmp(word[1], "--help") == 0) {
        printf("%s%s", usage, help);
        return 0;
    }
    linecard_traces(&own, LAPD_TERMINAL, &words, &word);
    bool has_seed = words > 2 && strcmp(word[1], "--seed") == 0, is_good = !has_seed || is_number(word[2], &config.seed);
    words -= has_seed ? 2 : 0;
    word += has_seed ? 2 : 0;
    if (!is_good || words > 2 || (words > 1 && strncmp(word[1], "--", 2) == 0)) {
        fputs(usage, stderr);
        return 2;
    }
    if ((!has_seed && !is_random(&config.seed)) || (words > 1 && (own.record = linecard_open(&own, word[1])) == NULL))
        return 1;
    return !run();
}
