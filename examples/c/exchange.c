/*
 * exchange.c: a small line card in C. One D-channel over standard input and output: for each octet that comes, one
 * goes. The card keeps its timers, by the system's monotonic time (linecard.c). Layer 3 answers each message of a terminal
 * with the same message.
 *
 *     cc -O2 -I ../../dist -o exchange exchange.c linecard.c trace.c pcap.c ../../dist/lapd.c
 *     exchange [--trace] [RECORD [CAPTURE]] < OCTETS > OCTETS
 *
 * Standard error tells what layer 3 is told. With --trace it has a log of how each frame begins, and of each note, expiry and
 * state as well (trace.c). With RECORD, all that happens is written there as a script of docs/FORMAT.md: `lapdsim run < RECORD`
 * then shows the same. With CAPTURE, how the frames of both ways begin is written there for Wireshark (pcap.c).
 */
#define _POSIX_C_SOURCE 200809L

#include <errno.h>
#include <poll.h>
#include <string.h>
#include <unistd.h>

#include "linecard.h"
#include "pcap.h"

enum { MOST_AT_A_TIME = 64 };

static const char usage[] = "usage: exchange [--trace] [RECORD [CAPTURE]] < OCTETS > OCTETS\n";
static const char help[] =
    "\n"
    "A line card with one D-channel: for each octet that comes, one goes. Each message of a terminal goes back to it.\n"
    "Standard error tells what layer 3 is told.\n"
    "\n"
    "  --trace  a log of how frames begin, and of notes, expiries and states, on standard error\n"
    "  RECORD   a file for all that happens, as a script: lapdsim run < RECORD shows the same\n"
    "  CAPTURE  a file for how the frames of both ways begin, for Wireshark\n";

static FILE *capture; /* or NULL */
static uint64_t heard; /* frames that were, until the latest of the capture */

/* A message came on a link: the same message goes back. */
static bool message_came(linecard *own, const lapd_note *note, const uint8_t *contents, size_t length) {
    uint8_t octets[LAPD_MOST_OCTETS];
    memcpy(octets, contents, length); /* the report is used again */
    return linecard_send(own, note, octets, length);
}

static linecard own = {.program = "exchange", .message_came = message_came, .card = LAPD_CARD_NONE};

static bool write_all(const uint8_t *octets, size_t length) {
    while (length > 0) {
        ssize_t written = write(STDOUT_FILENO, octets, length);
        if (written < 0 && errno != EINTR) {
            perror("exchange: the line");
            return false;
        }
        octets += written > 0 ? written : 0;
        length -= written > 0 ? (size_t)written : 0;
    }
    return true;
}

/* So many octets came; as many go. */
static bool exchange(const uint8_t *in, uint8_t *out, size_t length) {
    static lapd_report report;
    for (size_t steps = 0; steps < 2 * length;) {
        size_t before = steps;
        uint32_t status = lapd_exchange_at(&own.card, own.now, 0, in, length, out, length, &steps, &report);
        if (!linecard_is_ok(&own, status, "exchange"))
            return false;
        for (; own.record != NULL && before < steps; before++)
            before % 2 == 0 ? fprintf(own.record, "rx 0 %02X\n", in[before / 2]) : fprintf(own.record, "pull 0 1\n");
        if (capture != NULL && !pcap_heads(capture, own.now, LAPD_NETWORK, &own.card, 0, &report, &heard)) {
            fprintf(stderr, "exchange: the capture is not whole: a frame was left out\n");
            return false;
        }
        if (!linecard_tell(&own, &report))
            return false;
    }
    return write_all(out, length);
}

/* Serves the line until it ends. */
static bool serve(void) {
    uint8_t in[MOST_AT_A_TIME], out[MOST_AT_A_TIME];
    struct pollfd line = {.fd = STDIN_FILENO, .events = POLLIN, .revents = 0};
    while (linecard_wait(&own, &line, -1)) {
        if (line.revents == 0)
            continue;
        /* One octet at a time, so that frames are whole (pcap_heads, trace_heads). */
        ssize_t length = read(STDIN_FILENO, in, capture != NULL || own.log != NULL ? 1 : sizeof in);
        if (length <= 0)
            return true;
        if (!exchange(in, out, (size_t)length))
            return false;
    }
    return false;
}

/* Starts the card, serves the line, and ends; whether all went well. */
static bool run(void) {
    if (own.record != NULL)
        fprintf(own.record, "card " LINECARD_NUMBERS " annex-b\n");
    if (capture != NULL)
        pcap_begin(capture);
    uint32_t status = lapd_card_start_timed(&own.card, &linecard_config, &linecard_lengths);
    bool is_good = linecard_begin(&own, status) && pcap_begin_heads(&own.card, 0, &heard) && linecard_disown(&own)
                   && serve();
    bool is_captured = linecard_close(&own, capture, "capture");
    return linecard_end(&own) && is_captured && is_good;
}

int main(int words, char **word) {
    if (words == 2 && strcmp(word[1], "--help") == 0) {
        printf("%s%s", usage, help);
        return 0;
    }
    linecard_traces(&own, LAPD_NETWORK, &words, &word);
    if (words > 3 || (words > 1 && strncmp(word[1], "--", 2) == 0)) {
        fputs(usage, stderr);
        return 2;
    }
    if ((words > 1 && (own.record = linecard_open(&own, word[1])) == NULL)
        || (words > 2 && (capture = linecard_open(&own, word[2])) == NULL))
        return 1;
    return !run();
}
