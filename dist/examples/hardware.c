/*
 * hardware.c: a small line card in C whose controller has flags, stuffed 0s and checks in hardware. One D-channel is
 * standard input, as the drivers of such controllers give and take frames: a socket with one frame a datagram, or a
 * device with one frame a read and a write. The card keeps its timers, by the system's monotonic time (linecard.c).
 * Layer 3 answers every call (q931.h).
 *
 *     cc -O2 -I .. -o hardware hardware.c linecard.c trace.c pcap.c ../lapd.c
 *     hardware [--trace] [--check] [RECORD [CAPTURE]] <> LINE
 *
 * With --trace standard error has a log of each frame, note, expiry and state as well (trace.c).
 * With --check two octets follow each frame, in place of its check, as DAHDI's D-channels have them; without it
 * the frame is all, as in Linux's LAPD devices. Standard error tells what layer 3 is told. With RECORD, all that
 * happens is written there as a script of lapdsim.5: `lapdsim run < RECORD` then shows the same. With CAPTURE, the
 * frames of both ways are written there for Wireshark (pcap.c). A frame of no octets, or the other side's end, ends the
 * program.
 */
#define _POSIX_C_SOURCE 200809L

#include <errno.h>
#include <poll.h>
#include <signal.h>
#include <string.h>
#include <unistd.h>

#include "linecard.h"
#include "pcap.h"
#include "q931.h"

enum { LONGEST_DATAGRAM = 2048 };

static const char usage[] = "usage: hardware [--trace] [--check] [RECORD [CAPTURE]] <> LINE\n";
static const char help[] =
    "\n"
    "A line card with one D-channel, whose line gives and takes one frame a read and a write. It answers every call.\n"
    "Standard error tells what layer 3 is told.\n"
    "\n"
    "  --trace  a log of each frame, note, expiry and state on standard error\n"
    "  --check  two octets follow each frame, in place of its check\n"
    "  RECORD   a file for all that happens, as a script: lapdsim run < RECORD shows the same\n"
    "  CAPTURE  a file for the frames of both ways, for Wireshark\n";

static size_t check_octets;
static FILE *capture; /* or NULL */

/* A message came on a link: it is answered as q931.h has it. */
static bool message_came(linecard *own, const lapd_note *note, const uint8_t *contents, size_t length) {
    uint8_t answer[Q931_MOST_ANSWER];
    size_t octets = q931_answer(contents, length, answer);
    return octets == 0 || linecard_send(own, note, answer, octets);
}

static linecard own = {.program = "hardware", .message_came = message_came, .card = LAPD_CARD_NONE};

/* A frame came. A driver that tells of aborts and bad checks hands them to lapd_frame_failed; this one has none. */
static bool take(const uint8_t *datagram, size_t length) {
    static lapd_report report;
    length -= length < check_octets ? length : check_octets;
    if (own.record != NULL) {
        fprintf(own.record, "in 0 ");
        put_octets(own.record, datagram, length);
    }
    if (capture != NULL)
        pcap_frame(capture, own.now, false, LAPD_NETWORK, datagram, length, length);
    if (own.log != NULL)
        trace_frame(own.log, own.now, 0, false, datagram, length, length);
    for (bool is_done = false; !is_done;) {
        uint32_t status = lapd_frame_at(&own.card, own.now, 0, datagram, length, &is_done, &report);
        if (!linecard_is_ok(&own, status, "frame") || !linecard_tell(&own, &report))
            return false;
    }
    return true;
}

/* A frame goes to the line, with room for a check after it. */
static bool send_frame(uint8_t *datagram, size_t length) {
    if (own.log != NULL)
        trace_frame(own.log, own.now, 0, true, datagram, length, length);
    if (own.record != NULL)
        fprintf(own.record, "next 0\n");
    if (capture != NULL)
        pcap_frame(capture, own.now, true, LAPD_NETWORK, datagram, length, length);
    memset(datagram + length, 0, check_octets);
    if (write(STDIN_FILENO, datagram, length + check_octets) >= 0 || errno == EPIPE)
        return true;
    perror("hardware: the line");
    return false;
}

/* Frames that wait go, as long as the controller has room for one more; is_full says that it has none. */
static bool give(bool *is_full) {
    static lapd_report report;
    uint8_t datagram[LAPD_MOST_FRAME + 2] = {0};
    struct pollfd room = {.fd = STDIN_FILENO, .events = POLLOUT, .revents = 0};
    *is_full = false;
    for (uint32_t line; lapd_next_waiting(&own.card, 0, &line) == LAPD_OK;) {
        *is_full = poll(&room, 1, 0) != 1 || (room.revents & POLLOUT) == 0;
        if (*is_full)
            return true;
        size_t length; /* 0 after a timer, which may also take away what waits */
        uint32_t status = lapd_next_frame_at(&own.card, own.now, line, datagram, LAPD_MOST_FRAME, &length, &report);
        if (!linecard_is_ok(&own, status, "next frame") || (length != 0 && !send_frame(datagram, length))
            || !linecard_tell(&own, &report))
            return false;
    }
    return true;
}

/* Serves the line until it ends: what waits is sent, and then the program waits. */
static bool serve(void) {
    uint8_t datagram[LONGEST_DATAGRAM];
    bool is_full = false;
    struct pollfd line = {.fd = STDIN_FILENO, .events = POLLIN, .revents = 0};
    while (give(&is_full)) {
        line.events = is_full ? POLLIN | POLLOUT : POLLIN;
        if (!linecard_wait(&own, &line, -1))
            return false;
        if ((line.revents & (POLLIN | POLLHUP | POLLERR)) != 0) {
            ssize_t length = read(STDIN_FILENO, datagram, sizeof datagram);
            if (length <= 0)
                return length == 0 || errno == ECONNRESET;
            if (!take(datagram, (size_t)length))
                return false;
        }
    }
    return false;
}

/* Starts the card, disowns the TEIs of an earlier run, serves the line, and ends; whether all went well. */
static bool run(void) {
    if (own.record != NULL)
        fprintf(own.record, "frames " LINECARD_NUMBERS " annex-b\n");
    if (capture != NULL)
        pcap_begin(capture);
    uint32_t status = lapd_card_start_frames_timed(&own.card, &linecard_config, &linecard_lengths);
    bool is_good = linecard_begin(&own, status) && linecard_disown(&own) && serve();
    bool is_captured = linecard_close(&own, capture, "capture");
    return linecard_end(&own) && is_captured && is_good;
}

int main(int words, char **word) {
    if (words == 2 && strcmp(word[1], "--help") == 0) {
        printf("%s%s", usage, help);
        return 0;
    }
    linecard_traces(&own, LAPD_NETWORK, &words, &word);
    if (words > 1 && strcmp(word[1], "--check") == 0) {
        check_octets = 2;
        words--;
        word++;
    }
    if (words > 3 || (words > 1 && strncmp(word[1], "--", 2) == 0)) {
        fputs(usage, stderr);
        return 2;
    }
    if ((words > 1 && (own.record = linecard_open(&own, word[1])) == NULL)
        || (words > 2 && (capture = linecard_open(&own, word[2])) == NULL))
        return 1;
    signal(SIGPIPE, SIG_IGN); /* a write to a side that has ended fails instead */
    return !run();
}
