/*
 * bench.c: has a card through the C library take and give octets in turn, call by call or by lapd_exchange, as tool_bench
 * does with the card from Rattle: see tests/c/speed, which measures both. For tests alone.
 *
 *     bench calls|timed|exchange idle|frames ROUNDS [BEFORE]
 *
 * One line. A round of `idle` is 1,024 flags that come, one of `frames` 128 I-frames with 64 octets of information; each
 * octet that comes is followed by one that goes. With `timed` a clock is there, which carries out all orders and is asked after
 * each octet what is due, which is none. Prints how many octets came and went, how many contents were delivered,
 * and the sum of the octets that went. With BEFORE it has done so many rounds already, and compiled with -DCOUNTED it has
 * callgrind begin to count then (--instr-atstart=no).
 */
#include <stdio.h>
#include <stdlib.h>
#include <string.h>

#ifdef COUNTED
#include <valgrind/callgrind.h>
#else
#define CALLGRIND_START_INSTRUMENTATION ((void)0)
#define CALLGRIND_STOP_INSTRUMENTATION ((void)0)
#endif

#include "hdlc.h"
#include "lapd.h"

enum { FLAGS = 1024, FRAMES = 128, INFORMATION = 64, MOST_STREAM = 16384, CHUNK = 256 };

static lapd_card card = LAPD_CARD_NONE;
static lapd_clock timers = LAPD_CLOCK_NONE;
static lapd_report report;
static uint8_t stream[MOST_STREAM], out[MOST_STREAM];
static unsigned long long delivered;

/* Octets of a sender until less than one is left, after those that there are. */
static size_t sent(hdlc_sender *sender, size_t count) {
    while (hdlc_busy(sender))
        stream[count++] = hdlc_octet(sender);
    return count;
}

/* A frame that a terminal sends, between flags: the stream anew. */
static size_t make_frames(unsigned frames, const uint8_t *head, size_t head_length, size_t information) {
    static hdlc_sender sender;
    uint8_t frame[4 + INFORMATION];
    memset(frame, 0x5A, sizeof frame);
    memcpy(frame, head, head_length);
    hdlc_begin(&sender);
    size_t count = 0;
    for (unsigned number = 0; number < frames; number++) {
        if (frames > 1)
            frame[2] = (uint8_t)(number * 2);
        hdlc_load(&sender, frame, head_length + information);
        count = sent(&sender, count);
    }
    if (hdlc_left(&sender) > 0)
        stream[count++] = hdlc_octet(&sender);
    return count;
}

static void by_calls(size_t count) {
    for (size_t i = 0; i < count; i++) {
        (void)!lapd_octet(&card, 0, stream[i], &report);
        delivered += report.delivered;
        (void)!lapd_pull(&card, 0, &out[i], &report);
    }
}

static void by_clock(size_t count) {
    lapd_due due;
    for (size_t i = 0; i < count; i++) {
        (void)!lapd_octet(&card, 0, stream[i], &report);
        delivered += report.delivered;
        if (report.order_count != 0)
            (void)!lapd_clock_apply_report(&timers, 0, &report, 0);
        if (lapd_clock_due(&timers, 0, &due) == LAPD_OK)
            (void)!lapd_expire(&card, due.line, &due.timer, &report);
        (void)!lapd_pull(&card, 0, &out[i], &report);
        if (report.order_count != 0)
            (void)!lapd_clock_apply_report(&timers, 0, &report, 0);
    }
}

static void by_exchange(size_t count) {
    for (size_t from = 0; from < count; from += CHUNK) {
        size_t length = count - from < CHUNK ? count - from : CHUNK;
        for (size_t steps = 0; steps < 2 * length;) {
            (void)!lapd_exchange(&card, 0, stream + from, length, out + from, length, &steps, &report);
            delivered += report.delivered;
        }
    }
}

/* The octets that come in a round. */
static size_t make_stream(const char *work) {
    static const uint8_t i_frame[] = {0x00, 0x81, 0x00, 0x00};
    if (strcmp(work, "frames") == 0)
        return make_frames(FRAMES, i_frame, sizeof i_frame, INFORMATION);
    memset(stream, 0x7E, FLAGS);
    return FLAGS;
}

static bool start(void) {
    static const lapd_config config = {.lines = 1, .terminals = 8, .k = 7, .k16 = 7, .queue = 8, .unit_queue = 4, .control = 4, .slots = 8,
                                       .n201 = 260, .n200 = 3};
    static const uint8_t sabme[] = {0x00, 0x81, 0x7F};
    if (lapd_card_start(&card, &config) != LAPD_OK || lapd_clock_start(&timers, &config) != LAPD_OK
        || lapd_assign(&card, 0, 64, &report) != LAPD_OK)
        return false;
    by_calls(make_frames(1, sabme, sizeof sabme, 0));
    uint8_t state;
    return lapd_state(&card, 0, LAPD_CALL, 64, &state) == LAPD_OK && state == 7;
}

static const struct {
    const char *name;
    void (*serve)(size_t count);
} ways[] = {{"calls", by_calls}, {"timed", by_clock}, {"exchange", by_exchange}};

int main(int words, char **word) {
    size_t at = 0;
    while (words >= 4 && at < 3 && strcmp(word[1], ways[at].name) != 0)
        at++;
    if (words < 4 || words > 5 || at == 3 || (strcmp(word[2], "idle") != 0 && strcmp(word[2], "frames") != 0)) {
        fprintf(stderr, "usage: bench calls|timed|exchange idle|frames ROUNDS [BEFORE]\n");
        return 2;
    }
    if (!start())
        return 1;
    unsigned long long rounds = strtoull(word[3], NULL, 10), sum = 0;
    size_t count = make_stream(word[2]);
    for (unsigned long long before = words > 4 ? strtoull(word[4], NULL, 10) : 0; before > 0; before--)
        ways[at].serve(count);
    delivered = 0;
    CALLGRIND_START_INSTRUMENTATION;
    for (unsigned long long round = 0; round < rounds; round++) {
        ways[at].serve(count);
        for (size_t i = 0; i < count; i++)
            sum += out[i];
    }
    CALLGRIND_STOP_INSTRUMENTATION;
    printf("%llu octets %llu delivered sum %llu\n", 2 * rounds * count, delivered, sum);
    return lapd_card_free(&card) != LAPD_OK || lapd_clock_free(&timers) != LAPD_OK;
}
