/*
 * polls.c: terminals poll (RR command, P=1) at a card of frames, and each is answered. For tests alone, which count the
 * instructions and the time.
 *
 *     polls TIMES [clock|own] [came|gone|due|group|short] [64] [after BEFORE]
 *
 * With `clock` all orders for timers are carried out on one, and it is asked each time what is due, which is none; with `own`
 * the card keeps its own timers, and lapd_fall_due is asked each time, at a moment that goes on. In place of polls, with `came`
 * an I-frame with 64 octets of information comes, and its RR goes; with `gone` layer 3 asks for 64 octets, the I-frame goes,
 * and its RR comes. With `due` T203 of each link in turn falls due, and the terminal is asked and answers. With `group` a
 * message to TEI 127 comes that the card does not serve, and with `short` a frame of one octet. Without 64 a terminal of one
 * line does so, else one of each of 64 lines in turn; for the last three each line has eight terminals with two links.
 * Prints how often all was right; status 1 where it was not each time. With `after` it has done so BEFORE times already, a
 * multiple of 128, and compiled with -DCOUNTED it has callgrind begin to count then (--instr-atstart=no).
 */
#include <stdio.h>
#include <stdlib.h>
#include <string.h>

#ifdef COUNTED
#include <valgrind/callgrind.h>
#else
#define CALLGRIND_START_INSTRUMENTATION ((void)0)
#define CALLGRIND_STOP_INSTRUMENTATION ((void)0)
#endif

#include "lapd.h"

enum { HEAD = 4, INFORMATION = 64, FIRST_TEI = 64, T203 = 10240 };
/* Who keeps the timers. It is a constant in each of the works, so that none pays for another. */
typedef enum { NO_TIMERS, CLOCK, OWN } keeper;

static const lapd_lengths lengths = {1000, T203, 1000, 2000, {0}};
static lapd_card card = LAPD_CARD_NONE;
static lapd_clock timers = LAPD_CLOCK_NONE;
static lapd_report report;
static uint8_t frame[LAPD_MOST_FRAME];
static size_t length;
static uint64_t now; /* in milliseconds; at a clock it stands, but with `due` */
static uint32_t lines = 1, terminals = 1;
static unsigned long before; /* how many works are done before those that count */

/* ---- What each event costs besides, by who keeps the timers ---------------------------------------------------------- */

/* After a call that tells a report. */
static inline bool is_ordered(keeper by, uint32_t line, uint32_t status) {
    return status == LAPD_OK && (by != CLOCK || lapd_clock_apply_report(&timers, line, &report, now) == LAPD_OK);
}

/* Nothing is due. */
static inline bool is_early(keeper by) {
    lapd_due due;
    return by == NO_TIMERS || (by == OWN ? lapd_fall_due(&card, ++now, &report) : lapd_clock_due(&timers, now, &due)) == LAPD_NO_TIMER;
}

static inline bool hears(keeper by, uint32_t line, const uint8_t *octets, size_t count) {
    return is_ordered(by, line, lapd_frame(&card, line, octets, count, &report));
}

static inline bool gives(keeper by, uint32_t line, const uint8_t *wanted, size_t count) {
    return is_ordered(by, line, lapd_next_frame(&card, line, frame, sizeof frame, &length, &report)) && length == count
           && memcmp(frame, wanted, count) == 0;
}

/* ---- The works ------------------------------------------------------------------------------------------------------ */

static inline bool is_answered(keeper by, uint32_t line, unsigned long at) {
    static const uint8_t poll[] = {0x00, 0x81, 0x01, 0x01}, answer[] = {0x00, 0x81, 0x01, 0x01};
    (void)at;
    return hears(by, line, poll, sizeof poll) && is_early(by) && gives(by, line, answer, sizeof answer);
}

/* An I-frame with this N(S) comes, and its RR goes. */
static inline bool has_come(keeper by, uint32_t line, unsigned long number) {
    static uint8_t data[HEAD + INFORMATION] = {0x00, 0x81}, rr[] = {0x00, 0x81, 0x01, 0x00};
    data[2] = (uint8_t)(2 * number);
    rr[3] = (uint8_t)(2 * number + 2);
    return hears(by, line, data, sizeof data) && report.length == INFORMATION && is_early(by) && gives(by, line, rr, sizeof rr);
}

/* One with this N(S) is asked for and goes, and its RR comes. */
static inline bool has_gone(keeper by, uint32_t line, unsigned long number) {
    static uint8_t data[HEAD + INFORMATION] = {0x02, 0x81}, rr[] = {0x02, 0x81, 0x01, 0x00};
    data[2] = (uint8_t)(2 * number);
    rr[3] = (uint8_t)(2 * number + 2);
    return is_ordered(by, line, lapd_data(&card, line, LAPD_CALL, FIRST_TEI, data + HEAD, INFORMATION, &report))
           && gives(by, line, data, sizeof data) && is_early(by) && hears(by, line, rr, sizeof rr);
}

/* The next timer expires, at its moment; it is one of this line. */
static inline bool expires(keeper by, uint32_t line) {
    lapd_due due;
    if (by == OWN)
        return lapd_next_moment(&card, &now) == LAPD_OK && lapd_fall_due(&card, now, &report) == LAPD_OK && report.line == line;
    return lapd_clock_next(&timers, &now) == LAPD_OK && lapd_clock_due(&timers, now, &due) == LAPD_OK && due.line == line
           && is_ordered(by, line, lapd_expire(&card, line, &due.timer, &report));
}

/* T203 of a link falls due; the terminal is asked, and answers. */
static inline bool is_due(keeper by, uint32_t line, unsigned long at) {
    const unsigned link = (unsigned)(at % (2 * terminals));
    const uint8_t first = link % 2 == 0 ? 0x02 : 0x42, second = (uint8_t)(2 * (FIRST_TEI + link / 2) + 1);
    const uint8_t asks[] = {first, second, 0x01, 0x01};
    return expires(by, line) && gives(by, line, asks, sizeof asks) && hears(by, line, asks, sizeof asks);
}

/* A check response comes that nobody asked for. */
static inline bool is_unserved(keeper by, uint32_t line, unsigned long at) {
    static const uint8_t response[] = {0xFC, 0xFF, 0x03, 0x0F, 0x12, 0x34, 0x05, 0x83};
    (void)at;
    return hears(by, line, response, sizeof response) && report.cause == LAPD_UNSERVED;
}

static inline bool is_short(keeper by, uint32_t line, unsigned long at) {
    static const uint8_t octet = 0;
    (void)at;
    return hears(by, line, &octet, sizeof octet) && report.cause == LAPD_SHORT;
}

/* How often a work was right: on one line, or on all in turn. */
#define WORK(name, by, is_right)                                         \
    static unsigned long name(unsigned long times) {                     \
        unsigned long right = 0;                                         \
        if (lines == 1)                                                  \
            for (unsigned long i = 0; i < times; i++)                    \
                right += is_right(by, 0, i);                             \
        else                                                             \
            for (unsigned long i = 0; i < times; i++)                    \
                right += is_right(by, (uint32_t)(i % lines), i / lines); \
        return right;                                                    \
    }
WORK(polls, NO_TIMERS, is_answered)
WORK(polls_with_clock, CLOCK, is_answered)
WORK(polls_with_own, OWN, is_answered)
WORK(comes, NO_TIMERS, has_come)
WORK(comes_with_clock, CLOCK, has_come)
WORK(comes_with_own, OWN, has_come)
WORK(goes, NO_TIMERS, has_gone)
WORK(goes_with_clock, CLOCK, has_gone)
WORK(goes_with_own, OWN, has_gone)
WORK(expire_by_clock, CLOCK, is_due)
WORK(fall_due, OWN, is_due)
WORK(messages, NO_TIMERS, is_unserved)
WORK(messages_with_own, OWN, is_unserved)
WORK(octets, NO_TIMERS, is_short)
WORK(octets_with_own, OWN, is_short)

static const struct {
    const char *name;
    keeper by;
    unsigned long (*count)(unsigned long times);
} works[] = {{"polls", NO_TIMERS, polls}, {"polls", CLOCK, polls_with_clock}, {"polls", OWN, polls_with_own},
             {"came", NO_TIMERS, comes}, {"came", CLOCK, comes_with_clock}, {"came", OWN, comes_with_own},
             {"gone", NO_TIMERS, goes}, {"gone", CLOCK, goes_with_clock}, {"gone", OWN, goes_with_own},
             {"due", CLOCK, expire_by_clock}, {"due", OWN, fall_due},
             {"group", NO_TIMERS, messages}, {"group", OWN, messages_with_own},
             {"short", NO_TIMERS, octets}, {"short", OWN, octets_with_own}};
enum { WORKS = sizeof works / sizeof *works };

/* ---- The card ------------------------------------------------------------------------------------------------------- */

static bool is_up(keeper by, uint32_t line, unsigned link) {
    const uint8_t first = link % 2 == 0 ? 0x00 : 0x40, tei = (uint8_t)(FIRST_TEI + link / 2), second = (uint8_t)(2 * tei + 1);
    const uint8_t sabme[] = {first, second, 0x7F}, ua[] = {first, second, 0x73};
    return (link % 2 == 1 || is_ordered(by, line, lapd_assign(&card, line, tei, &report))) && hears(by, line, sabme, sizeof sabme)
           && gives(by, line, ua, sizeof ua);
}

/* All its links are up: one of each line, or sixteen, each since a moment of its own. */
static bool start(keeper by) {
    const lapd_config config = {.lines = (uint16_t)lines, .terminals = 8, .k = 7, .k16 = 7, .queue = 8, .unit_queue = 4, .control = 4,
                                .slots = 8, .n201 = 260, .n200 = 3};
    bool is_there = by == OWN ? lapd_card_start_frames_timed(&card, &config, &lengths) == LAPD_OK
                              : lapd_card_start_frames(&card, &config) == LAPD_OK && lapd_clock_start(&timers, &config) == LAPD_OK
                                    && lapd_clock_set_lengths(&timers, lengths.t200, lengths.t203, lengths.t201, lengths.t202) == LAPD_OK;
    for (unsigned link = 0; link < (terminals == 1 ? 1 : 2 * terminals); link++)
        for (uint32_t line = 0; is_there && line < lines; line++, now += by == CLOCK && terminals > 1)
            is_there = is_early(by) && is_up(by, line, link);
    return is_there;
}

/* The work of these words, from the second on; WORKS where there is none. */
static size_t work_of(int words, char **word) {
    keeper by = NO_TIMERS;
    const char *name = "polls";
    for (int at = 2; at < words; at++)
        if (strcmp(word[at], "clock") == 0 || strcmp(word[at], "own") == 0)
            by = word[at][0] == 'c' ? CLOCK : OWN;
        else if (strcmp(word[at], "64") == 0)
            lines = LAPD_MOST_LINES;
        else if (strcmp(word[at], "after") == 0 && at + 1 < words)
            before = strtoul(word[++at], NULL, 10);
        else
            name = word[at];
    size_t work = 0;
    while (work < WORKS && (works[work].by != by || strcmp(works[work].name, name) != 0))
        work++;
    return work;
}

int main(int words, char **word) {
    unsigned long times = words > 1 ? strtoul(word[1], NULL, 10) : 0;
    const size_t work = work_of(words, word);
    if (times == 0 || work == WORKS || before % 128 != 0) {
        fprintf(stderr, "usage: polls TIMES [clock|own] [came|gone|due|group|short] [64] [after BEFORE]; due with one of the first\n");
        return 2;
    }
    const char *name = works[work].name;
    terminals = strcmp(name, "due") == 0 || strcmp(name, "group") == 0 || strcmp(name, "short") == 0 ? 8 : 1;
    if (!start(works[work].by))
        return 1;
    const bool is_warm = works[work].count(before) == before;
    CALLGRIND_START_INSTRUMENTATION;
    unsigned long right = works[work].count(times);
    CALLGRIND_STOP_INSTRUMENTATION;
    printf("%lu\n", right);
    return !is_warm || lapd_card_free(&card) != LAPD_OK || (works[work].by != OWN && lapd_clock_free(&timers) != LAPD_OK) || right != times;
}
