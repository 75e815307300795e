/*
 * gateway_day.c: a day of simulated time of examples/c/gateway.c, with 64 basic access lines by frames. At each line
 * libpri, the ISDN stack of a widespread PBX, is the terminal: it asks for a TEI, comes up, calls and hangs up, refuses a
 * call, and answers polls. A frame takes its time on the line, at 16 kbit/s, and the driver takes the next one then.
 * Frames get spoilt both ways, and lines go down. All that passes is counted here again (counting.c), and compared with the
 * card's counters each hour; so is what is told of further frames with what waits. The sums of all counters are printed,
 * and each hour a number made of the counters of each line: compiled with clocked.h, where a clock is beside a card
 * without timers, it prints the same. For tests alone; libpri's time is this program's.
 *
 *     gateway_day HOURS SEED
 *
 * Status 1 where a counter is another, a call of the gateway's fails, or little has happened.
 */
#define _DEFAULT_SOURCE

#include <errno.h>
#include <stdio.h>
#include <stdlib.h>
#include <string.h>
#include <sys/time.h>

#include "counting.h"
#include "gateway.h"
#include "libpri_terminal.h"
#include "q931.h"

enum { LINES = LAPD_MOST_LINES, HOUR = 3600000, MOST_WAITING = 64, SPOILS_ONE_OF = 400 };
enum { CHECK_OCTETS = 2, FLAG_OCTETS = 1, OCTETS_EACH_MS = 2 };
/* milliseconds at most: between two calls of a line, of one call, and between two losses of layer 1 and of one */
enum { CALLS_EACH = 900000, TALKS = 180000, UP_FOR = 7200000, DOWN_FOR = 40000 };

static const lapd_config config = {.lines = LINES, .terminals = 1, .k = 1, .k16 = 3, .queue = 8, .unit_queue = 4,
                                   .control = 4, .slots = 128, .n201 = 260, .n200 = 3, .side = LAPD_NETWORK};
static const lapd_lengths lengths = {.t200 = 1000, .t203 = 10000, .t201 = 1000, .t202 = 2000};

/* A frame on a line, or none, of length 0. */
typedef struct {
    uint64_t arrives_at;
    bool is_spoilt;
    size_t length;
    uint8_t octets[LAPD_MOST_FRAME];
} sent_frame;

/* A line, and the terminal at its end. */
typedef struct {
    struct pri *pri;
    q931_call *call;
    uint64_t calls_at;   /* when it calls, or hangs up */
    uint64_t changes_at; /* when layer 1 is lost, or comes again */
    uint64_t due_at;     /* when the first of all happens */
    bool is_down;
    sent_frame to_terminal;
    sent_frame to_gateway[MOST_WAITING]; /* what the terminal has sent, from `first` on */
    size_t first, count;
} access_line;

static gateway own = GATEWAY_NONE;
static access_line lines[LINES];
static counting counted[LINES];
static struct {
    uint64_t frames, followed, spoilt, calls, answered, cleared, refused, downs;
} seen;
static uint64_t now, seed;

static uint64_t below(uint64_t most) {
    seed = seed * 6364136223846793005u + 1442695040888963407u;
    return (seed >> 33) % most;
}

static uint64_t earlier(uint64_t one, uint64_t other) {
    return one < other ? one : other;
}

static void want(bool is, const char *what) {
    if (!is) {
        fprintf(stderr, "gateway_day: %s, after %llu ms\n", what, (unsigned long long)now);
        exit(1);
    }
}

static void want_ok(uint32_t status, const char *call) {
    if (status != LAPD_OK)
        fprintf(stderr, "gateway_day: %s: %s\n", call, lapd_status_text(status));
    want(status == LAPD_OK, call);
}

/* ---- The gateway's layer 3 ---------------------------------------------------------------------------------------- */

static void on_report(gateway *gate, const lapd_report *report) {
    uint8_t answer[Q931_MOST_ANSWER];
    uint32_t line = report->line;
    count_told(&counted[line], report);
    for (const lapd_note *note = report->notes; note < report->notes + report->note_count; note++) {
        if (note->note != LAPD_DATA_INDICATION)
            continue;
        size_t length = q931_answer(report->contents, report->length, answer);
        if (length == 0)
            continue;
        uint32_t status = gateway_ask(gate, now, line, LAPD_DATA, note->service, note->tei, answer, length);
        seen.refused += status != LAPD_OK;
    }
}

/* ---- The terminals ------------------------------------------------------------------------------------------------ */

/* libpri's time: the gateway's moment, a while after 1970. */
int gettimeofday(struct timeval *restrict at, void *restrict zone) {
    (void)zone;
    at->tv_sec = (time_t)(1000000 + now / 1000);
    at->tv_usec = (suseconds_t)(now % 1000 * 1000);
    return 0;
}

static uint64_t moment_of(const struct timeval *at) {
    return (uint64_t)(at->tv_sec - 1000000) * 1000 + (uint64_t)(at->tv_usec + 999) / 1000;
}

/* Puts a frame on a line, which is free at a moment. */
static void transmit(sent_frame *on_line, uint64_t free_at, const uint8_t *octets, size_t length) {
    size_t all = length + CHECK_OCTETS + FLAG_OCTETS;
    want(0 < length && length <= sizeof on_line->octets, "a frame is too long");
    on_line->arrives_at = free_at + (all + OCTETS_EACH_MS - 1) / OCTETS_EACH_MS;
    on_line->is_spoilt = below(SPOILS_ONE_OF) == 0;
    on_line->length = length;
    memcpy(on_line->octets, octets, length);
    seen.frames++;
    seen.spoilt += on_line->is_spoilt;
}

/* libpri sends a frame, after those that the line still has. */
static int terminal_writes(struct pri *pri, void *octets, int length) {
    access_line *at = &lines[pri_fd(pri)];
    if (at->is_down)
        return length;
    want(at->count < MOST_WAITING, "a terminal sends too much");
    const sent_frame *last = at->count == 0 ? NULL : &at->to_gateway[(at->first + at->count - 1) % MOST_WAITING];
    transmit(&at->to_gateway[(at->first + at->count) % MOST_WAITING], last == NULL ? now : last->arrives_at, octets,
             (size_t)length - CHECK_OCTETS);
    at->count++;
    return length;
}

/* libpri reads the frame that has arrived, if one has. */
static int terminal_reads(struct pri *pri, void *octets, int room) {
    sent_frame *arrived = &lines[pri_fd(pri)].to_terminal;
    size_t length = arrived->length;
    if (length == 0 || arrived->arrives_at > now || (size_t)room < length + CHECK_OCTETS)
        return 0;
    memcpy(octets, arrived->octets, length);
    memset((uint8_t *)octets + length, 0, CHECK_OCTETS);
    arrived->length = 0;
    return (int)length + CHECK_OCTETS;
}

static void on_event(access_line *at, const pri_event *event) {
    if (event == NULL)
        return;
    if (event->e == PRI_EVENT_RING)
        pri_hangup(at->pri, event->ring.call, PRI_CAUSE_INCOMPATIBLE_DESTINATION);
    if (event->e == PRI_EVENT_ANSWER) {
        seen.answered++;
        at->calls_at = now + 1 + below(TALKS);
    }
    if (event->e == PRI_EVENT_HANGUP || event->e == PRI_EVENT_HANGUP_REQ)
        pri_hangup(at->pri, event->hangup.call, 16);
    if (event->e == PRI_EVENT_HANGUP_ACK || event->e == PRI_EVENT_HANGUP) {
        seen.cleared++;
        at->call = NULL;
        at->calls_at = now + 1 + below(CALLS_EACH);
    }
}

/* The terminal calls, or hangs up. */
static void call_or_clear(access_line *at) {
    at->calls_at = now + 1 + below(CALLS_EACH);
    if (at->call != NULL) {
        pri_hangup(at->pri, at->call, 16);
        return;
    }
    at->call = libpri_calls(at->pri);
    seen.calls++;
}

/* ---- The gateway's drivers ---------------------------------------------------------------------------------------- */

/* The oldest frame of a terminal has arrived. */
static void receive(uint32_t line) {
    access_line *at = &lines[line];
    const sent_frame *arrived = &at->to_gateway[at->first];
    at->first = (at->first + 1) % MOST_WAITING;
    at->count--;
    if (arrived->is_spoilt) {
        want_ok(gateway_frame_failed(&own, line, LAPD_FCS), "a fault");
        return;
    }
    count_heard(&counted[line], arrived->octets, arrived->length);
    want_ok(gateway_frame(&own, now, line, arrived->octets, arrived->length), "a frame");
}

static bool is_waiting(uint32_t line) {
    uint32_t first;
    return lapd_next_waiting(&own.card, line, &first) == LAPD_OK && first == line;
}

/* Takes the next frame of a line, if one waits. */
static bool take(uint32_t line, uint8_t frame[LAPD_MOST_FRAME], size_t *length) {
    bool more;
    uint32_t status = gateway_take(&own, now, line, frame, LAPD_MOST_FRAME, length, &more);
    if (status == LAPD_NO_FRAME)
        return false;
    want_ok(status, "the next frame");
    want(more == is_waiting(line), "more is told of a line that does not wait, or not of one that does");
    seen.followed += more;
    count_given(&counted[line], frame, *length);
    return true;
}

/* Sends the next frame of a line, which waits, if the line is up and has sent the one before. */
static void send_next(uint32_t line) {
    access_line *at = &lines[line];
    uint8_t frame[LAPD_MOST_FRAME];
    size_t length;
    if (at->is_down || at->to_terminal.length != 0)
        return;
    want(take(line, frame, &length), "a line that waits gives no frame");
    transmit(&at->to_terminal, now, frame, length);
    at->due_at = earlier(at->due_at, at->to_terminal.arrives_at);
}

/* Layer 1 of a line is lost, with all frames that are on their way. */
static void lose_line(uint32_t line) {
    access_line *at = &lines[line];
    uint8_t frame[LAPD_MOST_FRAME], place = 0;
    size_t length;
    seen.downs++;
    at->count = 0;
    at->to_terminal.length = 0;
    want_ok(gateway_down(&own, line), "a line goes down");
    for (lapd_link link; lapd_next_link(&own.card, line, &place, &link) == LAPD_OK;)
        want(link.state == 4, "a link is up on a line that is down");
    want(!take(line, frame, &length), "a frame waits on a line that is down");
}

/* Layer 1 is there again. A call has waited for whoever has the line. Management asks for the TEI, which a terminal that
 * has tried too often has given up; its message goes first. */
static void regain_line(uint32_t line) {
    static const uint8_t setup[] = {0x08, 1, 0x01, 0x05, 0x04, 3, 0x80, 0x90, 0xA3, 0x18, 1, 0x8A};
    lapd_link link;
    uint8_t place = 0;
    want_ok(gateway_ask(&own, now, line, LAPD_UNIT, LAPD_CALL, LAPD_GROUP_TEI, setup, sizeof setup), "a call to all");
    if (lapd_next_link(&own.card, line, &place, &link) != LAPD_OK)
        return;
    uint32_t status = gateway_ask(&own, now, line, LAPD_CHECK, LAPD_CALL, link.tei, NULL, 0);
    want(status == LAPD_OK || status == LAPD_REFUSED_CHECK_RUNNING, "a TEI is not checked");
}

static void change_layer_1(uint32_t line) {
    access_line *at = &lines[line];
    at->is_down = !at->is_down;
    at->changes_at = now + 1 + below(at->is_down ? DOWN_FOR : UP_FOR);
    if (at->is_down)
        lose_line(line);
    else
        regain_line(line);
}

/* ---- A day -------------------------------------------------------------------------------------------------------- */

static uint64_t first_of(const access_line *at) {
    uint64_t moment = earlier(at->calls_at, at->changes_at);
    const struct timeval *scheduled = pri_schedule_next(at->pri);
    if (scheduled != NULL)
        moment = earlier(moment, moment_of(scheduled));
    if (at->count != 0)
        moment = earlier(moment, at->to_gateway[at->first].arrives_at);
    return at->to_terminal.length != 0 ? earlier(moment, at->to_terminal.arrives_at) : moment;
}

/* All that is due at a line and its terminal. */
static void serve(uint32_t line) {
    access_line *at = &lines[line];
    if (at->changes_at <= now)
        change_layer_1(line);
    while (at->count != 0 && at->to_gateway[at->first].arrives_at <= now)
        receive(line);
    if (at->to_terminal.length != 0 && at->to_terminal.arrives_at <= now) {
        if (at->to_terminal.is_spoilt)
            at->to_terminal.length = 0;
        else
            on_event(at, pri_check_event(at->pri));
    }
    for (struct timeval *next; (next = pri_schedule_next(at->pri)) != NULL && moment_of(next) <= now;)
        on_event(at, pri_schedule_run(at->pri));
    if (at->calls_at <= now)
        call_or_clear(at);
    at->due_at = first_of(at);
}

/* Everything that falls due at the next moment: timers first, then frames, and then there may be frames to send. */
static void step(void) {
    uint64_t next;
    if (lapd_next_moment(&own.card, &next) != LAPD_OK)
        next = UINT64_MAX;
    for (uint32_t line = 0; line < LINES; line++)
        next = earlier(next, lines[line].due_at);
    now = next > now ? next : now;
    want_ok(gateway_advance(&own, now), "time");
    for (uint32_t line = 0; line < LINES; line++)
        if (lines[line].due_at <= now)
            serve(line);
    for (uint32_t line = 0; lapd_next_waiting(&own.card, line, &line) == LAPD_OK; line++)
        send_next(line);
}

static void begin(void) {
    own.on_report = on_report;
    want_ok(gateway_start(&own, &config, &lengths), "the start");
    for (uint32_t line = 0; line < LINES; line++) {
        counted[line].side = config.side;
        counted[line].n201 = config.n201;
        lines[line].pri = libpri_terminal((int)line, terminal_reads, terminal_writes);
        want(lines[line].pri != NULL, "libpri does not start");
        lines[line].calls_at = 1 + below(CALLS_EACH);
        lines[line].changes_at = 1 + below(UP_FOR);
        lines[line].due_at = first_of(&lines[line]);
    }
}

static uint64_t sum(unsigned place) {
    uint64_t all = 0;
    for (uint32_t line = 0; line < LINES; line++)
        all += counted[line].values[place];
    return all;
}

/* Whether enough of what can happen has, and layer 3 was refused little. */
static bool was_a_day(uint64_t hours) {
    static const uint8_t places[] = {LAPD_HEARD_I, LAPD_BEGUN_I, LAPD_HEARD_POLLS, LAPD_BEGUN_POLLS, LAPD_DROPPED_FCS,
                                     LAPD_TOLD_DATA, LAPD_TOLD_ESTABLISH_INDICATION, LAPD_TOLD_RELEASE_INDICATION,
                                     LAPD_TOLD_REMOVED};
    bool is_each = true;
    for (unsigned i = 0; i < sizeof places; i++)
        is_each = is_each && sum(places[i]) > 20 * hours;
    return is_each && seen.answered > 200 * hours && seen.cleared > 200 * hours && seen.spoilt > 50 * hours
           && seen.followed > 20 * hours && seen.downs > 20 * hours && seen.refused < hours;
}

/* The counters of each line are those that are counted here; a number that is made of all of them. */
static uint64_t compare(void) {
    uint64_t number = 14695981039346656037u; /* FNV-1a */
    for (uint32_t line = 0; line < LINES; line++) {
        want(counts_the_same(&counted[line], &own.card, line, "gateway_day"), "a counter is another");
        for (unsigned place = 0; place < LAPD_COUNTERS; place++)
            number = (number ^ counted[line].values[place]) * 1099511628211u;
    }
    return number;
}

/* A number of decimal digits, and nothing more. */
static bool read_number(const char *word, uint64_t *number) {
    char *end;
    errno = 0;
    *number = strtoull(word, &end, 10);
    return '0' <= *word && *word <= '9' && *end == 0 && errno == 0;
}

int main(int words, char **word) {
    uint64_t hours = 0;
    if (words != 3 || !read_number(word[1], &hours) || hours == 0 || !read_number(word[2], &seed)) {
        bool is_help = words == 2 && strcmp(word[1], "--help") == 0;
        fprintf(is_help ? stdout : stderr, "usage: gateway_day HOURS SEED\n");
        return is_help ? 0 : 2;
    }
    begin();
    for (uint64_t hour = 1; hour <= hours; hour++) {
        while (now < hour * HOUR)
            step();
        printf("gateway_day: hour %llu: %016llX\n", (unsigned long long)hour, (unsigned long long)compare());
    }
    for (unsigned place = 0; place < LAPD_COUNTERS; place++)
        printf("gateway_day: %s %llu\n", lapd_counter_text(place), (unsigned long long)sum(place));
    printf("gateway_day: %llu frames, %llu with more after them, %llu spoilt, %llu calls, %llu answered, %llu cleared, "
           "%llu refused, %llu downs\n", (unsigned long long)seen.frames, (unsigned long long)seen.followed,
           (unsigned long long)seen.spoilt, (unsigned long long)seen.calls, (unsigned long long)seen.answered,
           (unsigned long long)seen.cleared, (unsigned long long)seen.refused, (unsigned long long)seen.downs);
    bool good = was_a_day(hours);
    gateway_end(&own);
    return !good;
}
