/*
 * ends.c: the other ends of many lines of lapd-gateway, by the driver `frames`. Each is a card of the library's: a terminal
 * (basic access: it asks for a TEI), or a private exchange (primary rate: TEI 0).
 *
 *     ends PATH FIRST COUNT basic|primary [NAME=VALUE..]
 *
 * A message of Q.931 is answered as q931.h has it, and another comes back as it is. With `rate` or `burst` each line sends
 * numbered messages by itself, `each` at a time, and answers none (numbered.h). What was sent, what came, and what a link told is
 * written to the file `record`. It says `up` when all links are up first, and at its end what it counted; SIGUSR1 ends messages.
 */
#define _GNU_SOURCE

#include <errno.h>
#include <signal.h>
#include <stdio.h>
#include <stdlib.h>
#include <string.h>
#include <sys/epoll.h>
#include <sys/resource.h>
#include <sys/socket.h>
#include <sys/un.h>
#include <time.h>
#include <unistd.h>

#include "gateway.h"
#include "numbered.h"
#include "q931.h"

enum { MOST = 1024, EACH = 62, AT_A_TIME = 16, FILES = 4096, MOST_OFFERED = 8 };
enum { REJOIN_MS = 50, ESTABLISH_MS = 1000, FIRST_MS = 8000 };

typedef struct {
    int fd; /* -1: layer 1 is not there */
    uint8_t tei, out[LAPD_MOST_FRAME];
    size_t length; /* of a frame for which the socket had no room */
    bool has_tei, is_up, was_up;
    uint32_t sent;
    uint64_t next;  /* when it sends its next message, in microseconds */
    uint64_t again; /* when it joins, or establishes, again, in milliseconds; 0: never */
    uint64_t cut;   /* when its layer 1 is lost, in milliseconds; 0: never */
} line_end;

static struct {
    const char *path, *record;
    unsigned first, count, rate, each, burst, octets, seconds, settle, loss, cut, seed, t200;
    bool is_primary;
} words = {.each = 1, .octets = NUMBERED_LEAST, .settle = 2, .seed = 1};

static struct { uint64_t assigned, established, released, sent, came, answered, refused, given_up, errors, units, busy,
    joined; } counts;
static gateway cards[(MOST + EACH - 1) / EACH];
static line_end ends[MOST];
static unsigned card_count;
static int epoll;
static FILE *record;
static uint64_t origin, chance;
static volatile sig_atomic_t is_over, is_quiet;

static uint64_t micros(void) {
    struct timespec time;
    clock_gettime(CLOCK_MONOTONIC, &time);
    return (uint64_t)time.tv_sec * 1000000 + (uint64_t)time.tv_nsec / 1000;
}

static uint64_t now(void) { return (micros() - origin) / 1000; }
/* A number below `most`, of xorshift64*. */
static unsigned drawn(unsigned most) {
    chance ^= chance >> 12;
    chance ^= chance << 25;
    chance ^= chance >> 27;
    return (unsigned)(chance * 0x2545F4914F6CDD1Du >> 33) % most;
}

static void note(const char *what, unsigned at, unsigned source, uint32_t number, size_t octets) {
    if (record != NULL)
        fprintf(record, "%llu %s %u %u %u %zu\n", (unsigned long long)micros(), what, words.first + at, source, number, octets);
}

static uint32_t ask(unsigned at, uint8_t request, uint8_t tei, const uint8_t *contents, size_t length) {
    return gateway_ask(&cards[at / EACH], now(), at % EACH, request, LAPD_CALL, tei, contents, length);
}

/* ---- Layer 3 -------------------------------------------------------------------------------------------------------- */

static void link_is_up(unsigned at) {
    counts.established++;
    ends[at].is_up = ends[at].was_up = true;
    ends[at].next = micros();
    note("up", at, 0, 0, 0);
}

static void link_is_down(unsigned at) {
    counts.released++;
    ends[at].is_up = false;
    ends[at].again = now() + ESTABLISH_MS;
    note("down", at, 0, 0, 0);
}

/* A message came: it is noted, answered as a call is, or sent back. */
static void message_came(unsigned at, const uint8_t *contents, size_t length) {
    uint8_t answer[Q931_MOST_ANSWER];
    numbered message;
    bool is_call = length > 0 && contents[0] == Q931_PROTOCOL;
    counts.came++;
    if (numbered_read(contents, length, &message)) {
        note("came", at, message.source, message.number, length);
        if (words.rate + words.burst > 0)
            return;
    }
    if (is_call)
        length = q931_answer(contents, length, answer);
    if (length > 0)
        counts.answered += ask(at, LAPD_DATA, ends[at].tei, is_call ? answer : contents, length) == LAPD_OK;
}

static void told(unsigned at, const lapd_note *it, const lapd_report *report) {
    switch (it->note) {
    case LAPD_ASSIGNED:
        counts.assigned++;
        ends[at].tei = it->tei;
        ends[at].has_tei = true;
        (void)!ask(at, LAPD_ESTABLISH, it->tei, NULL, 0);
        break;
    case LAPD_ESTABLISH_CONFIRM:
    case LAPD_ESTABLISH_INDICATION: link_is_up(at); break;
    case LAPD_RELEASE_INDICATION:
    case LAPD_RELEASE_CONFIRM: link_is_down(at); break;
    case LAPD_REMOVED:
    case LAPD_UNASSIGNED:
        ends[at].is_up = ends[at].has_tei = false;
        (void)!ask(at, LAPD_ASK_TEI, LAPD_GROUP_TEI, NULL, 0);
        break;
    case LAPD_ERROR_INDICATION: counts.errors++; break;
    case LAPD_UNIT_INDICATION: /* a call that is offered to all terminals; the answer goes on the link */
        counts.units++;
        message_came(at, report->contents, report->length);
        break;
    case LAPD_DATA_INDICATION: message_came(at, report->contents, report->length); break;
    default: break;
    }
}

static void on_report(gateway *own, const lapd_report *report) {
    unsigned at = (unsigned)(own - cards) * EACH + report->line;
    counts.given_up += report->given_up;
    if (report->given_up > 0)
        note("given-up", at, 0, ends[at].sent, report->given_up);
    for (const lapd_note *it = report->notes; it < report->notes + report->note_count; it++)
        told(at, it, report);
}

/* ---- Layer 1 -------------------------------------------------------------------------------------------------------- */

static void join(unsigned at) {
    struct sockaddr_un to = {.sun_family = AF_UNIX};
    uint8_t name[4];
    int fd = socket(AF_UNIX, SOCK_SEQPACKET | SOCK_CLOEXEC, 0);
    struct epoll_event event = {.events = EPOLLIN, .data.u32 = at};
    strncpy(to.sun_path, words.path, sizeof to.sun_path - 1);
    numbered_set(name, words.first + at, 4);
    if (connect(fd, (struct sockaddr *)&to, sizeof to) != 0 || send(fd, name, sizeof name, MSG_NOSIGNAL) != sizeof name) {
        close(fd);
        ends[at].again = now() + REJOIN_MS;
        return;
    }
    counts.joined++;
    ends[at].fd = fd;
    ends[at].length = 0;
    ends[at].cut = words.cut == 0 ? 0 : now() + 1 + drawn(2000 * words.cut);
    epoll_ctl(epoll, EPOLL_CTL_ADD, fd, &event);
}

/* Its socket was closed, which is no news to a card that does not hear of layer 1: it repeats what was not acknowledged. */
static void leave(unsigned at) {
    close(ends[at].fd);
    ends[at].fd = -1;
    ends[at].again = now() + REJOIN_MS;
}

static bool is_lost(void) { return words.loss > 0 && drawn(1000) < words.loss; }

/* The next frame of a line, or the one that found no room; whether it went. */
static bool give(unsigned at) {
    line_end *it = &ends[at];
    bool more;
    if (it->fd < 0
        || (it->length == 0
            && gateway_take(&cards[at / EACH], now(), at % EACH, it->out, sizeof it->out, &it->length, &more) != LAPD_OK))
        return false;
    if (!is_lost() && send(it->fd, it->out, it->length, MSG_DONTWAIT | MSG_NOSIGNAL) < 0 && errno == EAGAIN)
        return false;
    it->length = 0;
    return true;
}

static void give_all(void) {
    for (unsigned card = 0; card < card_count; card++)
        for (uint32_t line = 0; lapd_next_waiting(&cards[card].card, line, &line) == LAPD_OK; line++)
            for (int i = 0; i < AT_A_TIME && give(card * EACH + line); i++)
                ;
}

static void hear(unsigned at) {
    uint8_t frame[LAPD_MOST_FRAME + 1];
    for (int i = 0; i < AT_A_TIME && ends[at].fd >= 0; i++) {
        ssize_t length = recv(ends[at].fd, frame, sizeof frame, MSG_DONTWAIT);
        if (length < 0 && errno == EAGAIN)
            return;
        if (length <= 0) {
            leave(at);
            return;
        }
        counts.busy += length == 4 && frame[2] == 0x05; /* RNR */
        if (!is_lost())
            (void)!gateway_frame(&cards[at / EACH], now(), at % EACH, frame, (size_t)length);
    }
}

/* ---- What is due ---------------------------------------------------------------------------------------------------- */

/* Layer 1 is lost for a while: the socket is closed, and the card hears of it, as of a driver. */
static void cut(unsigned at) {
    leave(at);
    note("cut", at, 0, 0, 0);
    (void)!gateway_down(&cards[at / EACH], at % EACH);
    ends[at].again = now() + REJOIN_MS + drawn(500);
}

static void on_time(unsigned at) {
    line_end *it = &ends[at];
    if (it->cut != 0 && it->cut <= now() && it->fd >= 0)
        cut(at);
    if (it->again == 0 || it->again > now())
        return;
    it->again = 0;
    if (it->fd < 0)
        join(at);
    if (it->fd >= 0 && !it->is_up) { /* what is refused runs already */
        (void)!ask(at, it->has_tei ? LAPD_ESTABLISH : LAPD_ASK_TEI, it->has_tei ? it->tei : LAPD_GROUP_TEI, NULL, 0);
        it->again = now() + ESTABLISH_MS;
    }
}

static bool send_one(unsigned at) {
    uint8_t octets[LAPD_MOST_OCTETS];
    size_t length = NUMBERED_LEAST + (words.octets > NUMBERED_LEAST ? drawn(words.octets - NUMBERED_LEAST + 1) : 0);
    const numbered message = {.line = words.first + at, .number = ends[at].sent + 1, .moment = micros()};
    numbered_write(&message, octets, length);
    if (ask(at, LAPD_DATA, ends[at].tei, octets, length) != LAPD_OK) {
        counts.refused++;
        ends[at].next = micros() + 5000;
        return false;
    }
    ends[at].sent++;
    counts.sent++;
    note("sent", at, 0, ends[at].sent, length);
    return true;
}

/* Numbered messages of a line that are due; what a full link refuses goes later. */
static void generate(unsigned at) {
    line_end *it = &ends[at];
    if (words.burst > 0)
        while (it->is_up && it->sent < words.burst && it->next <= micros() && send_one(at))
            ;
    else
        for (unsigned i = 0; i < MOST_OFFERED * words.each && it->is_up && it->next <= micros() && send_one(at); i++)
            it->next += it->sent % words.each == 0 ? 1000000 / words.rate : 0;
}

static bool are_up(void) {
    unsigned up = 0;
    for (unsigned i = 0; i < words.count; i++)
        up += ends[i].was_up;
    return up == words.count;
}

/* ---- The program ---------------------------------------------------------------------------------------------------- */

static bool take_word(const char *word) {
    static const struct { const char *name; unsigned *value; } known[] = {
        {"rate", &words.rate},     {"burst", &words.burst}, {"octets", &words.octets}, {"seconds", &words.seconds},
        {"settle", &words.settle}, {"loss", &words.loss},   {"cut", &words.cut},       {"seed", &words.seed},
        {"t200", &words.t200},     {"each", &words.each}};
    const size_t length = strcspn(word, "=");
    if (strncmp(word, "record=", length + 1) == 0)
        return words.record = word + length + 1, true;
    for (size_t i = 0; i < sizeof known / sizeof *known; i++)
        if (strncmp(word, known[i].name, length) == 0 && known[i].name[length] == 0 && word[length] == '=')
            return (*known[i].value = (unsigned)strtoul(word + length + 1, NULL, 10), true);
    return false;
}

static bool take_words(int count, char **word) {
    if (count < 5)
        return false;
    words.path = word[1];
    words.first = (unsigned)strtoul(word[2], NULL, 10);
    words.count = (unsigned)strtoul(word[3], NULL, 10);
    words.is_primary = strcmp(word[4], "primary") == 0;
    for (int i = 5; i < count; i++)
        if (!take_word(word[i]))
            return false;
    return words.count <= MOST && words.each > 0 && words.octets <= LAPD_MOST_OCTETS;
}

static bool start_cards(void) {
    static const lapd_config basic = LAPD_BASIC_ACCESS, primary = LAPD_PRIMARY_RATE;
    lapd_lengths lengths = LAPD_DEFAULT_LENGTHS;
    lengths.t200 = words.t200 > 0 ? words.t200 : lengths.t200;
    for (unsigned left = words.count; left > 0; card_count++) {
        lapd_config config = words.is_primary ? primary : basic;
        config.terminals = 1;
        config.side = words.is_primary ? LAPD_USER : LAPD_TERMINAL;
        config.seed = (uint16_t)drawn(65536);
        config.lines = (uint16_t)(left < EACH ? left : EACH);
        config.slots = (uint16_t)(20 * config.lines);
        cards[card_count] = (gateway)GATEWAY_NONE;
        cards[card_count].on_report = on_report;
        if (gateway_start(&cards[card_count], &config, &lengths) != LAPD_OK)
            return false;
        left -= config.lines;
    }
    return true;
}

static void start_line(unsigned at) {
    ends[at].fd = -1;
    ends[at].has_tei = words.is_primary;
    ends[at].again = now() + FIRST_MS; /* if its link has not come up by then */
    join(at);
    if (!words.is_primary)
        (void)!ask(at, LAPD_ASK_TEI, LAPD_GROUP_TEI, NULL, 0);
    else if (ask(at, LAPD_ASSIGN, 0, NULL, 0) == LAPD_OK)
        (void)!ask(at, LAPD_ESTABLISH, 0, NULL, 0);
}

/* Until it is over. All links are up once; `seconds` later no message is sent any more, and after `settle` more it ends. */
static void serve(void) {
    uint64_t stop = UINT64_MAX;
    bool were_up = false;
    while (!is_over && (stop == UINT64_MAX || now() < stop + (uint64_t)words.settle * 1000)) {
        struct epoll_event event[64];
        give_all();
        int count = epoll_wait(epoll, event, 64, words.rate + words.burst > 0 ? 2 : 20);
        for (unsigned card = 0; card < card_count; card++)
            (void)!gateway_advance(&cards[card], now());
        for (int i = 0; i < count; i++)
            hear(event[i].data.u32);
        for (unsigned at = 0; at < words.count; at++) {
            on_time(at);
            if (words.rate + words.burst > 0 && were_up && !is_quiet && now() < stop)
                generate(at);
        }
        if (!were_up && are_up()) {
            were_up = true;
            stop = words.seconds == 0 ? UINT64_MAX : now() + (uint64_t)words.seconds * 1000;
            puts("up");
            fflush(stdout);
        }
    }
}

static void signalled(int signal) { *(signal == SIGUSR1 ? &is_quiet : &is_over) = 1; }

static void print_counts(void) {
    static const char *const names[] = {"assigned", "established", "released", "sent", "came", "answered", "refused", "given_up",
                                        "errors", "units", "busy", "joined"};
    const uint64_t *value = (const uint64_t *)&counts;
    printf("ends:");
    for (size_t i = 0; i < sizeof counts / sizeof *value; i++)
        printf(" %s %llu%s", names[i], (unsigned long long)value[i], i + 1 < sizeof counts / sizeof *value ? "" : "\n");
}

int main(int count, char **word) {
    struct rlimit files = {FILES, FILES};
    struct sigaction action = {.sa_handler = signalled};
    if (!take_words(count, word))
        return fputs("usage: ends PATH FIRST COUNT basic|primary [NAME=VALUE..]\n", stderr), 2;
    if (words.record != NULL && (record = fopen(words.record, "w")) == NULL)
        return perror(words.record), 1;
    if (record != NULL)
        setvbuf(record, NULL, _IOLBF, 0); /* it is read meanwhile */
    (void)setrlimit(RLIMIT_NOFILE, &files);
    sigaction(SIGTERM, &action, NULL);
    sigaction(SIGINT, &action, NULL);
    sigaction(SIGUSR1, &action, NULL);
    epoll = epoll_create1(EPOLL_CLOEXEC);
    origin = micros();
    chance = words.seed * 0x9E3779B97F4A7C15u + 1;
    if (!start_cards())
        return fputs("ends: a card does not start\n", stderr), 1;
    for (unsigned at = 0; at < words.count; at++)
        start_line(at);
    serve();
    note("over", 0, 0, 0, 0);
    print_counts();
    return record != NULL && fclose(record) != 0;
}
