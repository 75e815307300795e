/*
 * pair.c: two ends of a line in simulated time, and what a tap between them hears, as text for lapd-monitor.
 *
 *     pair SEED [NAME=NUMBER..]
 *
 * Both layers 3 ask at random. Frames are lost after the tap, so with tap=0, at the network's end, none that comes there, and
 * with tap=100 none that comes to the user's. Standard error has what was drawn, as NAME=NUMBER; each may be given. With `again`
 * layer 3 also asks in state 5, in 4 times so many of 10,000 milliseconds: mostly for the release. An end is a card of the
 * library, or with `plain` the machine of plain.c: 0 none, 1 the network's, 2 the user's, 3 both. `fault` is the number of its
 * wrong row. With `stim` somebody sends so many wrong frames of 10,000 milliseconds toward the end of `plain`, or if there is
 * none toward the user's, as if they came from the other end. `octets=1` has cards of octets.
 */
#include <inttypes.h>
#include <stdio.h>
#include <stdlib.h>
#include <string.h>

#include "ends.h"

static struct {
    int k, n200, t200, t203, loss, prop, tap, ms, annexb, rate, down, restart, busy, release, again, load, length;
    int stim, plain, fault, from, octets;
} given;

/* A frame, or octets, on the way: tapped at `tapped`, there at `at`. */
typedef struct way {
    struct way *next;
    uint64_t at;
    size_t length;
    bool is_lost;
    uint8_t octets[MOST_OCTETS];
} way;

typedef struct {
    uint64_t at; /* in microseconds */
    size_t order;
    int from;
    size_t length;
    uint8_t octets[MOST_OCTETS];
} tapped;

static end ends[2]; /* the network's and the user's */
static way *first[2], **last[2] = {&first[0], &first[1]};
static uint64_t now, free_at[2];
static tapped *taps;
static size_t tap_count, tap_room;

static int is_named(const char *word, const char *name, int *value) {
    size_t length = strlen(name);
    if (strncmp(word, name, length) != 0 || word[length] != '=')
        return 0;
    *value = atoi(word + length + 1);
    return 1;
}

/* The value of a name, as given or else as drawn; told. */
static int value_of(char **words, const char *name, int drawn) {
    for (int i = 2; words[i] != NULL; i++)
        if (is_named(words[i], name, &drawn))
            break;
    fprintf(stderr, "%s=%d ", name, drawn);
    return drawn;
}

static void draw(char **words) {
    static const int windows[] = {1, 2, 7, 7, 7, 30, 127};
    given.k = value_of(words, "k", windows[chance() % 7]);
    given.n200 = value_of(words, "n200", (int)(chance() % 5));
    given.t200 = value_of(words, "t200", 400 + (int)(chance() % 1600));
    given.t203 = value_of(words, "t203", 2500 + (int)(chance() % 8000));
    given.loss = value_of(words, "loss", chance() % 4 ? (int)(chance() % 30) : 0);
    given.prop = value_of(words, "prop", (int)(chance() % 60));
    given.tap = value_of(words, "tap", chance() % 3 ? (int)(chance() % 101) : chance() % 2 ? 0 : 100);
    given.annexb = value_of(words, "annexb", (int)(chance() % 2));
    given.rate = value_of(words, "rate", chance() % 2 ? 8 : 2);
    given.busy = value_of(words, "busy", (int)(chance() % 3));
    given.release = value_of(words, "release", (int)(chance() % 3));
    given.load = value_of(words, "load", (int)(chance() % 40));
    given.length = value_of(words, "length", chance() % 2 ? 200 : 20);
    given.again = value_of(words, "again", 0);
    given.down = value_of(words, "down", 0);
    given.restart = value_of(words, "restart", 0);
    given.stim = value_of(words, "stim", 0);
    given.plain = value_of(words, "plain", 0);
    given.fault = value_of(words, "fault", 0);
    given.from = value_of(words, "from", 0);
    given.octets = value_of(words, "octets", 0);
    given.ms = value_of(words, "ms", 120000);
    fputc('\n', stderr);
}

/* ---- The way ---- */

static void tap(int from, uint64_t micros, const uint8_t *octets, size_t length) {
    if (tap_count == tap_room) {
        tap_room = tap_room ? 2 * tap_room : 1024;
        taps = realloc(taps, tap_room * sizeof *taps);
        if (taps == NULL)
            abort();
    }
    tapped *it = &taps[tap_count];
    it->at = micros;
    it->order = tap_count++;
    it->from = from;
    it->length = length;
    memcpy(it->octets, octets, length);
}

/* Sends what is given to the other end: it is under way for `tx` and then for the line's length. */
static void send(int from, const uint8_t *octets, size_t length, uint64_t tx, bool is_lost) {
    way *it = calloc(1, sizeof *it);
    if (it == NULL)
        abort();
    it->at = now + tx + (uint64_t)given.prop;
    it->length = length;
    it->is_lost = is_lost;
    memcpy(it->octets, octets, length);
    *last[from] = it;
    last[from] = &it->next;
    int share = from ? 100 - given.tap : given.tap;
    tap(from, now * 1000 + (tx + (uint64_t)given.prop) * (uint64_t)share * 10, octets, length);
}

/* The tap is at the end to which this one sends: what it hears comes there. */
static bool is_tapped_there(int from) { return given.tap == (from ? 0 : 100); }

static bool is_lost_now(int from) { return chance() % 100 < (uint32_t)given.loss && !is_tapped_there(from); }

static void give_frames(int from) {
    uint8_t octets[MOST_OCTETS];
    size_t length;
    while (free_at[from] <= now && end_next(&ends[from], octets, &length)) {
        uint64_t tx = (length + 4) / (uint64_t)given.rate;
        tx = tx ? tx : 1;
        free_at[from] = now + tx;
        send(from, octets, length, tx, is_lost_now(from));
    }
}

/* Eight or two octets a millisecond; one bit is changed after the tap, if they are to be lost. */
static void give_octets(int from) {
    uint8_t octets[8];
    end_pull(&ends[from], octets, (size_t)given.rate);
    send(from, octets, (size_t)given.rate, 1, chance() % 2000 < (uint32_t)given.loss && !is_tapped_there(from));
}

static void arrive(int from) {
    while (first[from] != NULL && first[from]->at <= now) {
        way *it = first[from];
        first[from] = it->next;
        if (first[from] == NULL)
            last[from] = &first[from];
        if (given.octets && it->is_lost)
            it->octets[0] ^= 0x10;
        if (given.octets)
            end_octets(&ends[!from], it->octets, it->length);
        else if (!it->is_lost)
            end_hear(&ends[!from], it->octets, it->length);
        free(it);
    }
}

/* ---- What layer 3 asks, and who sends wrong frames ---- */

static void ask(end *it) {
    int state = end_state(it);
    uint32_t x = chance() % 10000;
    bool is_quiet = now / 20000 % 2 && now / 1000 % 3;
    if (state >= 7 && !is_quiet && chance() % 1000 < (uint32_t)given.load) {
        uint8_t octets[260];
        size_t length = 1 + chance() % (uint32_t)given.length;
        for (size_t i = 0; i < length; i++)
            octets[i] = (uint8_t)chance();
        end_data(it, octets, length);
    }
    if (state == 4 && x < 20)
        end_establish(it);
    else if (state >= 7 && x < (uint32_t)given.release)
        end_release(it);
    else if (state >= 7 && x >= 100 && x < 100 + 3 * (uint32_t)given.busy)
        end_busy(it, true);
    else if (state >= 7 && x >= 200 && x < 200 + 8 * (uint32_t)given.busy)
        end_busy(it, false);
    else if (state == 5 && x >= 1000 && x < 1000 + 4 * (uint32_t)given.again)
        x < 1000 + 3 * (uint32_t)given.again ? end_release(it) : end_establish(it);
    else if (x == 300)
        end_unit(it);
    else if (x >= 400 && x < 400 + (uint32_t)given.down && state > 4)
        end_deactivate(it);
    else if (x >= 500 && x < 500 + (uint32_t)given.restart)
        end_restart(it);
}

static void stimulate(int toward) {
    uint8_t octets[MOST_OCTETS];
    if (chance() % 10000 >= (uint32_t)given.stim)
        return;
    size_t length = wrong_frame(&ends[!toward], octets);
    uint64_t tx = (length + 4) / (uint64_t)given.rate + 1;
    if (free_at[!toward] > now)
        return;
    free_at[!toward] = now + tx;
    send(!toward, octets, length, tx, is_lost_now(!toward));
}

/* ---- All of it ---- */

/* At an end's own tap what it heard at a moment comes before what it sends then; between them nobody could tell. */
static int compared(const void *left, const void *right) {
    const tapped *a = left, *b = right;
    if (a->at != b->at)
        return a->at < b->at ? -1 : 1;
    if (a->from == b->from)
        return a->order < b->order ? -1 : 1;
    return (a->from < b->from) == (given.tap != 0) ? -1 : 1;
}

static void print(void) {
    if (tap_count > 0)
        qsort(taps, tap_count, sizeof *taps, compared);
    for (size_t i = tap_count * (size_t)given.from / 1000; i < tap_count; i++) {
        char sender = taps[i].from ? 'U' : 'N';
        printf("%" PRIu64 ".%03" PRIu64 " %c %s", taps[i].at / 1000, taps[i].at % 1000, sender, given.octets ? "octets " : "");
        for (size_t j = 0; j < taps[i].length; j++)
            printf("%02X", taps[i].octets[j]);
        putchar('\n');
    }
}

int main(int count, char **words) {
    if (count < 2) {
        fputs("usage: pair SEED [NAME=NUMBER..]\n", stderr);
        return 2;
    }
    chance_begin(strtoull(words[1], NULL, 10));
    draw(words);
    for (int i = 0; i < 2; i++) {
        end_terms terms = {i == 0, given.annexb != 0, given.octets != 0, given.k, given.n200, (uint32_t)given.t200,
                           (uint32_t)given.t203, (given.plain >> i & 1) != 0, given.fault};
        end_start(&ends[i], &terms);
    }
    int stimulated = given.plain == 1 ? 0 : 1;
    for (now = 1; now < (uint64_t)given.ms; now++) {
        for (int i = 0; i < 2; i++)
            end_time(&ends[i], now);
        for (int i = 0; i < 2; i++)
            arrive(i);
        for (int i = 0; i < 2; i++)
            ask(&ends[i]);
        if (given.stim > 0)
            stimulate(stimulated);
        for (int i = 0; i < 2; i++)
            given.octets ? give_octets(i) : give_frames(i);
    }
    print();
    return 0;
}
