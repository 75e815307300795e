/*
 * clocks.c: answers come, and in time, tried at random. Two cards of octets are the two ends of a line (ends.h).
 * As T200 falls due in state 5, 6 or 8, no command with P=1 of that end is to come, and no response with F=1 of the other:
 * whether one waits is seen by pulling a copy of the process. The sizes, the rate, the octets in transit, the noise and what is
 * asked for are random; T200 of each end is the least that is long enough, or a little more. And an end that comes to state
 * 5, 6 or 8 without noise leaves it in that time, as long as no frame finds no place and, for 8, the other end is up.
 * For tests alone.
 *
 *     clocks RUNS [SEED [SHORTER]]      T200 runs SHORTER milliseconds less than is enough: then some run is to fail
 *
 * The last line is 'N runs, M expiries, W answers, K too late, L too soon'; the status is 0 where K and L are 0.
 */
#define _POSIX_C_SOURCE 200809L

#include <stdbool.h>
#include <stdint.h>
#include <stdio.h>
#include <stdlib.h>
#include <string.h>
#include <sys/types.h>
#include <sys/wait.h>
#include <unistd.h>

#include "ends.h"

enum { MOST_BEATS = 30000, AFTER = 1500 };

typedef struct {
    int rate, way;    /* octets in a millisecond, and in transit */
    int answered;     /* in so many octet times a command is answered */
    long now;
    end ends[2];
    int states[2];    /* after the last beat */
    long waits[2];    /* beats in that state, or NEVER where a premise fails */
    bool was_clean;   /* no noise in the last beat */
    long expiries, answers, late;
} world;

/* ---- T200 falls due ----------------------------------------------------------------------------------------------- */

/* The octet with which the last command, or response, ends, if the end is only pulled from now on. */
static long last_to_come(const world *w, end *e, bool command) {
    int ends[2];
    long last = NEVER;
    if (pipe(ends) != 0) fails("a pipe");
    pid_t copy = fork();
    if (copy < 0) fails("a copy");
    if (copy == 0) {
        for (int i = 0; i < AFTER; i++) {
            e->count = 0;
            pull(e, w->now);
        }
        last = command ? e->last_command : e->last_response;
        _exit(write(ends[1], &last, sizeof last) == (ssize_t)sizeof last ? 0 : 1);
    }
    close(ends[1]);
    if (read(ends[0], &last, sizeof last) != (ssize_t)sizeof last) fails("a copy");
    close(ends[0]);
    waitpid(copy, NULL, 0);
    return last;
}

static bool is_too_soon(const world *w, end *e, end *other) {
    long command = last_to_come(w, e, true), response = last_to_come(w, other, false);
    return (command != NEVER && w->way + command >= other->received) ||
           (response != NEVER && w->way + response >= e->received);
}

/* All that is due falls due. Answers whether T200 did so too soon. */
static bool fall_due(world *w, end *e, end *other) {
    for (uint8_t timer; (timer = due(e, w->now)) != 0; expire(e, w->now, timer)) {
        int state = state_of(e);
        if (timer == LAPD_T200 && (state == 5 || state == 6 || state == 8)) {
            w->expiries++;
            if (is_too_soon(w, e, other)) return true;
        }
    }
    return false;
}

/* ---- A beat ------------------------------------------------------------------------------------------------------- */

/* Layer 3 asks for anything of the link except unit data and deactivation, and may be refused. */
static void ask(world *w, end *e, int n201) {
    static const uint8_t requests[] = {LAPD_ESTABLISH, LAPD_DATA, LAPD_DATA, LAPD_DATA, LAPD_BUSY, LAPD_READY, LAPD_RELEASE};
    uint8_t request = requests[below(40) == 0 ? 6 : below(6)], contents[260];
    size_t length = request == LAPD_DATA ? below((uint32_t)n201 + 1) : 0;
    for (size_t i = 0; i < length; i++) contents[i] = below(3) != 0 ? 0xFF : (uint8_t)below(256);
    (void)ask_end(e, w->now, request, contents, length);
}

/* After a beat: how long an end has been in state 5, 6 or 8, and whether that is too long. */
static void wait_for_answers(world *w, bool is_clean) {
    for (int i = 0; i < 2; i++) {
        int before = w->states[i], state = state_of(&w->ends[i]), other = state_of(&w->ends[1 - i]);
        long *waits = &w->waits[i];
        w->states[i] = state;
        bool holds = is_clean && w->ends[0].lost == 0 && w->ends[1].lost == 0 && (state != 8 || other >= 7);
        if (state != before && *waits > 0) w->answers++;
        if (!holds || state == 4 || state == 7) *waits = NEVER;
        else if (state != before) *waits = w->was_clean ? 1 : NEVER;
        else if (*waits != NEVER) ++*waits;
        if (*waits > w->answered - (state == 8 ? 1 : 0)) w->late++;
    }
    w->was_clean = is_clean;
    w->ends[0].lost = w->ends[1].lost = 0;
}

/* ---- A run -------------------------------------------------------------------------------------------------------- */

static int start(world *w, int shorter) {
    int n201 = 8 + (int)below(below(3) == 0 ? 253 : 12), waiting = 0;
    memset(w, 0, sizeof *w);
    w->rate = 1 + (int)below(8);
    w->way = (int)below(below(3) == 0 ? 40 : 5);
    for (int i = 0; i < 2; i++) {
        end *e = &w->ends[i];
        uint16_t k = (uint16_t)(1 + below(7)), control = (uint16_t)(2 + below(3));
        uint16_t queue = (uint16_t)(k + below(4)), n200 = (uint16_t)below(6);
        lapd_config config = {.lines = 1, .terminals = 1, .k = k, .k16 = k, .queue = queue, .unit_queue = 1,
                              .control = control, .slots = 16, .n201 = (uint16_t)n201, .n200 = n200,
                              .side = i == 0 ? LAPD_USER : LAPD_NETWORK};
        start_end(e, &config, w->way);
        w->states[i] = 4;
        w->waits[i] = NEVER;
        waiting += control;
    }
    w->answered = answered_in(n201, w->way, waiting);
    for (int i = 0; i < 2; i++) {
        end *e = &w->ends[i];
        e->runs_t200 = enough_t200(w->answered, w->rate) - shorter;
        if (e->runs_t200 < 1) e->runs_t200 = 1;
        if (shorter == 0 && below(4) == 0) e->runs_t200 += (int)below(50);
        e->runs_t203 = 1 + (int)below(3 * (uint32_t)e->runs_t200);
    }
    return n201;
}

/* Answers whether T200 fell due too soon. It ends where noise makes a frame. */
static bool run(world *w, int shorter) {
    int n201 = start(w, shorter), noise = below(4) == 0 ? 0 : (int)below(60), often = 1 + (int)below(400);
    bool noisy = false, too_soon = false, forged = false;
    for (long beat = 0; beat < MOST_BEATS && !too_soon && !forged; beat++) {
        w->now = beat / w->rate;
        if (below(200) == 0) noisy = below(2) == 0;
        for (int i = 0; i < 2 && !too_soon; i++) {
            if (below((uint32_t)often) == 0)
                for (uint32_t more = 1 + below(4); more > 0; more--) ask(w, &w->ends[i], n201);
            too_soon = fall_due(w, &w->ends[i], &w->ends[1 - i]);
        }
        for (int i = 0; i < 2; i++) pull(&w->ends[i], w->now);
        bool is_clean = true;
        for (int i = 0; i < 2; i++) {
            bool damaged = noisy && (int)below(100) < noise;
            is_clean = is_clean && !damaged;
            int octet = damaged ? (int)below(256) : NO_NOISE;
            forged = !hear(&w->ends[i], &w->ends[1 - i], w->way, w->now, octet) || forged;
        }
        if (!too_soon && !forged) wait_for_answers(w, is_clean);
    }
    for (int i = 0; i < 2; i++) free_end(&w->ends[i]);
    return too_soon;
}

int main(int count, char **words) {
    static world w;
    if (count < 2 || count > 4) fails("what is wanted is: clocks RUNS [SEED [SHORTER]]");
    long runs = atol(words[1]), seed = count > 2 ? atol(words[2]) : 1, expiries = 0, too_soon = 0, answers = 0, late = 0;
    int shorter = count > 3 ? atoi(words[3]) : 0;
    for (long i = 0; i < runs; i++) {
        chance = ((uint64_t)(seed + i) + 1) * 0x9E3779B97F4A7C15u;
        if (run(&w, shorter)) {
            too_soon++;
            if (shorter == 0) printf("seed %ld: T200 of %d and %d ms is too short, %d octets a millisecond, %d in transit\n", seed + i, w.ends[0].runs_t200, w.ends[1].runs_t200, w.rate, w.way);
        }
        if (w.late > 0) printf("seed %ld: an answer takes longer than %d octet times, %d in transit\n", seed + i, w.answered, w.way);
        expiries += w.expiries;
        answers += w.answers;
        late += w.late;
    }
    printf("%ld runs, %ld expiries, %ld answers, %ld too late, %ld too soon\n", runs, expiries, answers, late, too_soon);
    return late == 0 && too_soon == 0 ? 0 : 1;
}
