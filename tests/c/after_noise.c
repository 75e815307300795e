/*
 * after_noise.c: all is told once noise has ended, and in time, tried at random. Two cards of octets are the two ends of a line
 * (ends.h). A call is up, or is set up; and layer 3 of either end asks for messages before, in and after noise, one or eight at
 * a time. What is drawn stands in after_noise.h.
 *
 *     after_noise RUNS [SEED [WRONG]]      in a world that is wrong, and that some run is to refuse: `dropped` or `twice`, of a
 *                                          message that is told; `stuck` or `late`, as T200 never falls due, or after
 *                                          thrice its time
 *
 * A run is wrong if a message that was granted is never told, is told twice or out of order, or later than `bound`; or if an
 * error is told that noise does not lead to. Layer 3 is told what is given up: N200 is used up (error G or I), which ends the
 * run, and is wrong if it is too soon. Or UA was lost (error F at the end that is called), and the report says how many are
 * given up. A run in which noise makes a frame is not counted.
 *
 * Its last line is 'N runs after noise: G given up and told, W wrong; ..', and then the longest times in milliseconds from the
 * last noise, or the last request if that is later: of a call, and until all is told, if one message is left to tell at
 * each end at most, or eight. In these runs T200 is the least that is long enough, and as many octets are in transit as
 * docs/TWO-CARDS.md has. The status is 0 if W is 0. For tests alone.
 */
#include <stdio.h>
#include <stdlib.h>
#include <string.h>

#include "after_noise.h"

static const char *const faults[] = {"", "dropped", "twice", "stuck", "late"};
enum { DROPPED = 1, TWICE, STUCK, LATE };

/* The longest times in octet times, at 16 and at 64 kbit/s: of a call, one message and eight. */
static long longest[2][3];

/* ---- What is told ------------------------------------------------------------------------------------------------- */

static void goes_wrong(world *w, const char *what) {
    if (w->wrong == NULL) w->wrong = what;
}

/* What a message has: a number first, and then mostly 1s, which take the most bits on the line. */
static void write_contents(uint8_t *contents, const message *m) {
    for (size_t i = 0; i < m->length; i++)
        contents[i] = i < 4 ? (uint8_t)(m->seed >> 8 * i) : m->seed & 1 ? 0xFF : (uint8_t)(m->seed >> i % 24);
}

static void is_told(world *w, int who) {
    int other = 1 - who, *next = &w->next[other];
    uint8_t contents[N201];
    while (*next < w->granted_count[other]) {
        message *m = &w->granted[other][(*next)++];
        write_contents(contents, m);
        if (m->length == report.length && memcmp(contents, report.contents, m->length) == 0) return;
        if (!m->is_given_up) break;
    }
    goes_wrong(w, "a message is told out of order, twice, or changed");
}

/* N200 is used up: not sooner than N200 + 1 times T200 since the call was asked for, nor long after noise. */
static void gives_up(world *w, int who) {
    long tries = (w->n200 + 1) * (long)w->ends[who].runs_t200 * w->rate;
    if (w->beat + w->rate <= w->call.at + tries) goes_wrong(w, "N200 is used up too soon");
    if (w->noise == NEVER || w->beat > w->noise + w->most_t200 + w->answered) goes_wrong(w, "N200 is used up without noise");
    w->is_over = true;
}

static void is_noted(world *w, int who, const lapd_note *note, bool with_f) {
    bool called = who != w->caller;
    switch (note->note) {
    case LAPD_ESTABLISH_CONFIRM:
        if (called || w->up[who]++ > 0) goes_wrong(w, "a confirm that nothing asked for");
        break;
    case LAPD_ESTABLISH_INDICATION:
        if (!called || (w->up[who]++ > 0 && !with_f)) goes_wrong(w, "an indication that nothing led to");
        break;
    case LAPD_ERROR_INDICATION:
        if (note->error == 'G' || note->error == 'I') gives_up(w, who);
        else if (note->error != 'F' || !called) goes_wrong(w, "an error that noise does not lead to");
        break;
    case LAPD_DATA_INDICATION:
        if (w->up[who] == 0) goes_wrong(w, "data before the establishment");
        break;
    default:
        if (!w->is_over) goes_wrong(w, "a note that noise does not lead to");
    }
}

/* What the latest call of a card told layer 3 of an end. */
static void tell(world *w, int who) {
    bool with_f = false;
    for (int i = 0; i < report.note_count; i++) with_f = with_f || report.notes[i].error == 'F';
    for (int i = 0; i < report.note_count; i++) is_noted(w, who, &report.notes[i], with_f);
    if (report.given_up > 0 && !with_f && !w->is_over) goes_wrong(w, "contents are given up for no reason");
    for (int i = 0; i < report.given_up && i < w->granted_count[who]; i++)
        w->granted[who][w->granted_count[who] - 1 - i].is_given_up = w->is_given_up = true;
    if (!report.delivered) return;
    int times = 1;
    if (w->noise != NEVER && (w->fault == DROPPED || w->fault == TWICE)) {
        times = w->fault == DROPPED ? 0 : 2;
        w->fault = 0;
    }
    while (times-- > 0) is_told(w, who);
}

/* How many messages of an end are still to be told at the other. */
static int untold_at(const world *w, int who) {
    int untold = 0;
    for (int i = w->next[who]; i < w->granted_count[who]; i++) untold += !w->granted[who][i].is_given_up;
    return untold;
}

static void begins_anew(world *w) {
    int near = untold_at(w, 0), far = untold_at(w, 1);
    w->base = w->beat;
    w->untold = near > far ? near : far;
}

/* ---- A beat ------------------------------------------------------------------------------------------------------- */

static void ask(world *w) {
    if (!w->is_asked && has_come(w, &w->call)) {
        w->is_asked = ask_end(&w->ends[w->caller], w->now, LAPD_ESTABLISH, NULL, 0);
        if (!w->is_asked) fails("a call");
        w->up_base = w->beat;
        tell(w, w->caller);
    }
    for (int i = 0; i < w->batch_count; i++) {
        batch *b = &w->batches[i];
        if (!has_come(w, &b->when)) continue;
        while (b->left > 0 && w->granted_count[b->who] < MOST_MESSAGES) {
            message *m = &w->granted[b->who][w->granted_count[b->who]];
            uint8_t contents[N201];
            uint32_t number = (uint32_t)w->beat * 32 + (uint32_t)w->granted_count[b->who];
            *m = (message){.seed = 2 * number + (below(4) != 0), .length = b->length};
            write_contents(contents, m);
            if (!ask_end(&w->ends[b->who], w->now, LAPD_DATA, contents, m->length)) break;
            w->granted_count[b->who]++;
            b->left--;
            tell(w, b->who);
            begins_anew(w);
        }
    }
}

static void fall_due(world *w, int who) {
    end *e = &w->ends[who];
    for (uint8_t timer; (timer = due(e, w->now)) != 0;) {
        if (timer == LAPD_T200 && w->fault == STUCK) e->t200 = NEVER;
        else if (timer == LAPD_T200 && w->fault == LATE && w->now < e->t200 + 2 * e->runs_t200) return;
        else {
            expire(e, w->now, timer);
            tell(w, who);
            if (timer == LAPD_T200) happened(w, who, EXPIRY);
        }
    }
}

static void give(world *w, int who) {
    end *e = &w->ends[who];
    bool ends = pull(e, w->now);
    lapd_head head;
    w->hits[who][(e->first + e->count - 1) % MOST_IN_TRANSIT] = false;
    if (report.begun == 1) {
        if (lapd_begun(&e->card, 0, &head) != LAPD_OK) fails("a frame that begins");
        happened(w, who, kind_of(e, head.octets, head.length) | BEGINS);
    }
    tell(w, who);
    if (ends) happened(w, who, kind_of(e, e->own.frame, e->own.length));
}

static void receive(world *w, int who) {
    int noise = noise_at(w, who);
    if (!hear(&w->ends[who], &w->ends[1 - who], w->way, w->now, noise)) {
        w->is_forged = true;
        return;
    }
    tell(w, who);
    if (noise == NO_NOISE) return;
    w->noise = w->beat;
    if (w->is_asked) w->up_base = w->beat;
    begins_anew(w);
}

/* ---- A run -------------------------------------------------------------------------------------------------------- */

/* In so many octet times all is told once noise has ended: T200 falls due, and the enquiry is answered. Then one frame goes for
 * the first message, and two in turn for each other. Of 18,000 runs (seed 1) none took more than 0.83 of it; nor did a call
 * of T200 and an answer. */
static long bound(const world *w, int untold) {
    return w->most_t200 + w->answered + (2 * untold - 1) * (w->longest + w->way);
}

static bool all_is_told(const world *w) {
    for (int i = 0; i < w->batch_count; i++)
        if (w->batches[i].left > 0) return false;
    return untold_at(w, 0) + untold_at(w, 1) == 0;
}

/* Neither noise nor a request is still to come. */
static bool is_quiet(const world *w) {
    for (int i = 0; i < w->batch_count; i++)
        if (!has_come(w, &w->batches[i].when)) return false;
    for (int i = 0; i < w->burst_count; i++)
        if (!has_come(w, &w->bursts[i].until)) return false;
    return w->is_asked;
}

static void measure(world *w, int which, long took, long most) {
    long *so_far = &longest[w->rate == SLOW ? 0 : 1][which];
    if (took > most) w->wrong = which == 0 ? "a call comes too late" : "a message is told too late";
    if (w->least && took > *so_far) *so_far = took;
}

/* It ends if N200 is used up, if noise makes a frame, if something is wrong, or a while after all is told. */
static void run(world *w) {
    long told = NEVER, up = NEVER, quiet = NEVER, wait = w->most_t200 + w->answered;
    for (;; w->beat++) {
        w->now = w->beat / w->rate;
        ask(w);
        for (int i = 0; i < 2; i++) fall_due(w, i);
        for (int i = 0; i < 2; i++) give(w, i);
        for (int i = 0; i < 2; i++) receive(w, i);
        if (w->is_over || w->is_forged || w->wrong != NULL) return;
        if (state_of(&w->ends[0]) < 7 || state_of(&w->ends[1]) < 7) up = NEVER;
        else if (up == NEVER) up = w->beat;
        if (!all_is_told(w)) told = NEVER;
        else if (told < w->base) told = w->beat;
        if (!is_quiet(w)) continue;
        if (quiet <= w->noise) quiet = w->beat;
        if (told != NEVER && up != NEVER && w->beat > told + wait && w->beat > quiet + wait) break;
        if (w->beat > quiet + 4 * bound(w, QUEUE)) goes_wrong(w, "a message is never told");
    }
    if (w->untold > 0) measure(w, w->untold == 1 ? 1 : 2, told - w->base, bound(w, w->untold));
    if (up > w->up_base) measure(w, 0, up - w->up_base, wait + 1);
}

int main(int count, char **words) {
    static world w;
    if (count < 2 || count > 4) fails("what is wanted is: after_noise RUNS [SEED [dropped|twice|stuck|late]]");
    long runs = atol(words[1]), seed = count > 2 ? atol(words[2]) : 1, over = 0, wrong = 0, forged = 0;
    int fault = 0;
    for (int i = 1; count > 3 && i <= LATE; i++)
        if (strcmp(words[3], faults[i]) == 0) fault = i;
    if (count > 3 && fault == 0) fails("no world is wrong in this way");
    for (long i = 0; i < runs; i++) {
        chance = ((uint64_t)(seed + i) + 1) * 0x9E3779B97F4A7C15u;
        draw(&w);
        w.fault = fault;
        run(&w);
        for (int j = 0; j < 2; j++) free_end(&w.ends[j]);
        if (w.wrong != NULL && fault == 0) printf("seed %ld: %s\n", seed + i, w.wrong);
        wrong += w.wrong != NULL;
        over += w.wrong == NULL && (w.is_over || w.is_given_up);
        forged += w.is_forged;
    }
    const long *slow = longest[0], *fast = longest[1];
    printf("%ld runs after noise: %ld given up and told, %ld wrong; ", runs - forged, over, wrong);
    printf("at 16 kbit/s a call took %ld ms at most, one message %ld, eight %ld; ", slow[0] / SLOW, slow[1] / SLOW, slow[2] / SLOW);
    printf("at 64 kbit/s %ld, %ld and %ld\n", fast[0] / FAST, fast[1] / FAST, fast[2] / FAST);
    return wrong == 0 ? 0 : 1;
}
