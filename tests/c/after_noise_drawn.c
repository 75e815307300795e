/* after_noise_drawn.c: what is drawn of a run with noise. See after_noise.h. For tests alone. */
#include "after_noise.h"

#include <string.h>

/* ---- Moments ------------------------------------------------------------------------------------------------------ */

int kind_of(const end *e, const uint8_t *frame, size_t length) {
    bool command = is_command(e, frame), bit = has_bit(frame, length);
    if ((frame[2] & 1) == 0) return INFORMATION;
    if ((frame[2] & 3) == 1 && frame[2] == 9 && !(command && bit)) return REJ;
    return bit ? command ? POLL : FINAL : ACKNOWLEDGEMENT;
}

bool has_come(const world *w, const moment *m) {
    return w->beat >= m->latest || (m->at != NEVER && w->beat >= m->at);
}

static void count_down(world *w, moment *m, int who, int what) {
    if (m->at != NEVER || m->who != who || (m->what & BEGINS) != (what & BEGINS) || (m->what & what & ~BEGINS) == 0) return;
    if (--m->left == 0) m->at = w->beat + w->way + m->more;
}

void happened(world *w, int who, int what) {
    for (int i = 0; i < w->burst_count; i++) {
        burst *b = &w->bursts[i];
        if (has_come(w, &b->from)) count_down(w, &b->until, who, what);
        else count_down(w, &b->from, who, what);
        if (b->kind == 0 || b->left == 0 || (what & b->kind) == 0 || what & (BEGINS | EXPIRY)) continue;
        if (!has_come(w, &b->from) || (b->at_ends & 2 >> who) == 0) continue;
        end *e = &w->ends[who];
        int octet = (e->first + e->count - 1 - (int)below((uint32_t)(e->count < 8 ? e->count : 8))) % MOST_IN_TRANSIT;
        w->hits[who][octet] = true;
        b->left--;
    }
    for (int i = 0; i < w->batch_count; i++) count_down(w, &w->batches[i].when, who, what);
}

int noise_at(const world *w, int who) {
    const end *other = &w->ends[1 - who];
    uint8_t octet = other->transit[other->first];
    int noise = w->hits[1 - who][other->first] ? octet ^ 1 << below(8) : octet;
    for (int i = 0; i < w->burst_count; i++) {
        const burst *b = &w->bursts[i];
        if (b->kind != 0 || (b->at_ends & 1 << who) == 0 || !has_come(w, &b->from) || has_come(w, &b->until)) continue;
        if ((int)below(100) < b->percent) noise = b->way == 0 ? (int)below(256) : b->way == 1 ? octet ^ 1 << below(8) : 0xFF;
    }
    return noise == octet ? NO_NOISE : noise;
}

/* ---- What is drawn: one number a statement, so that each compiler draws the same ---------------------------------- */

static moment at(long beat) {
    return (moment){.at = beat, .latest = beat};
}

/* A beat before the latest; or, mostly, what happens then, and the octets around it as they come to the other end. */
static moment some_moment(const world *w, long latest) {
    static const int kinds[] = {INFORMATION, POLL, POLL, POLL, FINAL, FINAL, ACKNOWLEDGEMENT, REJ, POLL | FINAL, EXPIRY};
    if (below(4) == 0) return at((long)below((uint32_t)latest + 1));
    int what = kinds[below(10)];
    if (what != EXPIRY && below(2) == 0) what |= BEGINS;
    long more = (long)below((uint32_t)w->way + 5) - w->way;
    if (what & BEGINS) more = (long)below(12) - 2;
    if (what == EXPIRY) more = (long)below((uint32_t)w->way + 40) - w->way;
    if (below(4) == 0) more = (long)below((uint32_t)w->longest);
    int who = (int)below(2), left = below(2) == 0 ? 1 : 1 + (int)below(3);
    return (moment){what, who, left, more, NEVER, latest};
}

static void draw_noise(world *w, long start, long t200) {
    w->burst_count = 1 + (int)below(MOST_BURSTS);
    for (int i = 0; i < w->burst_count; i++) {
        static const int percents[] = {100, 100, 100, 50, 10, 3};
        burst *b = &w->bursts[i];
        long from = start + (long)below((uint32_t)(2 * t200));
        long most = below(3) == 0 ? 40 : below(6) == 0 ? (w->n200 + 2) * t200 : 2 * t200, lasts = 1 + (long)below((uint32_t)most);
        b->at_ends = 1 + (int)below(3);
        b->percent = percents[below(6)];
        b->way = (int)below(3);
        b->from = below(3) == 0 ? some_moment(w, from) : at(from);
        b->until = some_moment(w, from + lasts);
        if (b->until.what == 0) b->until = at(from + lasts);
        if (below(3) != 0) continue;
        static const int kinds[] = {INFORMATION, POLL, FINAL, ACKNOWLEDGEMENT, REJ, ACKNOWLEDGEMENT | FINAL, REJ | FINAL,
                                    POLL | FINAL};
        b->kind = kinds[below(8)];
        b->left = 1 + (int)below(3);
    }
}

/* Often both ends ask at once, and for as much. */
static void draw_batches(world *w, long start, long t200) {
    w->batch_count = 1 + (int)below(MOST_BATCHES);
    int most = below(2) == 0 ? 1 : QUEUE;
    for (int i = 0; i < w->batch_count; i++) {
        batch *b = &w->batches[i];
        long latest = start + (long)below((uint32_t)(5 * t200));
        if (i > 0 && below(2) == 0) {
            *b = b[-1];
            b->who = 1 - b->who;
            if (below(2) == 0) b->when = at(latest);
            continue;
        }
        b->who = (int)below(2);
        b->left = below(3) == 0 ? 1 : most;
        b->length = below(3) == 0 ? 4 + below(N201 - 3) : N201;
        b->when = some_moment(w, latest);
    }
}

/* Noise takes all of both ways until a command has gone, or has just not; and both ends ask meanwhile, or just before. */
static void draw_last_command(world *w, long start) {
    int most = below(2) == 0 ? 1 : QUEUE;
    int who = (int)below(2), left = 1 + (int)below(3);
    moment until = {POLL, who, left, (long)below(8) - 4, NEVER, 100 * start};
    w->burst_count = 1;
    w->bursts[0] = (burst){.at_ends = 3, .percent = 100, .from = at(start), .until = until};
    w->batch_count = 2;
    for (int i = 0; i < 2; i++) {
        long when = below(3) == 0 ? start - (long)below((uint32_t)w->longest) : start + (long)below((uint32_t)(2 * w->longest));
        w->batches[i] = (batch){i, most, N201, at(when)};
    }
}

/* Noise takes an I-frame, and then answers to those that follow: REJ, acknowledgements, or answers to enquiries. */
static void draw_lost_answers(world *w, long start) {
    static const int kinds[] = {REJ, REJ | ACKNOWLEDGEMENT, FINAL, ACKNOWLEDGEMENT | FINAL};
    int who = (int)below(2), most = below(3) == 0 ? 1 : QUEUE, kind = kinds[below(4)], left = 1 + (int)below(3);
    w->burst_count = w->batch_count = 2;
    w->bursts[0] = (burst){.at_ends = 2 >> who, .kind = INFORMATION, .left = 1, .from = at(start), .until = at(start)};
    w->bursts[1] = (burst){.at_ends = 1 << who, .kind = kind, .left = left, .from = at(start), .until = at(start)};
    w->batches[0] = (batch){who, most, N201, at(start)};
    long when = start + (long)below((uint32_t)(4 * w->longest));
    w->batches[1] = (batch){1 - who, below(2) == 0 ? 0 : most, N201, at(when)};
}

void draw(world *w) {
    memset(w, 0, sizeof *w);
    bool is_primary = below(2) == 0, as_page = below(4) != 0;
    w->rate = is_primary ? FAST : SLOW;
    w->way = as_page ? is_primary ? 16 : 4 : (int)below(40);
    w->n200 = below(2) == 0 ? 3 : (int)below(11);
    w->longest = longest_frame(N201);
    w->answered = answered_in(N201, w->way, 2 * CONTROL);
    w->noise = w->base = w->up_base = NEVER;
    w->caller = (int)below(2);
    int least = enough_t200(w->answered, w->rate), most = 0;
    bool longer = below(4) == 0;
    w->least = as_page && !longer;
    uint16_t k = below(4) == 0 ? (uint16_t)(1 + below(QUEUE)) : is_primary ? 7 : 1;
    for (int i = 0; i < 2; i++) {
        end *e = &w->ends[i];
        lapd_config config = {.lines = 1, .terminals = 1, .k = k, .k16 = k, .queue = QUEUE, .unit_queue = 1, .control = CONTROL,
                              .slots = 20, .n201 = N201, .n200 = (uint16_t)w->n200, .side = i == 0 ? LAPD_USER : LAPD_NETWORK};
        start_end(e, &config, w->way);
        e->runs_t200 = least + (longer ? (int)below((uint32_t)(2 * least)) : 0);
        /* T203 is as long as T200 at least: with 1 ms an end enquires again before an I-frame can begin, for ever. */
        e->runs_t203 = below(4) == 0 ? e->runs_t200 + (int)below(3 * (uint32_t)e->runs_t200) : 10000;
        if (e->runs_t200 > most) most = e->runs_t200;
    }
    w->most_t200 = (long)most * w->rate;
    long t200 = w->most_t200, begins = below(2) == 0 ? 0 : 100 + 2 * (w->longest + w->way);
    w->call = at(begins == 0 ? (long)below((uint32_t)t200) : 0);
    uint32_t chosen = begins > 0 ? below(6) : 2;
    if (chosen == 0) draw_last_command(w, begins);
    else if (chosen == 1) draw_lost_answers(w, begins);
    else {
        draw_noise(w, begins, t200);
        draw_batches(w, begins, t200);
    }
}
